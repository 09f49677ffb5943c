#!/bin/sh
# Tests the Python package. There are frames that were worked out elsewhere, and nodes that are
# Python programs beside one another, and beside nodes of the program if it was built.
#
#   clients/python/test.sh [PROGRAM]
#
# PROGRAM is the proved program; if none is given it is looked for where `./replay` builds it, and
# where the toolchain keeps what it proved. What is missing is said, and is no failure. Tests that
# fail are run once more alone, since a machine under load can make any of them late. They have
# failed where they fail again.
program=
if [ $# -gt 0 ]; then program=$(realpath "$1"); fi
cd "$(dirname "$0")" || exit 1
tell() { echo "clients/python: $*" >&2; }

if ! python3 -c 'import sys; sys.exit(sys.version_info < (3, 11))' 2> /dev/null; then
    tell "not tested, since there is no python3 of 3.11 or later"
    exit 0
fi

# The newest of these files.
newest() {
    found=
    for file in "$@"; do
        [ -f "$file" ] || continue
        if [ -z "$found" ] || [ "$file" -nt "$found" ]; then found=$file; fi
    done
    echo "$found"
}

if [ -z "$program" ]; then
    kit=$(dirname "$(dirname "$(readlink -f "$(command -v rt)")")")
    program=$(newest "$PWD/../../crates/nukwashe/out/nukwashe" \
        "$(dirname "$kit")"/rattle-kept/proof-nukwashe-*/0)
fi
folder=$(mktemp -d) || exit 0
trap 'rm -rf "$folder"' EXIT
if [ -n "$program" ]; then
    tell "with the program $program"
    # What the toolchain keeps cannot be started where it lies.
    if [ ! -x "$program" ]; then
        cp "$program" "$folder/nukwashe" && chmod +x "$folder/nukwashe"
        program=$folder/nukwashe
    fi
    export NUKWASHE="$program"
else
    tell "without the program, which was not built: nothing is tried beside it"
fi
export PYTHONDONTWRITEBYTECODE=1
python3 -m tests
