#!/bin/sh
# Hostile peers against nodes that run as processes. For each case a line says what came of it.
#
#   sh bench/hostile.sh [PROGRAM [WORD..]]
#
# PROGRAM is the proved program; if none is given it is looked for where `./replay` builds it, and
# where the toolchain keeps what it proved. With words, the cases run whose names have one of them.
# The status is 3 where the program did what it must not do. Such is ending, serving an honest peer
# no more, or taking memory without bound. A case that this machine cannot run is told, and counts
# for nothing. It takes two minutes at most.
here=$(cd "$(dirname "$0")" && pwd)
program=${1:-$here/../crates/nukwashe/out/nukwashe}
[ $# -eq 0 ] || shift
if [ ! -f "$program" ]; then
    kit=$(dirname "$(dirname "$(readlink -f "$(command -v rt)")")")
    program=$(ls -t "$(dirname "$kit")"/rattle-kept/proof-nukwashe-*/0 2> /dev/null | head -n 1)
fi
program=$(realpath "${program:-nukwashe}")
folder=$(mktemp -d)
trap 'rm -rf "$folder"' EXIT
# What the toolchain keeps may be no program that can be started where it lies.
if [ -f "$program" ] && [ ! -x "$program" ]; then
    cp "$program" "$folder/nukwashe" && chmod +x "$folder/nukwashe"
    program=$folder/nukwashe
fi
for needed in python3 timeout "$program"; do
    if ! command -v "$needed" > /dev/null; then
        echo "hostile: there is no $needed, so nothing is run"
        exit 0
    fi
done
export PYTHONDONTWRITEBYTECODE=1
set -- timeout 118 python3 "$here/hostile/main.py" "$program" "$@"

# In a network of its own, so that neither ports nor another run of this script stand in the way.
if unshare -n ip link set lo up 2> /dev/null; then
    set -- unshare -n sh -c 'ip link set lo up; exec "$@"' sh "$@"
fi
"$@"
