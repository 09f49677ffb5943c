#!/bin/sh
# Turns definitions and statements, and shows which laws fall with each. A must-fail edit reaches
# its own crate alone; a change here may be made to a crate below the laws that must refuse it.
# sh bench/turned_definitions.sh [NAME..]
#
# Each change bench/turned/NAME.edit is made to a copy of this repository. The crate of laws that
# its first line names is proved there. A line is printed for each. It is `NAME refused: LAW ..`,
# with the laws that are proved no longer, `NAME let through`, where all are, or
# `NAME not tried: ..`.
#
# A change has the form of a must-fail edit, but that its files are named from crates/ on. Libraries
# that `rt check` kept serve again, and what stands on a changed crate is proved anew: some minutes.
set -e
here=$(cd "$(dirname "$0")" && pwd)
top=$(dirname "$here")
if [ $# -eq 0 ]; then
    for edit in "$here"/turned/*.edit; do set -- "$@" "$(basename "$edit" .edit)"; done
fi
work=$(mktemp -d)
trap 'rm -rf "$work"' EXIT

# Copies the texts of a crate.
texts() {
    for part in src specs proofs; do
        rm -rf "$copy/crates/$1/$part"
        [ ! -d "$top/crates/$1/$part" ] || cp -r "$top/crates/$1/$part" "$copy/crates/$1"
    done
}

# Copies the crate of laws and what it stands on, with what was kept of it, where that is not done.
copy() {
    copy=$work/$1
    [ ! -d "$copy" ] || return 0
    mkdir -p "$copy/crates"
    cp "$top/HANDLES" "$copy"
    sed -n "s/^\($1\): *\(.*\)/\1 \2/p" "$top/crates.txt" | tr ' ' '\n' | while read -r crate; do
        [ -d "$top/crates/$crate" ] || continue
        grep "^$crate:" "$top/crates.txt" >> "$copy/crates.txt"
        mkdir "$copy/crates/$crate"
        texts "$crate"
        [ ! -d "$top/crates/$crate/out" ] || cp -rp "$top/crates/$crate/out" "$copy/crates/$crate"
    done
    git init -q "$copy"
}

# The crates that a change is made to.
changed() { sed -n 's/^file: crates\/\([^\/]*\)\/.*/\1/p' "$1" | sort -u; }

# Makes the change, and fails if a text that it changes does not stand there once.
turn() {
    awk -v copy="$copy/" '
        /^file: / { file = copy substr($0, 7) }
        /^old: / { old = substr($0, 6) }
        /^new:/ {
            text = ""
            while ((getline line < file) > 0) text = text line "\n"
            close(file)
            at = index(text, old)
            rest = substr(text, at + length(old))
            if (!at || index(rest, old)) exit 1
            printf "%s%s%s", substr(text, 1, at - 1), substr($0, 6), rest > file
            close(file)
        }' "$1"
}

# Forgets the libraries of the crates that are changed, and all that was kept of the crates above
# them. A crate that is changed keeps what it proved beside a change, as for a must-fail edit.
forget() {
    changed "$1" | while read -r crate; do
        rm -rf "$copy/crates/$crate/out/rlib"
        sed -n "s/^\([^:]*\):.* $crate\( .*\)*\$/\1/p" "$copy/crates.txt" |
            while read -r above; do rm -rf "$copy/crates/$above/out"; done
    done
}

for name in "$@"; do
    edit=$here/turned/$name.edit
    laws=$(sed -n 's/^laws: //p' "$edit")
    copy "$laws"
    if ! turn "$edit"; then
        echo "$name not tried: a text that it changes does not stand there once"
        changed "$edit" | while read -r crate; do texts "$crate"; done
        continue
    fi
    forget "$edit"
    (cd "$copy/crates/$laws" && nice -n 10 rt check --jobs 1) > "$work/log" 2>&1 || true
    fallen=$(sed -n 's/^fn .*::\([^:]*\): not proved$/\1/p' "$work/log" | tr '\n' ' ')
    if grep -q '^\(\./\)\{0,1\}specs/[^ ]*: error' "$work/log"; then
        echo "$name not tried: the changed text cannot be read"
    elif [ -n "$fallen" ]; then
        echo "$name refused: $fallen"
    elif grep -q '^logic=proved' "$work/log" && ! grep -q '^logic=not-proved' "$work/log"; then
        echo "$name let through"
    else
        echo "$name not tried: $(tail -n 1 "$work/log")"
    fi
    changed "$edit" | while read -r crate; do texts "$crate"; done
done
