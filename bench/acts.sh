#!/bin/sh
# Prints what an act of a long method costs, in processor time, where a schedule of a million steps
# is replayed. The methods count, count beside texts, move a text, and grow a list over and over, to
# 16, 128 and 1,024 items. What a schedule of 1,000 steps takes is taken off; each figure is the
# best of three runs.
# sh bench/acts.sh [PROGRAM]     the program must be built (./replay builds it)
set -e
cd "$(dirname "$0")/.."
program=$(realpath "${1:-crates/nukwashe/out/nukwashe}")
work=$(mktemp -d)
trap 'rm -rf "$work"' EXIT

counting='num l4 7104
num l5 0
num l6 1000000000
num l7 1
num l13 0
self l10
@again
less l11 l5 l6
ifnot l11 @done
add l5 l5 l7
jump @again
@done'
texts='text l2 "board"
text l8 "N"'
moving='text l1 "board"
@again
move l2 l1
move l3 l2
jump @again'

# A method that grows a list to so many items, over and over.
growing() {
    printf 'num l1 7\nnum l2 %s\nnum l4 1\n@again\nlist l0\nnum l3 0\n@more\n' "$1"
    printf 'push l0 l1\nadd l3 l3 l4\nless l5 l3 l2\nifnot l5 @again\njump @more\n'
}

# The processor seconds of a method in so many thousand steps.
seconds() {
    {
        printf 'version = 1\n[[class]]\nname = "Node"\n[[class.method]]\nselector = "go"\n'
        printf "types = \"v@:\"\ncode = '''\n%s\n'''\n[[node]]\nport = 1\nroot = \"Node\"\n" "$1"
    } > "$work/world.toml"
    awk -v count="$2" 'BEGIN {
        print "schedule 2\nstart 1 go"
        for (; count > 0; count--) print "run 1 1000"
        print "end"
    }' > "$work/schedule"
    for _ in 1 2 3; do
        /usr/bin/time -f '%U %S' "$program" replay "$work/world.toml" "$work/schedule" \
            2>> "$work/times" > "$work/transcript"
    done
    if grep -qE '^(skip|raise)' "$work/transcript"; then
        echo "a step was none of the method" >&2
        exit 1
    fi
    awk 'NR == 1 || $1 + $2 < best { best = $1 + $2 } END { print best }' "$work/times"
    rm "$work/times"
}

# The line of a method.
tell() {
    echo "$(seconds "$2" 999) $(seconds "$2" 1)" |
        awk -v name="$1" '{ printf "%-28s %6.0f ns\n", name, ($1 - $2) / 998000 * 1e9 }'
}

tell 'counting' "$counting"
tell 'counting beside texts' "$texts
$counting"
tell 'a text moved' "$moving"
for items in 16 128 1024; do
    tell "list by push, $items items" "$(growing $items)"
done
