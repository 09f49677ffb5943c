#!/bin/sh
# Prints what a single step costs, in processor time, of a node that stores 10 to 40,000 objects,
# each linked to the one before. First are the seconds that it took to fill the node. Then come a
# step that only jumps, and a step of a loop of three, of which one makes an object and one frees
# it. Each figure is the best of three runs.
# sh bench/steps.sh          the table; the program must be built (./replay builds it)
set -e
cd "$(dirname "$0")/.."
program=crates/nukwashe/out/nukwashe
work=$(mktemp -d)
trap 'rm -rf "$work"' EXIT

cat > "$work/world.toml" <<'WORLD'
version = 1

[[class]]
name = "Item"
slots = ["next"]

[[class.method]]
selector = "link:"
types = "v@:@"
code = '''
set next l0
'''

[[class]]
name = "Holder"
slots = ["last"]

[[class.method]]
selector = "fill:"
types = "v@:q"
code = '''
num l1 1
num l3 0
@again
less l2 l3 l0
ifnot l2 @done
new l4 Item
get l5 last
send l6 l4 link: l5
set last l4
add l3 l3 l1
jump @again
@done
'''

[[class.method]]
selector = "turn"
types = "v@:"
code = '''
@again
jump @again
'''

[[class.method]]
selector = "make"
types = "v@:"
code = '''
@again
new l0 Item
nil l0
jump @again
'''

[[node]]
port = 1
root = "Holder"
WORLD

# A node is filled with so many objects, and then does STEPS steps of a method.
schedule() {
    awk -v n="$1" -v method="$2" -v steps="$3" '
        function run(count) {
            for (; count > 1000; count -= 1000) print "run 1 1000"
            if (count > 0) print "run 1", count
        }
        BEGIN {
            print "schedule 2\nstart 1 fill:", n
            run(11 * n + 20)
            if (steps > 0) print "start 1", method
            run(steps)
            print "check\nend"
        }'
}

# The processor seconds of a schedule.
seconds() {
    schedule "$@" > "$work/schedule"
    for _ in 1 2 3; do
        /usr/bin/time -f '%U %S' "$program" replay "$work/world.toml" "$work/schedule" \
            2>> "$work/times" > /dev/null
    done
    awk 'NR == 1 || $1 + $2 < best { best = $1 + $2 } END { print best }' "$work/times"
    rm "$work/times"
}

printf '%10s %9s %14s %14s\n' objects filled jumping making
for n in 10 100 1000 10000 40000; do
    # A schedule has at most 1,000,000 steps.
    steps=$((980000 - 11 * n))
    filled=$(seconds $n turn 0)
    turned=$(seconds $n turn $steps)
    made=$(seconds $n make $steps)
    awk -v n=$n -v steps=$steps -v filled="$filled" -v turned="$turned" -v made="$made" 'BEGIN {
        printf "%10d %7.2f s %11.0f ns %11.0f ns\n", n, filled,
            (turned - filled) / steps * 1e9, (made - filled) / steps * 1e9
    }'
done
