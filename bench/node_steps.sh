#!/bin/sh
# Replays a million single steps over worlds of 2, 8, 32 and 64 nodes, in which each node in turn
# calls the next one. It prints for each the least processor time of three runs, what a step took,
# and its ratio to that of two nodes.
# sh bench/node_steps.sh [PROGRAM]     the program must be built (./replay builds it)
set -e
cd "$(dirname "$0")/.."
program=$(realpath "${1:-crates/nukwashe/out/nukwashe}")
work=$(mktemp -d)
trap 'rm -rf "$work"' EXIT
calls=62480

# So many nodes, each of which knows how to add and to call another.
world() {
    cat <<'WORLD'
version = 1

[[class]]
name = "Member"
slots = ["value"]

[[class.method]]
selector = "begin"
types = "v@:"
code = '''
num l1 0
set value l1
'''

[[class.method]]
selector = "add:"
types = "q@:q"
code = '''
get l1 value
add l1 l1 l0
set value l1
return l1
'''

[[class.method]]
selector = "call:"
types = "v@:q"
code = '''
root l0 l0
num l1 1
send l2 l0 add: l1
'''
WORLD
    for port in $(seq 7001 $((7000 + $1))); do
        printf '\n[[node]]\nport = %d\nroot = "Member"\n' "$port"
    done
}

# Each node begins, in four steps; then nodes call the next one by turns, in 16 steps a call.
schedule() {
    awk -v nodes="$1" -v calls="$calls" 'BEGIN {
        print "schedule 2"
        for (port = 7001; port < 7001 + nodes; port++) print "start", port, "begin\nrun", port, "3"
        for (call = 0; call < calls; call++) {
            p = 7001 + call % nodes
            q = 7001 + (call + 1) % nodes
            print "start", p, "call:", q "\nrun", p, "1\ntake", q, p "\ntake", p, q
            print "run", p, "3\ntake", q, p "\nrun", q, "4\ntake", p, q "\nrun", p, "2\ntake", q, p
        }
        print "check\nend"
    }'
}

for nodes in 2 8 32 64; do
    world $nodes > "$work/world.toml"
    schedule $nodes > "$work/schedule"
    for _ in 1 2 3; do
        /usr/bin/time -f "$nodes %U %S" "$program" replay "$work/world.toml" "$work/schedule" \
            2>> "$work/figures" > "$work/transcript"
    done
    if grep -q '^skip$' "$work/transcript"; then
        echo "a line of the schedule does nothing" >&2
        exit 1
    fi
done
awk -v calls="$calls" '
    { took = $2 + $3 }
    !($1 in time) { order[++count] = $1 }
    !($1 in time) || took < time[$1] { time[$1] = took }
    END {
        printf "%6s %9s %9s %6s\n", "nodes", "time", "a step", "ratio"
        for (i = 1; i <= count; i++) {
            nodes = order[i]
            step = time[nodes] / (16 * calls + 4 * nodes + 1) * 1e9
            if (i == 1) first = step
            printf "%6d %7.2f s %6.0f ns %6.2f\n", nodes, time[nodes], step, step / first
        }
    }' "$work/figures"
