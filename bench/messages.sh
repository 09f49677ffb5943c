#!/bin/sh
# Prints the processor time of a large message and its reply between two nodes that run as
# processes, in both together. The message is a ring of objects that is copied, a list of objects
# that are named and given back, or a list of numbers.
# sh bench/messages.sh [PROGRAM [ITEMS]]
# ITEMS items are sent in all for each figure, 200,000 where no number is given. The ports 7303 and
# 7304 of this machine must be free. What a run without a message takes is taken off; each figure is
# the least of three rounds.
set -e
here=$(cd "$(dirname "$0")" && pwd)
program=$(realpath "${1:-$here/../crates/nukwashe/out/nukwashe}")
total=${2:-200000}
folder=$(mktemp -d)
trap 'rm -rf "$folder"' EXIT
cp "$here/messages.world" "$folder"
cd "$folder"
printf 'starts 1\nuntil 1\nend\n' > server.starts

# A node of a name as a process, which adds its processor time to the figures.
node() {
    /usr/bin/time -a -o "$1.times" -f '%U %S' \
        "$program" node "$2" messages.world "$1.starts" 1000000000 > "$1.record"
}

# The processor seconds that both nodes take for what the client is started with.
seconds() {
    printf 'starts 1\nstart %s\nleave\nend\n' "$*" > client.starts
    rm -f server.times client.times
    node server 7304 &
    node client 7303
    wait
    if grep -q '^raise' client.record; then
        echo "a call was refused" >&2
        exit 1
    fi
    awk '{ sum += $1 + $2 } END { print sum }' server.times client.times
}

printf '%-8s %6s %14s %14s\n' message items microseconds 'ns an item'
for kind in ring names numbers; do
    for items in 16 256 1024; do
        times=$((total / items))
        for _ in 1 2 3; do
            echo "$(seconds "$kind:times: $items $times") $(seconds "$kind:times: $items 0")"
        done | awk -v kind="$kind" -v items="$items" -v times="$times" '
            { took = ($1 - $2) / times * 1e9 }
            NR == 1 || took < least { least = took }
            END { printf "%-8s %6d %14.1f %14.0f\n", kind, items, least / 1000, least / items }'
    done
done
