#!/bin/sh
# Prints the microseconds of a call `add:` and its reply between two nodes that run as processes.
# Beside them stand round trips of 20 bytes in plain C. Then it prints those of a text of 100,000
# bytes there and back.
# sh bench/calls.sh [PROGRAM [CALLS]]
# The ports 7301 and 7302 of this machine must be free. The times of a run of no call are taken off.
set -e
here=$(cd "$(dirname "$0")" && pwd)
program=$(realpath "${1:-$here/../crates/nukwashe/out/nukwashe}")
calls=${2:-20000}
folder=$(mktemp -d)
cp "$here/calls.world" "$folder"
cc -O2 -o "$folder/pingpong" "$here/pingpong.c"
cd "$folder"
printf 'starts 1\nuntil 1\nend\n' > server.starts

# The nanoseconds that both nodes take for what the client is started with.
nanoseconds() {
    printf 'starts 1\nstart %s\nleave\nend\n' "$1" > client.starts
    began=$(date +%s%N)
    "$program" node 7302 calls.world server.starts 1000000000 > server.record &
    "$program" node 7301 calls.world client.starts 1000000000 > client.record
    wait
    echo $(($(date +%s%N) - began))
}

none=$(nanoseconds "work: 0")
for round in 1 2 3; do
    ./pingpong "$calls"
    all=$(nanoseconds "work: $calls")
    echo "$all $none $calls" | awk '{ printf "%.1f microseconds a call\n", ($1 - $2) / $3 / 1000 }'
done
all=$(nanoseconds "text: \"$(head -c 100000 /dev/zero | tr '\0' x)\"")
echo "$all $none 100" |
    awk '{ printf "%.1f microseconds a text there and back\n", ($1 - $2) / $3 / 1000 }'
rm -rf "$folder"
