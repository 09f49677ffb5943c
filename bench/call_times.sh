#!/bin/sh
# Prints the median and the p99 of calls `add:` between two nodes that run as processes. Beside them
# stand round trips in plain C, and those of 100,000 bytes in C.
# sh bench/call_times.sh [PROGRAM [CALLS]]
# It is run by root, since it looks at packets, in a network of its own.
set -e
here=$(cd "$(dirname "$0")" && pwd)
program=$(realpath "${1:-$here/../crates/nukwashe/out/nukwashe}")
calls=${2:-10000}
folder=$(mktemp -d)
cp "$here/calls.world" "$folder"
cc -O2 -o "$folder/pingpong" "$here/pingpong.c"
cd "$folder"
printf 'starts 1\nuntil 1\nend\n' > server.starts
printf 'starts 1\nstart work: %s\nleave\nend\n' "$calls" > client.starts
cat > both.sh <<END
"$program" node 7302 calls.world server.starts 1000000000 > server.record &
"$program" node 7301 calls.world client.starts 1000000000 > client.record
wait
END
for round in 1 2 3; do
    ./pingpong "$calls"
    unshare -n sh -c 'ip link set lo up; python3 "$1/call_times.py" 7302 sh both.sh' sh "$here"
done
./pingpong 1000 100000
rm -rf "$folder"
