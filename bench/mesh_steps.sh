#!/bin/sh
# Replays schedules of up to a million single steps over :mesh, three times each. It prints for each
# its least processor time and greatest memory. For the steps that it has more than the one before
# it prints what a step took, with the ratio to the first.
# sh bench/mesh_steps.sh          the table; the program must be built (./replay builds it)
# sh bench/mesh_steps.sh STEPS    the schedule of so many steps, on standard output
set -e
cd "$(dirname "$0")/.."
program=crates/nukwashe/out/nukwashe

# Whole calls of `go:`, by turns from 7001 to 7002 and from 7003 to 7004, until there are so many
# steps. A call is 28 steps, and the first of each pair 27, since no item of an earlier one is
# freed.
schedule() {
    awk -v steps="$1" '
        function call(p, q, first) {
            print "start", p, "go:", q "\nrun", p, "1\ntake", q, p "\ntake", p, q
            print "run", p, "4\ntake", q, p
            print "run", q, "2\ntake", p, q
            if (!first) print "take", p, q
            print "run", p, "3\ntake", q, p "\nrun", q, "2\ntake", p, q "\nrun", p, "2\ntake", q, p
            print "run", q, "1\ntake", p, q "\nrun", p, "2\ntake", q, p
            return first ? 27 : 28
        }
        BEGIN {
            print "schedule 2"
            for (calls = 0; done + 28 < steps; calls++)
                done += calls % 2 ? call(7003, 7004, calls == 1) : call(7001, 7002, calls == 0)
            print "check\nend"
        }'
}

if [ $# -gt 0 ]; then
    schedule "$1"
    exit 0
fi
work=$(mktemp -d)
trap 'rm -rf "$work"' EXIT
for steps in 100000 200000 400000 600000 800000 1000000; do
    schedule "$steps" > "$work/schedule"
    for _ in 1 2 3; do
        /usr/bin/time -f "$steps %U %S %M" "$program" replay :mesh "$work/schedule" \
            2>> "$work/figures" > "$work/transcript"
    done
    if grep -q '^skip$' "$work/transcript"; then
        echo "a line of the schedule does nothing" >&2
        exit 1
    fi
done
awk '
    { took = $2 + $3 }
    !($1 in time) { order[++count] = $1 }
    !($1 in time) || took < time[$1] { time[$1] = took }
    $4 > memory[$1] { memory[$1] = $4 }
    END {
        printf "%10s %9s %16s %6s %9s\n", "steps", "time", "a step of them", "ratio", "memory"
        for (i = 1; i <= count; i++) {
            n = order[i]
            step = (time[n] - time[before]) / (n - before) * 1e9
            if (i == 1) first = step
            printf "%10d %7.2f s %13.0f ns %6.2f %6.1f MB\n", n, time[n], step, step / first,
                memory[n] / 1024
            before = n
        }
    }' "$work/figures"
