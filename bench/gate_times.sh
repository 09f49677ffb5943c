#!/bin/sh
# Runs the gate from nothing on a copy of this repository. It prints for each crate the processor
# seconds of its proof, of its tests' proof and of its must-fail edits. Then come the sums and the
# time on the clock. The gate's own last lines come first.
# sh bench/gate_times.sh
#
# The seconds are read off the running checks and what they waited for twice a second. So up to half
# a second of each check (of each edit: of some 20) is missed.
set -e
cd "$(dirname "$0")/.."
work=$(mktemp -d)
trap 'rm -rf "$work"' EXIT
mkdir "$work/copy"
tar cf - --exclude=out crates crates.txt HANDLES | (cd "$work/copy" && tar xf -)
# A kit which keeps what earlier runs proved is told to prove it anew.
anew=""
rt help > "$work/help" 2>&1 || true
if grep -q -e '--anew' "$work/help"; then anew=--anew; fi
git init -q "$work/copy"
began=$(date +%s)
(cd "$work/copy" && rt ci $anew > "$work/log" 2>&1; echo "$?" > "$work/status") &
gate=$!
while kill -0 "$gate" 2> "$work/none"; do
    ps -eo pid=,comm=,args= -ww
    cat /proc/[0-9]*/stat 2> "$work/none" | sed 's/^\([0-9]*\) (.*) /stat \1 /'
    sleep 0.5
done | awk -v ticks="$(getconf CLK_TCK)" '
    $1 == "stat" {
        if ($2 in checks) seconds[$2 " " checks[$2]] = ($14 + $15 + $16 + $17) / ticks
        next
    }
    $2 != "rattle" || !/--crate-name/ { next }
    {
        for (i = 3; i < NF; i++) if ($i == "--crate-name") crate = $(i + 1)
        part = / --incremental [^ ]*rt-edits-/ ? "edits" : / --test / ? "tests" : "proof"
        checks[$1] = crate " " part
    }
    END { for (key in seconds) print key, seconds[key] }
' > "$work/seconds"
tail -n 3 "$work/log"
awk -v wall="$(($(date +%s) - began))" '
    NR == FNR { if ($1 ~ /:$/) { sub(":", "", $1); order[++count] = $1 }; next }
    { used[$2, $3] += $4; all[$3] += $4 }
    END {
        form = "%-18s %7d %7d %7d %7d\n"
        printf "%-18s %7s %7s %7s %7s\n", "crate", "proof", "tests", "edits", "sum"
        for (i = 1; i <= count; i++) {
            crate = order[i]
            printf form, crate, used[crate, "proof"], used[crate, "tests"], used[crate, "edits"],
                used[crate, "proof"] + used[crate, "tests"] + used[crate, "edits"]
        }
        printf form, "all", all["proof"], all["tests"], all["edits"],
            all["proof"] + all["tests"] + all["edits"]
        printf "%d s on the clock\n", wall
    }
' crates.txt "$work/seconds"
exit "$(cat "$work/status")"
