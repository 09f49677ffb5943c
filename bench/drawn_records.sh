#!/bin/sh
# Draws schedules over `:mesh` with calls, closes and ends without notice, and cuts the transcript
# of each into one record a node. It weaves these, replays what is woven, and compares what that
# shows of each node with its record. Neither the drawing nor the cutting is done by the program.
# sh bench/drawn_records.sh [PROGRAM [SETS [NUMBER]]]
# There are SETS sets (10 if none is given). They are drawn by the numbers from NUMBER on (1 if none
# is given). A drawn schedule in which a loss is not taken at once has no records, and is passed
# over.
set -e
here=$(cd "$(dirname "$0")" && pwd)
program=$(realpath "${1:-$here/../crates/nukwashe/out/nukwashe}")
sets=${2:-10}
number=${3:-1}
work=$(mktemp -d)
trap 'rm -rf "$work"' EXIT
cd "$work"

# A schedule that a number draws: 2,000 lines, of which some 12 close an end or find it ended.
draw() {
    awk -v seed="$1" 'BEGIN {
        srand(seed)
        print "schedule 2"
        for (i = 0; i < 2000; i++) {
            p = 7001 + int(rand() * 4)
            q = 7001 + int(rand() * 4)
            k = rand()
            if (k < 0.10) print "start " p " go: " q
            else if (k < 0.55) print "run " p " 1"
            else if (p == q) i--
            else if (k < 0.994) print "take " p " " q
            else if (k < 0.997) print "close " p " " q
            else { print "lose " q " " p " 0"; print "take " p " " q }
        }
        print "end"
    }'
}

# Whether each loss of a transcript was taken at once.
taken_at_once() {
    awk '
        function over() {
            if (kind == "take" && lost && skipped) bad = 1
            lost = (kind == "lose" && !skipped)
            skipped = 0
        }
        $1 == ">" { over(); kind = $2; next }
        $0 == "skip" { skipped = 1 }
        END { over(); exit bad }
    ' "$1"
}

done=0
while [ "$done" -lt "$sets" ]; do
    draw "$number" > drawn.schedule
    "$program" replay :mesh drawn.schedule > drawn.transcript
    if ! taken_at_once drawn.transcript; then
        number=$((number + 1))
        continue
    fi
    rm -f ./*.record
    for port in 7001 7002 7003 7004; do
        {
            echo "record 1 $port"
            "$here/blocks_of.sh" "$port" drawn.transcript
            echo "> end"
        } > "$port.record"
    done
    "$program" weave :mesh ./*.record > woven.schedule
    "$program" replay :mesh woven.schedule > woven.transcript
    for port in 7001 7002 7003 7004; do
        sed -e 1d -e '/^> end$/d' "$port.record" > said
        "$here/blocks_of.sh" "$port" woven.transcript | cmp -s - said || {
            echo "set $number: node $port differs"
            exit 1
        }
    done
    echo "set $number: $(cat ./*.record | grep -c '^> ') inputs," \
        "$(cat ./*.record | grep -c '^> ended') ends without notice," \
        "$(cat ./*.record | grep -c '^> close') closes"
    done=$((done + 1))
    number=$((number + 1))
done
