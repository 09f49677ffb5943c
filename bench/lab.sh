#!/bin/sh
# Runs two plans as processes: the copy and paste of examples/session, and one of 16 nodes. Each
# node of the second sends 100 calls `add:` to each of the three next to it. It answers as many of
# each of the three before it. The script weaves what their nodes recorded into one schedule,
# replays that, and compares what the transcript shows of each node with the node's record. Prints
# for each run the seconds of each part, and how many lines the records and the transcript have. It
# stops at the first run that fails, that takes more than two minutes, or that differs.
# sh bench/lab.sh [PROGRAM [PORT [RUNS]]]
# The 16 ports of this machine from PORT on (7501 if none is given) must be free. There are RUNS
# runs of each plan (one if none is given).
set -e
here=$(cd "$(dirname "$0")" && pwd)
program=$(realpath "${1:-$here/../crates/nukwashe/out/nukwashe}")
first=${2:-7501}
runs=${3:-1}
count=16
limit=120
work=$(mktemp -d)
trap 'rm -rf "$work"' EXIT

# The port of a node that stands so many behind the first, counted in a ring.
port() { echo $((first + $1 % count)); }

# Runs a command, and tells the seconds that it took.
timed() {
    what=$1
    shift
    began=$(date +%s%N)
    "$@"
    echo "$what $(($(date +%s%N) - began))" | awk '{ printf "%s %.2f s, ", $1, $2 / 1e9 }'
}

run_plan() { timeout "$limit" "$program" lab "$1" > ends; }
weave() { timeout "$limit" "$program" weave "$1" ./*.record > woven.schedule; }
replay() { timeout "$limit" "$program" replay "$1" woven.schedule > transcript; }

# Runs a plan over a world, and compares what is replayed with what each node recorded.
run() {
    timed lab run_plan "$1"
    timed weave weave "$2"
    timed replay replay "$2"
    for record in ./*.record; do
        "$here/blocks_of.sh" "$(basename "$record" .record)" transcript > replayed
        sed -e 1d -e '/^> end$/d' "$record" | cmp -s - replayed || {
            echo "$record differs from what the transcript shows"
            exit 1
        }
    done
    echo "$(cat ./*.record | wc -l) lines of records, $(wc -l < transcript) of the transcript"
}

# The five nodes of examples/session, with ports from the first on.
session() {
    for file in desk.toml session.plan owner.starts reader.starts two.starts; do
        sed -e "s/\\b7100\\b/$(port 0)/g" -e "s/\\b7101\\b/$(port 1)/g" \
            -e "s/\\b7102\\b/$(port 2)/g" -e "s/\\b7103\\b/$(port 3)/g" \
            -e "s/\\b7104\\b/$(port 4)/g" "$here/../examples/session/$file" > "$file"
    done
}

# 16 nodes in a ring.
ring() {
    cp "$here/ring.world" .
    echo "plan 1" > ring.plan
    for node in $(seq 0 $((count - 1))); do
        printf '\n[[node]]\nport = %s\nroot = "Member"\n' "$(port "$node")" >> ring.world
        echo "node $(port "$node") ring.world $(port "$node").starts 1000000000" >> ring.plan
        {
            echo "starts 1"
            for next in 1 2 3; do echo "start visit: $(port $((node + next)))"; done
            printf 'serve 300\nleave\nend\n'
        } > "$(port "$node").starts"
    done
    echo "end" >> ring.plan
}

for number in $(seq "$runs"); do
    for plan in session ring; do
        mkdir "$work/$plan$number"
        cd "$work/$plan$number"
        "$plan"
        printf '%s %s: ' "$plan" "$number"
        case $plan in
            session) run session.plan desk.toml ;;
            ring) run ring.plan ring.world ;;
        esac
        cd "$work"
        rm -rf "$work/$plan$number"
    done
done
