#!/bin/sh
# Runs a program with words once for each allocation that it makes, with that one refused.
# Prints how many of the runs wrote what an undisturbed one writes, and each that did anything else.
# Beside them it prints how many ended in an error since what stands around the calls had no memory.
# sh bench/memory.sh PROGRAM [WORD ..]    the word is `memory` where there is none; `rt run` in the
# folder of the program builds it
set -e
cd "$(dirname "$0")/.."
name=$1
shift
program=$PWD/crates/$name/out/$name
[ $# -gt 0 ] || set -- memory
work=$(mktemp -d)
trap 'rm -rf "$work"' EXIT
rustc --edition 2021 -O -C panic=abort --crate-type cdylib -o "$work/fail_alloc.so" \
    bench/fail_alloc.rs
if [ -d "crates/$name/data" ]; then cd "crates/$name/data"; fi
run() {
    refused=$1
    shift
    FAIL_ALLOC=$refused LD_PRELOAD=$work/fail_alloc.so timeout 60 "$program" "$@" \
        > "$work/out" 2> "$work/err"
}
run 0 "$@"
cp "$work/out" "$work/want"
total=$(sed -n 's/^allocations //p' "$work/err")
same=0 ended=0 other=0 number=1
while [ "$number" -le "$total" ]; do
    status=0
    run "$number" "$@" || status=$?
    if [ "$status" = 0 ] && cmp -s "$work/out" "$work/want"; then
        same=$((same + 1))
    elif [ "$status" = 1 ] && grep -qE 'OutOfMemory|AllocError|Memory$|no class' "$work/err"; then
        ended=$((ended + 1))
    else
        other=$((other + 1))
        echo "allocation $number: status $status"
    fi
    number=$((number + 1))
done
echo "$total allocations of $name $*, refused one by one: $same runs wrote the same,"
echo "$ended had no memory around the calls, $other did anything else"
[ "$other" = 0 ]
