#!/bin/sh
# The checks after the proofs, which need tools that a machine may lack.
# sh bench/after_gate.sh
# The status is 1 where one of them found a fault. One that cannot run here, or does not end in
# time, says so and counts for nothing.
cd "$(dirname "$0")/.." || exit 0
status=0

# check SECONDS FAULT COMMAND..: FAULT is the status of the command by which it says that it failed.
check() {
    limit=$1 fault=$2
    shift 2
    timeout -k 5 "$limit" "$@"
    came=$?
    case $came in
        0) ;;
        "$fault") status=1 && echo "after the gate: FAILED: $*" ;;
        *) echo "after the gate: passed over with status $came: $*" ;;
    esac
}

check 400 1 sh clients/python/test.sh
check 125 3 sh bench/hostile.sh
exit $status
