#!/bin/sh
# Prints what a transcript shows of one node, as the node's record has it. That is the blocks of its
# inputs that were enabled, without lines `wire ..`. A loss and the take behind it are one end.
# sh bench/blocks_of.sh PORT TRANSCRIPT
set -e
awk -v port="$1" '
    # A block that waits to be printed, until it is seen that it was not skipped.
    function over() { if (own && !skipped) printf "%s", block; own = 0; skipped = 0; block = "" }
    $1 == ">" {
        if (losing) { lost = skipped ? "" : from; losing = 0 }
        over()
        if ($2 == "lose" && $4 == port) { losing = 1; from = $3; next }
        own = ($2 != "lose" && $3 == port)
        if (own && $2 == "take" && $4 == lost) block = "> ended " port " " $4 "\n"
        else block = $0 "\n"
        lost = ""
        next
    }
    /^wire / { next }
    $0 == "skip" { skipped = 1; next }
    own { block = block $0 "\n" }
    END { over() }
' "$2"
