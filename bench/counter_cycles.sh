#!/bin/sh
# Prints a schedule over :counter of N whole calls of `go:`, 17 single steps each but the first,
# which has 16.
# sh bench/counter_cycles.sh N
awk -v n="${1:-1000}" 'BEGIN {
    print "schedule 2"
    for (i = 0; i < n; i++) {
        print "start 7001 go: " i % 1000
        print "run 7001 2"
        if (i > 0) print "take 7002 7001"
        print "take 7002 7001\ntake 7001 7002\nrun 7001 2"
        print "take 7002 7001\nrun 7002 4\ntake 7001 7002\nrun 7001 3"
    }
    print "check\nend"
}'
