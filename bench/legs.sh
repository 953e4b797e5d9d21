#!/bin/bash
# Times legs that are turned to their end over sessions in memory: those whose session holds the set, which take it
# and put it back, and those that search and are handed ten records of 100 octets, of 10,000 and of 100,000. The
# records are made once and handed on as they are, so a leg that copied none takes no longer where they are larger.
# Prints medians of 5 runs. The status is 1 where larger records take more than twice as long, or where a run fails.
bench=bench_legs
. "$(dirname "$0")/readers.sh"

reuse=$(median_each reuse 100 400000) && small=$(median_each fetch 100 100000) || exit 1
middle=$(median_each fetch 10000 100000) && large=$(median_each fetch 100000 100000) || exit 1
echo "$reuse $small $middle $large" | awk '{
    printf "reuse: %d legs of 2 turns a second, %d turns\n", 1e9 / $1, 2e9 / $1
    printf "fetch: %d legs of 6 turns a second, %d turns, with ten records of 100 octets; ", 1e9 / $2, 6e9 / $2
    printf "of 10000 octets they take %.2f times as long, of 100000 %.2f times\n", $3 / $2, $4 / $2
    exit ($3 > 2 * $2 || $4 > 2 * $2) }'
