#!/bin/bash
# Times how many sessions a second a pool of one thread takes and has back, where 10, 100, 1000 and 10,000 are idle
# with ten sets each: any session, one that holds a set that the first holds or the last, and one where none holds
# the set. Prints medians of 5 runs and by how much they grow. The plain pool looks at each session, so it may grow
# with their number, and nothing is demanded of it. The pool by indexes has to take and have back at least a million
# sessions a second where 1000 are idle, in at most twice the time of 10, and at 10,000 in at most four times; and where
# 1000 are idle inside 1, 10 or 100 logins, in at most twice the time of 10 inside one, be the login that of the first
# session or of the last. The status is 1 where it does not, or where a run fails.
bench=bench_pool
. "$(dirname "$0")/readers.sh"

for want in any first last other; do
    few=$(median_each $want 10 400000) && more=$(median_each $want 100 40000) && most=$(median_each $want 1000 4000) || exit 1
    echo "$want $few $more $most" | awk '{
        printf "%s: %d takes and puts a second at 10 idle sessions, %d at 100, %d at 1000; ", $1, 1e9 / $2, 1e9 / $3, 1e9 / $4
        printf "ten times the sessions take %.1f and %.1f times as long\n", $3 / $2, $4 / $3 }'
done

failed=0
for want in any first last other; do
    few=$(median_each indexed-$want 10 400000) && more=$(median_each indexed-$want 100 400000) || exit 1
    most=$(median_each indexed-$want 1000 400000) && many=$(median_each indexed-$want 10000 400000) || exit 1
    echo "$want $few $more $most $many" | awk '{
        printf "%s, by indexes: %d takes and puts a second at 10 idle sessions, %d at 100, %d at 1000, %d at 10,000; ", $1, 1e9 / $2, 1e9 / $3, 1e9 / $4, 1e9 / $5
        printf "1000 take %.2f times as long as 10, and 10,000 %.2f times\n", $4 / $2, $5 / $2
        exit ($4 > 1000 || $4 > 2 * $2 || $5 > 4 * $2) }' || failed=1
done

for logins in 1 10 100; do
    for want in any first last other; do
        few=$(median_each indexed-$want 10 400000 1) && most=$(median_each indexed-$want 1000 400000 $logins) || exit 1
        echo "$want $few $most $logins" | awk '{
            printf "%s, by indexes, inside %d logins: %d takes and puts a second at 1000 idle sessions, %.2f times as long as at 10 inside one\n", $1, $4, 1e9 / $3, $3 / $2
            exit ($3 > 1000 || $3 > 2 * $2) }' || failed=1
    done
done
exit $failed
