#!/bin/bash
# Plays 50,000 generated calls by clients of four logins, one of which is none and one empty, the same ones each time, at the
# plain pool, at the pool by indexes, and at one by indexes where the digests of all keys are one, and compares what they
# answer, call by call. Ends with status 1 where an answer is another one.
bench=bench_pool
calls=50000
. "$(dirname "$0")/../bench/readers.sh"

line=$("$program" alike 6 "$calls") || exit 1
echo "$line"
awk -v n="$calls" '{ exit ($1 != n || $3 != n) }' <<<"$line"
