#!/bin/bash
# Asks 2,000 works and more twice, over links and a pool and by asking the targets at once, and compares what clients are
# answered: generated Searches, Presents and Scans, between which links are cut, sets are gone, targets are late, and
# sets and sessions grow old. Ends with status 1 where a client is answered otherwise, or under another mark than Plain.
bench=bench_conn
clients=220
. "$(dirname "$0")/../bench/readers.sh"

line=$("$program" both 1 "$clients") || exit 1
echo "$line"
awk -v n="$clients" '{ exit ($5 < 2000 || $7 != n) }' <<<"$line"
