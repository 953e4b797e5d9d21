#!/bin/bash
# Times loads of 1,000 and of 10,000 clients, each with the start of the program, and the peak of memory. Prints medians
# of 5 runs and their ratio, and ends with status 1 where 10,000 clients take more than 1 s or 12 times the time of 1,000,
# or are answered otherwise than by four marks Plain each, five searches and one link. Needs GNU time.
. "$(dirname "$0")/runs.sh"

# Plays a number of clients, and prints what that cost.
loads() {
    peak=$(/usr/bin/time -f %M "$program" load "$1" 2>&1 >/dev/null)
    last=$(median load "$1") || exit 1
    echo "$1 clients: $last s, peak $peak KB"
    told=$("$program" load "$1")
    line="load clients $1 requests $((4 * $1)) plain $((4 * $1)) bytes $((125 * $1)) searches 5 dials 1"
    [ "$told" = "$line" ] || { echo "$told"; failed=1; }
}

loads 1000
thousand=$last
loads 10000
awk -v a="$thousand" -v b="$last" 'BEGIN {
    printf "10000 clients take %.1f times the time of 1000\n", b / a
    exit b > 1 || b > 12 * a }' || failed=1
exit "${failed:-0}"
