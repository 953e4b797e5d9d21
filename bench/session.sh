#!/bin/bash
# Times one client that sends Searches and Presents in turns: 10,000 of them, and ten times as many; a Search of 4,000
# nodes over a stored set, and one that names 32 sets of 125 nodes each, beside one of as many nodes that names none.
# Then clients of 26 Searches and 26 Presents each, over links and a pool and beside that by asking the targets at once,
# of one query, whose set is held, and of 26 in turn, of which none is held any more. Prints medians of 5 runs, and ends
# with status 1 where ten times as many take more than 12 times as long, or the way over links more than 4 times.
. "$(dirname "$0")/runs.sh"

init=b413830205e0840301fffe85031000008603100000
search=b63e8d01008e01018f01009001ff910131b20a9f690744656661756c74b521a11f06072a8648ce130301a014bf6611bf2c0a30089f7801019f7901049f2d0161
present=b8159f1f01319e01019d01019f68082a8648ce13056d0a

# The smallest configuration, with limits that the scripts do not meet.
{ cat "$here/examples/first.toml"; printf '\n[limit]\nunits = 1000000\nsearches = 1000000\nrecords = 1000000\n'; } >"$room/route"

# The length octets of so many octets (X.690, 8.1.3), in hexadecimal.
length_of() {
    if [ "$1" -lt 128 ]; then printf %02x "$1"; elif [ "$1" -lt 256 ]; then printf 81%02x "$1"; elif [ "$1" -lt 65536 ]; then printf 82%04x "$1"; else printf 83%06x "$1"; fi
}

# An element of a tag and contents, in hexadecimal.
element() { printf '%s%s%s' "$1" "$(length_of $((${#2} / 2)))" "$2"; }

# A balanced structure of this many copies of an operand.
balanced() {
    if [ "$1" = 1 ]; then printf %s "$2"; return; fi
    half=$(balanced $(($1 / 2)) "$2")
    element a1 "$half$half$(element bf2e 8100)"
}

# A Search for the set of a name, of a structure.
search_of() {
    query=$(element b5 "$(element a1 "06072a8648ce130301$2")")
    element b6 "8d01008e01018f01009001ff$(element 91 "$1")b20a9f690744656661756c74$query"
}

for pairs in 5000 50000; do
    { echo "feed 1 $init"; yes "feed 1 $search$present" | head -n "$pairs"; } >"$room/turns"
    last=$(median replay "$room/route" "$room/turns") || exit 1
    awk -v n=$((2 * pairs)) -v t="$last" 'BEGIN { printf "%d Searches and Presents: %s s, %.0f a second\n", n, t, n / t }'
    [ "$pairs" = 5000 ] && first=$last
done
awk -v a="$first" -v b="$last" 'BEGIN { printf "ten times as many take %.1f times as long\n", b / a; exit b > 12 * a }' || failed=1

leaf=a014bf6611bf2c0a30089f7801019f7901049f2d0161
set_named() { element a0 "$(element bf1f "$1")"; }
large=$(balanced 2048 "$leaf")
small=$(balanced 64 "$leaf")
stored() { echo "feed 1 $(search_of "$1" "$2")"; }
{ echo "feed 1 $init"; for _ in 1 2 3 4 5 6 7 8 9 10; do stored 62 "$large"; done; } >"$room/plain"
{ echo "feed 1 $init"; stored 61 "$large"; for _ in 1 2 3 4 5 6 7 8 9; do stored 62 "$(set_named 61)"; done; } >"$room/one"
names() { for first in 0 1 2 3; do for second in 0 1 2 3 4 5 6 7; do echo "3${first}3$second"; done; done; }
joined() { # a balanced structure of the operands of the list
    if [ $# = 1 ]; then printf %s "$1"; return; fi
    half=$(($# / 2))
    element a1 "$(joined "${@:1:half}")$(joined "${@:half+1}")$(element bf2e 8100)"
}
mapfile -t all < <(names)
operands=(); for name in "${all[@]}"; do operands+=("$(set_named "$name")"); done
{ echo "feed 1 $init"; for name in "${all[@]}"; do stored "$name" "$small"; done
  for _ in 1 2 3 4 5 6 7 8 9 10; do stored 3030 "$small"; echo "feed 1 $(search_of 3030 "$(joined "${operands[@]}")")"; done; } >"$room/many"
for what in 'plain:10 Searches of 4,095 nodes' 'one:10 Searches of one set of 4,095 nodes' 'many:10 Searches of 32 sets of 127 nodes, and 42 to make them'; do
    last=$(median replay "$room/route" "$room/${what%%:*}") || exit 1
    echo "${what#*:}: $last s"
done

# Clients whose queries are of so many letters, over links and asked directly, each of 53 requests.
ways() (
    bench=bench_conn
    . "$here/bench/readers.sh"
    links=$(median_each links "$1" 400) && direct=$(median_each direct "$1" 400) || exit 1
    awk -v n="$1" -v a="$links" -v b="$direct" 'BEGIN {
        printf "queries of %d letters: %.0f requests a second over links, %.0f asked directly, %.2f times as long\n", n, 53e9 / a, 53e9 / b, a / b
        exit a > 4 * b }'
)
ways 1 || failed=1
ways 26 || failed=1
exit "${failed:-0}"
