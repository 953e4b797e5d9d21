#!/bin/bash
# Times replays of 1,000 and of 10,000 clients of one Init, Search and Close each, fed in turns, with the peak
# of memory; 400,000 steps of 10 clients that take them in turns, and of 1,000, by the smallest configuration and with a
# session for each client; and how fast scripts are read and played: one line of hexadecimal digits that fills a script,
# eight lines of the longest feeds, and a million events. Then how fast `read_script` reads such scripts by itself. Prints
# medians of 5 runs and their ratios, and ends with status 1 where 10,000 clients take more than 1 s, 500 MB or 12 times
# the time of 1,000, where steps of 1,000 clients in turns take more than twice the time of as many of 10, or where a
# script is read at less than 100 MB/s. Needs GNU time.
. "$(dirname "$0")/runs.sh"

init=b413830205e0840301fffe85031000008603100000
search=b63e8d01008e01018f01009001ff910131b20a9f690744656661756c74b521a11f06072a8648ce130301a014bf6611bf2c0a30089f7801019f7901049f2d0161
present=b8159f1f01319e01019d01019f68082a8648ce13056d0a
close=bf30059f81530100

# Plays a number of clients, and prints what that cost.
clients() {
    for piece in $init $search $close; do
        for ((client = 1; client <= $1; client++)); do echo "feed $client $piece"; done
    done >"$room/clients"
    peak=$(/usr/bin/time -f %M "$program" replay "$here/examples/first.toml" "$room/clients" 2>&1 >/dev/null)
    last=$(median replay "$here/examples/first.toml" "$room/clients") || exit 1
    echo "$1 clients: $last s, peak $peak KB"
}

# Plays 400,000 steps of a number of clients in turns, each of them within Searches and Presents of one set, which take four
# steps each at the mean, and prints what a step cost.
turns() {
    awk -v clients="$1" -v init=$init -v pair=$search$present 'BEGIN {
        for (client = 1; client <= clients; client++) {
            printf "feed %d %s", client, init
            for (step = 0; step < 400000 / clients; step += 8) printf "%s", pair
            print ""
        }
        for (step = 0; step < 400000; step++) print "step", step % clients + 1
    }' >"$room/turns"
    last=$(median replay "$room/route" "$room/turns") || exit 1
    awk -v n="$1" -v t="$last" 'BEGIN { printf "%d clients that step in turns: %.2f us a step\n", n, t / 0.4 }'
}

# What a step of one of 1,000 clients takes beside that of one of 10.
compares() {
    turns 10
    ten=$last
    turns 1000
    awk -v a="$ten" -v b="$last" 'BEGIN {
        printf "a step of one of 1000 clients takes %.2f times the time of one of 10\n", b / a
        exit b > 2 * a }' || failed=1
}

# Plays a script, and prints how fast.
plays() {
    size=$(stat -c %s "$room/$2")
    last=$(median replay "$here/examples/first.toml" "$room/$2") || exit 1
    awk -v n="$1" -v s="$size" -v t="$last" 'BEGIN {
        printf "%s, played: %d octets in %s s, %.0f MB/s\n", n, s, t, s / t / 1e6 }'
}

# Reads a sample of so many octets, and prints how fast.
reads() {
    (. "$here/bench/readers.sh"; for _ in 1 2 3 4 5; do speed "$2" "$3" 5; done) | sort -n -k 2 | awk -v n="$1" 'NR == 3 {
        printf "%s, read: %d octets at %.0f MB/s\n", n, $1, $2
        exit $2 < 100 }' || failed=1
}

clients 1000
thousand=$last
clients 10000
awk -v a="$thousand" -v b="$last" -v peak="$peak" 'BEGIN {
    printf "10000 clients take %.1f times the time of 1000\n", b / a
    exit b > 1 || peak >= 500000 || b > 12 * a }' || failed=1
cp "$here/examples/first.toml" "$room/route"
compares
echo "with 1000 sessions, so that no client finds the pool full:"
printf '\n[pool]\nmax_sessions = 1000\n' >>"$room/route"
compares
{ printf 'feed 1 '; head -c 16777208 /dev/zero | tr '\0' 0; echo; } >"$room/line"
wanted=4 plays 'a line of digits' line
for _ in 1 2 3 4 5 6 7; do printf 'feed 1 '; head -c 2097152 /dev/zero | tr '\0' 0; echo; done >"$room/feeds"
plays 'the longest feeds' feeds
yes 'run 1' | head -n 1000000 >"$room/runs"
plays 'a million runs' runs
yes 'feed 1 00' | head -n 1000000 >"$room/pieces"
plays 'a million feeds' pieces
reads 'the longest feeds' script-long 16777216
reads 'a million runs' script-runs 6000000
reads 'a million feeds' script-feeds 10000000
exit "${failed:-0}"
