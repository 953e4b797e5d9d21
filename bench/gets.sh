#!/bin/bash
# Times replays of clients over HTTP: of 1,000 and of 10,000 that send one GET each, a search of three hits that shows two
# records; and of 30 clients whose heads of 16,000 octets come octet by octet, with a step behind each, beside heads that come whole
# with as many steps. Prints medians of 5 runs and their ratios, and ends with status 1 where 10,000 GETs take 12 times the time of
# 1,000, or heads in pieces 3 times the time of whole ones.
. "$(dirname "$0")/runs.sh"

hex() { od -An -v -tx1 | tr -d ' \n'; }

target='/Default?version=1.2&operation=searchRetrieve&query=dc.title%3Da&maximumRecords=2'
get=$(printf 'GET %s HTTP/1.1\r\nHost: catalogue.example\r\n\r\n' "$target" | hex)

# Plays a number of clients that send one GET each, and prints what that cost.
clients() {
    for ((client = 1; client <= $1; client++)); do printf 'feed %d %s\nrun %d\n' "$client" "$get" "$client"; done >"$room/gets"
    last=$(median replay "$here/examples/first.toml" "$room/gets") || exit 1
    awk -v n="$1" -v t="$last" 'BEGIN { printf "%d GETs: %s s, %.0f a second\n", n, t, n / t }'
}

# Plays a script of heads, and prints how long that took.
heads() {
    last=$(median replay "$here/examples/first.toml" "$room/$2") || exit 1
    echo "$1: $last s"
}

clients 1000
thousand=$last
clients 10000
awk -v a="$thousand" -v b="$last" 'BEGIN { printf "10000 take %.1f times the time of 1000\n", b / a; exit b > 12 * a }' || failed=1

padding=$(head -c 15800 /dev/zero | tr '\0' x)
head=$(printf 'GET %s HTTP/1.1\r\nX-Padding: %s\r\n\r\n' "$target" "$padding" | hex)
octets=$((${#head} / 2))
awk -v head="$head" -v octets="$octets" -v whole="$room/whole" -v pieces="$room/pieces" 'BEGIN {
    for (client = 1; client <= 30; client++) {
        printf "feed %d %s\n", client, head > whole
        for (place = 0; place < octets; place++) {
            printf "feed %d %s\nstep %d\n", client, substr(head, 2 * place + 1, 2), client > pieces
            printf "step %d\nstep %d\n", client, client > whole
        }
    }
}'
heads 'heads that come whole' whole
whole=$last
heads 'heads octet by octet' pieces
awk -v a="$whole" -v b="$last" 'BEGIN { printf "octet by octet they take %.1f times the time\n", b / a; exit b > 3 * a }' || failed=1
exit "${failed:-0}"
