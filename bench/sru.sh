#!/bin/bash
# Times how sru_request reads heads and how sru_reply writes replies, of records that stand as they are and
# of packed ones, and how sru_request checks a query of names without values: each name is looked up among
# all, so ten times the octets may take at most 20 times as long. Replies of 1 MB, of ten records and of a
# hundred, are promised at 500 MB/s. Then GETs from octets to octets through a connection, over links and a
# pool: searches of three hits that show two records, and the same in heads of 16384 octets, which octet by
# octet, with a step behind each, may take at most 3 times as long as whole.
#
# The status is 0 where what is promised was seen, else 1.
. "$(dirname "$0")/readers.sh"

# How many of a sample are read or written in a second.
rate() {
    speed "$1" "$2" "$3" | awk -v what="$4" '{ printf "%s of %d octets: %d a second\n", what, $1, $2 * 1000000 / $1 }'
}

rate sru-head 500 1000000 "heads"
rate sru-reply 10000 200000 "replies of ten records of 1 kB"

echo "A reply of ten records of 100 kB, written, and one of records of a tenth of it"
demand sru-reply 1000000 2000 500
echo "A reply of a hundred records of 10 kB, written, and one of records of a tenth of it"
demand sru-hundred 1000000 2000 500
echo "A reply of ten packed records of 100 kB, and one of records of a tenth of it"
compare sru-packed 1000000 200

large=$(speed sru-names 16000 300 | cut -d ' ' -f 2)
small=$(speed sru-names 1600 3000 | cut -d ' ' -f 2)
ratio=$(awk -v a="$large" -v b="$small" 'BEGIN { printf "%.2f", 10 * b / a }')
awk -v seen="$ratio" 'BEGIN { exit !(seen <= 20) }' || status=1
echo "A query of 2000 names at $large MB/s, one of 200 at $small; ten times the octets take $ratio times as long, 20 are allowed"

# GETs of one query over links and a pool. Each of them has to be answered its 799 octets.
gets() (
    bench=bench_conn
    . "$(dirname "$0")/readers.sh"
    for coming in get get-long get-pieces; do
        [ "$("$program" "$coming" 1 2)" = "2 clients, 1598 octets, 0 works, 0 alike" ] || exit 1
    done
    short=$(median_each get 1 20000) && whole=$(median_each get-long 1 2000) && pieces=$(median_each get-pieces 1 200) || exit 1
    awk -v short="$short" -v whole="$whole" -v pieces="$pieces" 'BEGIN {
        printf "GETs that show two records of three hits: %.0f a second\n", 1e9 / short
        printf "in heads of 16384 octets: %.0f a second; octet by octet they take %.2f times as long, 3 are allowed\n", 1e9 / whole, pieces / whole
        exit pieces > 3 * whole }'
)
gets || status=1
exit $status
