#!/bin/bash
# Times a million calls of `locate` over 16 legs, and a hundred Presents of 1000 records over one leg and over 16
# legs. Prints medians of 5 runs with their ratios, and ends with status 1 where the calls take a second or more, or
# where 16 legs take more than 1.5 times as long as one.
. "$(dirname "$0")/runs.sh"

# The seconds of a million calls of `locate`, over 16 legs of which the first has so many hits.
locates() (
    . "$here/bench/readers.sh"
    for _ in 1 2 3 4 5; do
        echo $(($(nanoseconds merge-places "$1" 1000000) - $(nanoseconds merge-places "$1" 0)))
    done | sort -n | awk 'NR == 3 { printf "%.4f", $1 / 1e9 }'
)

init=b413830205e0840301fffe85031000008603100000
present=b8169f1f01319e01019d0203e89f68082a8648ce13056d0a
# the term b with Use 4 or with Use 7 finds every record of a database
leaf_4=a014bf6611bf2c0a30089f7801019f7901049f2d0162
leaf_7=a014bf6611bf2c0a30089f7801019f7901079f2d0162
search=b65b8d01008e01018f01009001ff910131b20a9f690744656661756c74b53ea13c06072a8648ce130301a131${leaf_4}${leaf_7}bf2e028100

# A route whose database has this many legs, each to a database of 99 records named this many times.
route() {
    printf '[[target]]\nname = "all"\naddress = "test:79"\n\n[[database]]\nname = "Default"\n'
    names=$(for ((i = 0; i < $2; i++)); do printf '"Default", '; done)
    for ((i = 0; i < $1; i++)); do printf '\n[[database.leg]]\nvia = "all"\ndatabases = [%s]\n' "${names%, }"; done
    printf '\n[limit]\nrecords = 1000000\n'
}

many=$(locates 2000000000) || exit 1
few=$(locates 200) || exit 1
echo "1,000,000 records located over 16 legs: $many s where the first has 2,000,000,000 hits, $few s where it has 200"
awk -v s="$many" 'BEGIN { exit s >= 1 }' || failed=1

{ echo "feed 1 $init$search"; yes "feed 1 $present" | head -n 100; } >"$room/script"
route 1 16 >"$room/one"
route 16 16 >"$room/sixteen"
one=$(median replay "$room/one" "$room/script") || exit 1
sixteen=$(median replay "$room/sixteen" "$room/script") || exit 1
echo "100 Presents of 1000 records: $one s over one leg, $sixteen s over 16"
awk -v a="$one" -v b="$sixteen" 'BEGIN { printf "16 legs take %.2f times as long\n", b / a; exit b > 1.5 * a }' || failed=1
exit "${failed:-0}"
