#!/bin/bash
# Times one client that sends Searches and Presents in turns, under 1,000 access rules of which only the last is for the
# database that is searched, and each other names another database 48 times (more do not fit into a file), beside the same
# without rules. Prints medians of 5 runs, and ends with status 1 where the rules make it more than 1.2 times as long.
. "$(dirname "$0")/runs.sh"

init=b413830205e0840301fffe85031000008603100000
search=b63e8d01008e01018f01009001ff910131b20a9f690744656661756c74b521a11f06072a8648ce130301a014bf6611bf2c0a30089f7801019f7901049f2d0161
present=b8159f1f01319e01019d01019f68082a8648ce13056d0a

{ echo "feed 1 $init"; yes "feed 1 $search$present" | head -n 50000; } >"$room/turns"
{
    cat "$here/examples/first.toml"
    printf '\n[[database]]\nname = "b"\n[[database.leg]]\nvia = "alpha"\ndatabases = ["b"]\n'
    printf '\n[limit]\nunits = 1000000\nsearches = 1000000\nrecords = 1000000\n'
} >"$room/open"
{
    cat "$room/open"
    others=$(yes '"b"' | head -n 48 | paste -sd,)
    for number in $(seq 999); do printf '[[rule]]\nname="%s"\neffect="deny"\nuser="*"\ndatabases=[%s]\n' "$number" "$others"; done
    printf '[[rule]]\nname="last"\neffect="allow"\nuser="*"\ndatabases=["default"]\n'
} >"$room/ruled"

# What reading a configuration takes, beside all else.
of() { read_alone=$(median check "$room/$1") && both=$(median replay "$room/$1" "$room/turns") && awk -v a="$both" -v b="$read_alone" 'BEGIN { print a - b }'; }
open=$(of open) && ruled=$(of ruled) || exit 1
awk -v a="$open" -v b="$ruled" 'BEGIN {
    printf "100,000 Searches and Presents: %.3f s without rules, %.3f s under 1,000, %.2f times as long\n", a, b, b / a
    exit b > 1.2 * a }'
