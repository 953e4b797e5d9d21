#!/bin/bash
# Times how a configuration is checked that is as large as a file may be, with each array of it as long as it may be:
# 64 targets, 64 groups of 16, 64 databases of 16 legs. Prints the median of 5 runs with the start of the program, and
# ends with status 1 where that is 50 ms or more.
. "$(dirname "$0")/runs.sh"

# The route, whose legs name this many databases each.
route() {
    awk -v databases="$1" 'BEGIN {
        for (i = 0; i < 64; i++) printf "[[target]]\nname = \"t%d\"\naddress = \"test:%d\"\n", i, i
        for (i = 0; i < 64; i++) {
            printf "[[group]]\nname = \"g%d\"\ntargets = [", i
            for (j = 0; j < 16; j++) printf "\"t%d\", ", (i + j) % 64
            print "]"
        }
        for (i = 0; i < 64; i++) {
            printf "[[database]]\nname = \"d%d\"\n", i
            for (j = 0; j < 16; j++) {
                printf "[[database.leg]]\nvia = \"g%d\"\ndatabases = [", (i + j) % 64
                for (k = 0; k < databases; k++) printf "\"d%d\", ", k
                print "]"
            }
        }
    }'
}

for databases in 16 15 14 13 12 11 10; do
    route $databases >"$room/route"
    [ "$(wc -c <"$room/route")" -le 262144 ] && break
done
octets=$(wc -c <"$room/route")
printf '%*s' $((262144 - octets)) '' | tr ' ' '#' >>"$room/route"

told=$("$program" check "$room/route") || { echo "$told"; exit 1; }
[ "$told" = 'ok databases 64 classes 64' ] || { echo "$told"; exit 1; }
last=$(median check "$room/route") || exit 1
awk -v t="$last" 'BEGIN { printf "1024 legs in 262144 octets: %.1f ms, under 50 are asked\n", t * 1e3; exit t >= 0.05 }'
