# Times the program `bench`, which is bench_readers where nothing else is said; the scripts beside this one read it.
root=$(cd "$(dirname "${BASH_SOURCE[0]}")/.." && pwd) || exit 1
program=$("$root/bench/crate.sh" "${bench:-bench_readers}") || exit 1

# Nanoseconds that the program takes for a shape of so many octets, or sessions, so many times, and a fourth word where
# there is one.
nanoseconds() {
    local begun
    begun=$(date +%s%N)
    "$program" "$1" "$2" "$3" ${4:+"$4"} >/dev/null || exit 1
    echo $(($(date +%s%N) - begun))
}

# The octets of a sample, and the millions of octets that are read of it in a second, without the time
# that it takes to make it.
speed() {
    local octets made whole
    octets=$("$program" "$1" "$2" 0 | cut -d ' ' -f 1)
    made=$(nanoseconds "$1" "$2" 0)
    whole=$(nanoseconds "$1" "$2" "$3")
    awk -v n="$octets" -v times="$3" -v ns=$((whole - made)) 'BEGIN { printf "%d %.1f\n", n, n * times * 1000 / ns }'
}

# The speed of a sample, and of one of about a tenth of its octets, that is read ten times as often.
compare() {
    local large small
    large=$(speed "$1" "$2" "$3")
    small=$(speed "$1" $(($2 / 10)) $(($3 * 10)))
    echo "$large $small" | awk -v what="$1" '{
        printf "%s: %d octets at %s MB/s, %d at %s; ten times the octets take %.1f times as long\n", what, $1, $2, $3, $4, 10 * $4 / $2 }'
}

# Compares, and demands so many MB/s of the larger sample: where they are not seen, `status` is 1 from then on.
status=0
demand() {
    local line
    line=$(compare "$1" "$2" "$3")
    echo "$line"
    awk -v least="$4" '{ exit ($5 + 0 < least) }' <<<"$line" || status=1
}

# The median of 5 runs, in nanoseconds of one of so many times, without what stands before the first.
median_each() {
    local made whole
    for _ in 1 2 3 4 5; do
        made=$(nanoseconds "$1" "$2" 0 ${4:+"$4"}) && whole=$(nanoseconds "$1" "$2" "$3" ${4:+"$4"}) || exit 1
        echo $(((whole - made) / $3))
    done | sort -n | awk 'NR == 3 { middle = $1 } END { if (NR != 5) exit 1; print (middle > 0 ? middle : 1) }'
}
