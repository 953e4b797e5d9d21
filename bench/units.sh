#!/bin/bash
# Times how z_write writes replies, of ten records of 1 kB, of one record of 1 MiB, and of none; and how z_read
# reads units, beside z_ber alone, which checks and lends all their elements, and copies what they hold. Ends with
# status 1 where a Search of ten times the octets takes more than twenty times as long, or one shape of 1 MiB more
# than ten times another.
. "$(dirname "$0")/readers.sh"

# The millions of replies that are written in a second; where they are fewer than demanded, `status` is 1.
replies() {
    local made whole
    made=$(nanoseconds "$1" "$2" 0) || exit 1
    whole=$(nanoseconds "$1" "$2" "$3") || exit 1
    awk -v what="$1" -v times="$3" -v ns=$((whole - made)) -v least="$4" 'BEGIN {
        rate = times * 1000 / ns
        printf "%s: %.1f million a second\n", what, rate
        exit (rate < least) }' || status=1
}

# Replies are to be written at 1 GB/s, and 5 million of those of 14 octets a second.
echo "An answer of ten records of 1 kB, written, and one of records of a tenth of it"
demand write-records 10000 200000 1000
echo "An answer of one record of 1 MiB, written, and one of a tenth of it"
demand write-record 1048000 5000 1000
echo "Answers to a Search without records, of 14 octets, written"
replies write-search 0 20000000 5

# The nanoseconds of one reading, or one walk, of a unit.
once() {
    local made whole
    made=$(nanoseconds "$1" "$2" 0)
    whole=$(nanoseconds "$1" "$2" "$3")
    awk -v times="$3" -v ns=$((whole - made)) 'BEGIN { printf "%.1f\n", ns / times }'
}

# A unit that is read `$3` times, beside a walk that checks it and lends each of its elements, and beside one that
# copies their contents octets too.
units() {
    local octets read walked copied
    octets=$("$program" "read-$1" "$2" 0 | cut -d ' ' -f 1)
    read=$(once "read-$1" "$2" "$3")
    walked=$(once "walk-$1" "$2" "$3")
    copied=$(once "copy-$1" "$2" "$3")
    awk -v what="$1" -v n="$octets" -v read="$read" -v walked="$walked" -v copied="$copied" 'BEGIN {
        printf "%s: %d octets, %.0f a second, %.1f MB/s, ", what, n, 1e9 / read, n * 1000 / read
        printf "%.1f times the walk, %.1f times the walk that copies\n", read / walked, read / copied
    }'
}

# Compares a shape of 1 MiB with a tenth of it; `least` and `most` are the speeds of the slowest and the fastest.
least=0
most=0
shape() {
    local line speed
    line=$(compare "read-$1" "$2" "$3")
    echo "$line"
    speed=$(cut -d ' ' -f 5 <<<"$line")
    least=$(awk -v a="$least" -v b="$speed" 'BEGIN { print (a == 0 || b < a) ? b : a }')
    most=$(awk -v a="$most" -v b="$speed" 'BEGIN { print (b > a) ? b : a }')
    awk '{ exit ($(NF - 3) > 20) }' <<<"$line" || status=1
}

echo "Units read"
units search 64 1000000
units init 150 1000000
units records 10000 500000
units entries 2000 50000
units record 1048000 5000
echo "Searches of 1 MiB: 100,000 attributes; 49,152 operands; the attributes on the last levels, of definite and of indefinite length"
shape attributes 1000000 20
shape operands 1048000 20
shape levels 1000000 20
shape open-levels 1000000 5
awk -v a="$least" -v b="$most" 'BEGIN { printf "the slowest takes %.1f times as long as the fastest\n", b / a; exit (b > 10 * a) }' || status=1
exit $status
