#!/bin/bash
# Times how z_ber reads one unit of 1 MiB, of several shapes, and one of a tenth of it; many children also beside
# the time of a plain pass over the same octets; then how it checks all elements, by elements.sh. Ends with status 1
# where many children are walked at less than 500 MB/s, or a shape is checked at less than 300 MB/s.
. "$(dirname "$0")/readers.sh"

# How many times as long as a plain pass over the same octets it takes to walk a sample.
beside_a_pass() {
    local walked passed
    walked=$(speed "$1" "$3" "$4")
    passed=$(speed "$2" "$3" $(($4 * 20)))
    echo "$walked $passed" | awk -v what="$1" '{
        printf "%s: a walk takes %.1f times as long as reading the same octets once, at %s MB/s\n", what, $4 / $2, $4 }'
}

echo "A unit with one child, walked"
compare ber-flat 1048000 200000
echo "A unit of 200,000 children of 5 octets, walked"
demand ber-small 1000000 100 500
beside_a_pass ber-small pass-small 1000000 100
echo "The same on level 64 in elements of definite length, then of indefinite length"
demand ber-deep 1000000 100 500
beside_a_pass ber-deep pass-deep 1000000 100
compare ber-open 1000000 4
echo "A unit with one child, asked for at each 256 octets, then one of indefinite length"
compare ber-pieces 1048000 2000
compare ber-open-pieces 1000000 1
"$(dirname "$0")/elements.sh" || status=1
exit $status
