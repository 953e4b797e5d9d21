#!/bin/bash
# Times how z_ber checks all elements of 1 MiB, of several shapes, and of a tenth of it. Ends with status 1 where
# a shape is checked at less than 300 MB/s.
. "$(dirname "$0")/readers.sh"

echo "One child that has all octets"
demand elements-flat 1048000 200000 300
echo "Children of 5 octets in one element, then on level 64 in elements of definite and of indefinite length"
demand elements-small 1000000 100 300
demand elements-deep 1000000 100 300
demand elements-open 1000000 100 300
echo "Elements of 2 octets"
demand elements-empty 1000000 100 300
echo "Elements that each hold one, down to level 60, of definite and of indefinite length"
demand elements-chains 1000000 100 300
demand elements-open-chains 1000000 100 300
exit $status
