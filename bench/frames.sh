#!/bin/bash
# Times how z_frame cuts streams that come in pieces: 100,000 units of 64 octets, and one unit of 1 MiB of each
# form of length. Ends with status 1 where a unit of 1 MiB in pieces of 256 octets takes more than 10 ms of
# processor time, or more than twice what it takes in one piece.
. "$(dirname "$0")/readers.sh"

# Seconds of processor time that it takes to cut a stream of about so many octets so many times.
processor() {
    local TIMEFORMAT='%U %S'
    { time "$program" "$1" "$2" "$3" >/dev/null || exit 1; } 2>&1 | awk '{ print $1 + $2 }'
}

# Milliseconds of it for one time, without those that it takes to make the stream.
milliseconds() {
    awk -v made="$(processor "$1" "$2" 0)" -v whole="$(processor "$1" "$2" "$3")" -v times="$3" \
        'BEGIN { printf "%.3f", 1000 * (whole - made) / times }'
}

echo "100,000 units of 64 octets, in one piece, in pieces of 256 octets and of one"
for stream in frames-units frames-units-256 frames-units-1; do
    echo "$stream: $(milliseconds $stream 6400000 10) ms"
done
echo "A unit of 1 MiB of definite length, then of indefinite length with children of 5 octets"
for stream in frames-flat frames-open; do
    whole=$(milliseconds $stream 1048000 1000)
    pieces=$(milliseconds $stream-256 1048000 1000)
    echo "$stream: $whole ms in one piece, $pieces ms in pieces of 256 octets"
    awk -v whole="$whole" -v pieces="$pieces" 'BEGIN { exit !(pieces <= 10 && pieces <= 2 * whole) }' || status=1
done
exit $status
