#!/bin/bash
# Refuses each allocation of a replay in turn, with the proved program: each run has to end with status 7 and to print nothing, or
# to print the page of the session as ever. So it does with the proved tests of three legs in flight: each has to fail for want of
# memory, or to pass. Prints for each session and test how many allocations there are, and how many runs ended so.
here=$(cd "$(dirname "$0")/.." && pwd) || exit 1
program=$here/crates/gateway_program/out/gateway_program
tests=$here/crates/flight_tests/out/flight_tests_tests
[ -x "$program" ] || { echo "no proved program stands: ./gateway prove" >&2; exit 1; }
[ -x "$tests" ] || { echo "no proved tests of legs in flight stand: rt test in crates/flight_tests" >&2; exit 1; }
room=$(mktemp -d) || exit 1
trap 'rm -rf "$room"' EXIT
"${CC:-cc}" -shared -fPIC -O2 -o "$room/refuse.so" "$here/tools/refuse_memory.c" -ldl || exit 1

# Runs the program on a session with the allocation of a number refused, and says how it ended: 7 and nothing printed, its page, or else.
ended() {
    local session=$1 number=$2 status
    REFUSE=$number LD_PRELOAD=$room/refuse.so "$program" replay "$session/route.toml" "$session/script" >"$room/$number.out" 2>/dev/null
    status=$?
    if [ "$status" = 7 ] && [ ! -s "$room/$number.out" ]; then
        echo refused
    elif [ "$status" = 0 ] && cmp -s "$room/$number.out" "$session/page"; then
        echo whole
    else
        echo "allocation $number: status $status, $(wc -c <"$room/$number.out") octets printed"
    fi
    rm -f "$room/$number.out"
}

# Runs a test with the allocation of a number refused, and says how it ended: for want of memory, passed, or else.
tested() {
    local name=$1 number=$2 status
    REFUSE=$number LD_PRELOAD=$room/refuse.so "$tests" "$name" >"$room/$number.out" 2>&1
    status=$?
    if [ "$status" = 101 ] && grep -qx 'error: Memory' "$room/$number.out"; then
        echo refused
    elif [ "$status" = 0 ]; then
        echo whole
    else
        echo "allocation $number: status $status, $(wc -c <"$room/$number.out") octets printed"
    fi
    rm -f "$room/$number.out"
}
export -f ended tested
export room program tests

# Refuses each of the allocations that were counted, of what this runs, and prints under this name how the runs ended.
refuse_each() {
    local how=$1 what=$2 name=$3
    seq "$(cat "$room/count")" | xargs -P "$(nproc)" -I{} bash -c "$how"' "$0" "$1"' "$what" {} >"$room/told"
    echo "$name: $(cat "$room/count") allocations, $(grep -c '^refused$' "$room/told") refused, $(grep -c '^whole$' "$room/told") not missed"
    ! grep '^allocation' "$room/told"
}

for name in one-client-in-one-feed records-up-to-the-last three-legs-merged all-records-of-a-small-set yc-ztest-scan \
    a-link-cut-between-requests-is-made-again a-set-that-is-gone-is-searched-for-again curl-marc-simple \
    gets-that-are-answered-and-refused-4; do
    session=$here/crates/gateway_sessions/data/$name
    COUNT=$room/count LD_PRELOAD=$room/refuse.so "$program" replay "$session/route.toml" "$session/script" >/dev/null || exit 1
    refuse_each ended "$session" "$name" || exit 1
done
for name in packages::records_are_shown_in_their_order_whichever_target_is_first \
    stories::answers_stand_in_the_order_of_legs_whichever_is_first; do
    COUNT=$room/count LD_PRELOAD=$room/refuse.so "$tests" "$name" >/dev/null || exit 1
    refuse_each tested "$name" "$name" || exit 1
done
exit 0
