#!/bin/bash
# Times clients that present the same ten records again and again, over a target at a socket that is the floor (`serve/zfloor.c`): with
# records kept, beside the same without: at least 1.6 times as many a second. And what processor time each takes, beside a built-in target
# that is asked at once: at most 1.1 times as much. Each rate is the best of four, all in one run. Then how many records a second the
# store of one thread finds, and keeps, where it holds 10, 1,000 and 10,000: in at most twice the time of 10 (medians of 5 runs of
# `bench_cache`, which it proves at first). Ends with 1 where a demand is missed.
#
#     bench/cache.sh [COMMAND [PORT]]
#
# COMMAND starts the gateway (the program that is built), PORT is the first of four that are free (21200).
here=$(cd "$(dirname "$0")/.." && pwd) || exit 1
gateway=${1:-$here/crates/gateway_program/out/gateway_program}
port=${2:-21200}
floor=$((port + 1)) kept=$((port + 2)) direct=$((port + 3))
room=$(mktemp -d) || exit 1
missed=0
trap 'kill $(jobs -p) 2>/dev/null; rm -rf "$room"' EXIT
for tool in zload zfloor; do cc -O2 -pthread -o "$room/$tool" "$here/bench/serve/$tool.c" || exit 1; done

# An Init, a Search whose set has ten records, a Present of them all, and a Close.
init=b413830205e0840301fffe85031000008603100000
search=b63e8d01008e01018f01009001ff910131b20a9f690744656661756c74b521a11f06072a8648ce130301a014bf6611bf2c0a30089f7801019f7901049f2d0162
present=b8159f1f01319e01019d010a9f68082a8648ce13056d0a
printf '%s\n' "$init" "$search" "$present" bf30059f81530100 >"$room/units"

{ cat "$here/examples/first.toml"; printf '[limit]\nunits = 1000000\nrecords = 1000000\n'; } >"$room/direct"
sed "s/test:0/tcp:127.0.0.1:$floor/" "$room/direct" >"$room/asked"
{ cat "$room/asked"; printf '[cache]\nrecords = 1000\n'; } >"$room/kept"

# What the floor answers: what the gateway answers to each unit.
mapfile -t session <"$room/units"
replies=() all=
for count in 1 2 3 4; do
    { for unit in "${session[@]:0:count}"; do echo "feed 1 $unit"; done; echo 'run 1'; } >"$room/script"
    next=$("$gateway" replay "$room/direct" "$room/script" | sed -n 's/^bytes //p')
    replies+=("${next#"$all"}")
    all=$next
done

waits() { # until a port is listened on
    for _ in $(seq 200); do (exec 3<>"/dev/tcp/127.0.0.1/$1") 2>/dev/null && return; sleep 0.1; done
    echo "no server at port $1" >&2
    exit 1
}
"$room/zfloor" "$floor" "b4=${replies[0]}" "b6=${replies[1]}" "b8=${replies[2]}" "bf30=${replies[3]}" &
"$gateway" serve "$room/asked" "$port" 4 --quiet >"$room/out" 2>"$room/log" &
of_asked=$!
"$gateway" serve "$room/kept" "$kept" 4 --quiet >"$room/out2" 2>"$room/log2" &
of_kept=$!
"$gateway" serve "$room/direct" "$direct" 4 --quiet >"$room/out3" 2>"$room/log3" &
of_direct=$!
for at in "$floor" "$port" "$kept" "$direct"; do waits "$at"; done

# The processor time so far of a process, in microseconds.
spent() { awk -v tick="$(getconf CLK_TCK)" '{ print ($14 + $15) * 1000000 / tick }' "/proc/$1/stat"; }
# The best rate of four of a gateway's process at a port, and what it spent on each request.
rate() {
    begun=$(spent "$1")
    best=$(for _ in 1 2 3 4; do
        "$room/zload" -p "$2" -n 4 -c 4 -f 2 -r 5000 -l 1 "@$room/units" >"$room/told" || { cat "$room/told" >&2; exit 1; }
        awk '{ for (i = 1; i < NF; i++) if ($i == "requests/s") print $(i + 1) }' "$room/told"
    done | sort -n | tail -1)
    each=$(awk -v a="$begun" -v b="$(spent "$1")" 'BEGIN { printf "%.2f", (b - a) / 80000 }')
}
rate "$of_asked" "$port"; asked=$best
rate "$of_kept" "$kept"; with=$best of_kept_each=$each
rate "$of_direct" "$direct"; of_direct_each=$each
awk -v a="$asked" -v k="$with" -v x="$of_kept_each" -v y="$of_direct_each" 'BEGIN {
    printf "Presents of ten records over a target: %d a second, with records kept %d: %.2f times, at least 1.6\n", a, k, k / a
    printf "each takes %s us of processor, beside a built-in target %s us: %.2f times, at most 1.1\n", x, y, x / y
    exit k < 1.6 * a || x > 1.1 * y }' || missed=1
kill $(jobs -p) 2>/dev/null

bench=bench_cache
. "$here/bench/readers.sh"
for what in find keep; do
    few=$(median_each $what 10 400000) && more=$(median_each $what 1000 400000) && most=$(median_each $what 10000 400000) || exit 1
    echo "$what $few $more $most" | awk '{
        printf "%s: %d records a second in a store of 10, %d of 1000, %d of 10,000; %.2f and %.2f times as long as of 10, at most 2\n", $1, 1e9 / $2, 1e9 / $3, 1e9 / $4, $3 / $2, $4 / $2
        exit ($3 > 2 * $2 || $4 > 2 * $2) }' || missed=1
done
exit "$missed"
