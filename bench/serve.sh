#!/bin/bash
# Times the gateway as it serves, in one run beside yaz-ztest (Debian's `yaz`: one process, a thread for each connection, a process
# for each) and a floor that answers each unit with a fixed reply (`serve/zfloor.c`), all on this machine and by the same units:
#
# - one connection of 5,000 Searches and Presents in turns, over a built-in target: at least as many a second as the best of
#   yaz-ztest; over a target that is the floor: at least 0.45 of what the floor answers itself. What can be had there is told by a relay
#   that does nothing but pass Presents on (`serve/zrelay.c`);
# - 16 connections at once, each Init, Search, Present and Close, with 16 workers: at least as many a second as yaz-ztest's threads;
# - GETs of SRU, a connection each, 16 at once: at least half of the floor's;
# - 64 connections open at once: at most 64 kB of memory each, and how many sessions their one query takes at a target;
# - the same on one thread, by `events`: one connection at least as `serve` does; 16 at once at least as yaz-ztest's one process (-S); GETs at
#   least half of the floor's; 16 at once beside 900 that have logged in and say no more: at least 1 / 1.3 of what the 16 have alone; and at
#   most 4 kB for each of the 900.
#
# All but the 16 connections of `serve` are served with 64 workers. Each rate is the best of four. Prints each with the gateway's processor time, and ends with 1 where a demand is missed.
#
#     bench/serve.sh [COMMAND [PORT]]
#
# COMMAND starts the gateway (the program that is built), PORT is the first of eight that are free (21100).
here=$(cd "$(dirname "$0")/.." && pwd) || exit 1
gateway=${1:-$here/crates/gateway_program/out/gateway_program}
port=${2:-21100}
floor=$((port + 1)) static=$((port + 2)) threads=$((port + 3)) forks=$((port + 4)) sixteen=$((port + 5)) relay=$((port + 6)) events=$((port + 7))
units=$here/bench/serve/session.units
room=$(mktemp -d) || exit 1
missed=0
trap 'kill $(jobs -p) 2>/dev/null; rm -rf "$room"' EXIT

for tool in zload zfloor zrelay; do
    cc -O2 -pthread -o "$room/$tool" "$here/bench/serve/$tool.c" || exit 1
done
cp "$here/examples/first.toml" "$room/demo"
{ cat "$room/demo"; cat <<END; } >"$room/route"
[[target]]
name = "floor"
address = "tcp:127.0.0.1:$floor"
[[database]]
name = "Floor"
[[database.leg]]
via = "floor"
databases = ["Default"]
END

# ---- what the floor answers: what the gateway answers to each unit
mapfile -t session <"$units"
answered() { # the octets that a client is answered to these
    { for unit in "$@"; do echo "feed 1 $unit"; done; echo "run 1"; } >"$room/script"
    "$gateway" replay "$room/demo" "$room/script" | sed -n 's/^bytes //p'
}
replies=() all=
for count in 1 2 3 4; do
    next=$(answered "${session[@]:0:count}")
    replies+=("${next#"$all"}")
    all=$next
done
hex() { od -An -v -tx1 | tr -d ' \n'; }
get=$(printf 'GET /Default?version=1.2&operation=searchRetrieve&query=dc.title%%3Da&maximumRecords=2 HTTP/1.1\r\nHost: localhost\r\n\r\n' | hex)
page=$(answered "$get")

# ---- servers
waits() { # until a port is listened on
    for _ in $(seq 200); do (exec 3<>"/dev/tcp/127.0.0.1/$1") 2>/dev/null && return; sleep 0.1; done
    echo "no server at port $1" >&2
    exit 1
}
"$room/zfloor" "$floor" "b4=${replies[0]}" "b6=${replies[1]}" "b8=${replies[2]}" "bf30=${replies[3]}" "47=$page" &
"$room/zrelay" "$relay" "$floor" "b4=${replies[0]}" "b6=${replies[1]}" "bf30=${replies[3]}" &
yaz-ztest -v none -S "@:$static" 2>/dev/null &
yaz-ztest -v none -T "@:$threads" 2>/dev/null &
yaz-ztest -v none "@:$forks" 2>/dev/null &
"$gateway" serve "$room/route" "$port" 64 --quiet >"$room/out" 2>"$room/log" &
of_64=$! served=$!
"$gateway" serve "$room/route" "$sixteen" 16 --quiet >"$room/out16" 2>"$room/log16" &
of_16=$!
"$gateway" events "$room/route" "$events" 1000 --quiet >"$room/out1" 2>"$room/log1" &
of_events=$!
for at in "$floor" "$relay" "$static" "$threads" "$forks" "$port" "$sixteen" "$events"; do waits "$at"; done
[ "${#replies[3]}" -gt 0 ] && [ -n "$page" ] || { echo 'the gateway answered no whole session' >&2; exit 1; }

# ---- rates
# The processor time so far of the gateway that is timed, in microseconds.
spent() { awk -v tick="$(getconf CLK_TCK)" '{ print ($14 + $15) * 1000000 / tick }' "/proc/$served/stat"; }
# The best of four of one kind of number, `connections` or `requests` a second, of a server at a port.
rate() {
    for _ in 1 2 3 4; do
        "$room/zload" -p "$2" "${@:3}" >"$room/told" || { cat "$room/told" >&2; exit 1; }
        awk -v kind="$1/s" '{ for (i = 1; i < NF; i++) if ($i == kind) print $(i + 1) }' "$room/told"
    done | sort -n | tail -1
}
# The gateway's, and what it spent on each.
ours() {
    begun=$(spent)
    best=$(rate "$@") || exit 1
    ended=$(spent)
    number=$(awk -v kind="$1" '/^port/ { for (i = 1; i < NF; i++) if ($i == kind) print 4 * $(i + 1) }' "$room/told")
    each=$(awk -v a="$begun" -v b="$ended" -v n="$number" 'BEGIN { printf "%.1f", (b - a) / n }')
}
# A row: what was timed, the gateway's rate, that of another and at least what part of it is asked.
row() {
    awk -v what="$1" -v ours="$best" -v each="$each" -v other="$2" -v whose="$3" -v least="$4" 'BEGIN {
        printf "%s: %d a second (%s us of processor each), %s %d: %.2f times, at least %s\n", what, ours, each, whose, other, ours / other, least
        exit ours < least * other }' || missed=1
}

turns=(-n 1 -c 1 -f 1 -r 5000 -l 1 "@$units")
ztest=$(for at in "$static" "$threads" "$forks"; do rate requests "$at" "${turns[@]}" || exit 1; done | sort -n | tail -1)
ours requests "$port" "${turns[@]}" || exit 1
row 'Searches and Presents of one connection' "$ztest" 'the best of yaz-ztest' 1
of_serve=$best
served=$of_events
ours requests "$events" "${turns[@]}" || exit 1
served=$of_64
row 'the same on one thread' "$of_serve" 'serve' 1

# The same of the database whose target is the floor: its name stands in the Search, with its length and those around it.
sed "s/^b63f\(.*\)b20a9f690744656661756c74/b63d\1b2089f6905466c6f6f72/" "$units" >"$room/units"
turns[-1]="@$room/units"
least=$(rate requests "$floor" "${turns[@]}") || exit 1
ours requests "$port" "${turns[@]}" || exit 1
row 'the same over a target' "$least" 'the floor alone' 0.45
served=$of_events
ours requests "$events" "${turns[@]}" || exit 1
served=$of_64
row 'the same on one thread' "$least" 'the floor alone' 0.45
passed=$(rate requests "$relay" "${turns[@]}") || exit 1
awk -v passed="$passed" -v floor="$least" 'BEGIN { printf "a relay there that passes Presents on: %d a second, %.2f times\n", passed, passed / floor }'

each_one=(-n 4000 -c 16 "@$units")
ztest=$(rate connections "$threads" "${each_one[@]}") || exit 1
served=$of_16
ours connections "$sixteen" "${each_one[@]}" || exit 1
served=$of_64
row '16 connections at once, each a whole session, with 16 workers' "$ztest" "yaz-ztest's threads" 1
ztest=$(rate connections "$static" "${each_one[@]}") || exit 1
served=$of_events
ours connections "$events" "${each_one[@]}" || exit 1
served=$of_64
row 'the same on one thread' "$ztest" "yaz-ztest's one process" 1
alone=$best

each_one=(-n 4000 -c 16 "$get")
least=$(rate requests "$floor" "${each_one[@]}") || exit 1
ours requests "$port" "${each_one[@]}" || exit 1
row 'GETs of SRU, a connection each, 16 at once' "$least" 'the floor' 0.5
served=$of_events
ours requests "$events" "${each_one[@]}" || exit 1
served=$of_64
row 'the same on one thread' "$least" 'the floor' 0.5

# ---- memory, and sessions at the target
memory() { awk '/^VmRSS/ { print $2 }' "/proc/$served/status"; }
begun=$(memory)
head -n 3 "$room/units" >"$room/open"
"$room/zload" -p "$port" -c 64 -H 3 "@$room/open" >"$room/told" &
sleep 2
ended=$(memory)
links=$(awk -v at=":$(printf %04X "$floor")" '$3 ~ at "$" && $4 == "01"' /proc/net/tcp | wc -l)
wait $! || { cat "$room/told"; exit 1; }
awk -v a="$begun" -v b="$ended" -v links="$links" 'BEGIN {
    printf "64 connections: %.1f kB each, at most 64; their one query holds %d sessions at its target\n", (b - a) / 64, links
    exit b - a > 64 * 64 }' || missed=1

# ---- on one thread, beside many that are idle
served=$of_events
begun=$(memory)
head -n 1 "$units" >"$room/init"
"$room/zload" -p "$events" -n 900 -c 900 -H 60 -w 120 "@$room/init" >"$room/idle" &
idle=$!
sleep 3
ended=$(memory)
awk -v a="$begun" -v b="$ended" 'BEGIN { printf "900 idle connections on one thread: %.1f kB each, at most 4\n", (b - a) / 900; exit b - a > 900 * 4 }' || missed=1
ours connections "$events" -n 4000 -c 16 "@$units" || exit 1
row '16 connections at once beside them' "$alone" 'the 16 alone' 0.77
kill "$idle" 2>/dev/null
exit "$missed"
