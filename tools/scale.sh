#!/bin/bash
# Serves 200 clients by one, two and three gateways behind HAProxy (`examples/haproxy.cfg`), over one route to yaz-ztest, and prints
# requests a second and how many sessions the target had. Then 200 clients step in turns while one gateway of three is killed and
# started again: only clients that it had may lose their connection, the others go on, and it serves again. Prints a row for each thing
# that is seen, and ends with 0 only where each came as it should.
#
#     tools/scale.sh [COMMAND [PORT]]
#
# COMMAND starts the gateway (./gateway), PORT is the first of six that are free (22990). It needs Debian's `haproxy` and `yaz`, python3
# and a C compiler. The gate does not run it.
here=$(CDPATH='' cd -- "$(dirname -- "$0")/.." && pwd) || exit 1
gateway=${1:-$here/gateway}
port=${2:-22990}
ztest=$((port + 4)) web=$((port + 5))
room=$(mktemp -d) || exit 1
failed=0
trap 'kill $(jobs -p) 2>/dev/null; rm -rf "$room"' EXIT
cc -O2 -pthread -o "$room/zload" "$here/bench/serve/zload.c" || exit 1

cat >"$room/route.toml" <<END
[[target]]
name = "real"
address = "tcp:127.0.0.1:$ztest"
[[database]]
name = "Default"
[[database.leg]]
via = "real"
databases = ["Default"]
[pool]
max_sessions = 16
END
row() { if [ "$2" = 0 ]; then printf 'ok    %s\n' "$1"; else printf 'FAIL  %s\n' "$1"; failed=1; fi; }
waits() { for _ in $(seq 600); do (exec 3<>"/dev/tcp/127.0.0.1/$1") 2>/dev/null && return; sleep 0.5; done; echo "no server at port $1" >&2; exit 1; }
start() { # a gateway by its number
    "$gateway" serve "$room/route.toml" $((port + $1)) 16 2>>"$room/log$1" >/dev/null &
    pids[$1]=$!
    waits $((port + $1))
}
# HAProxy over so many gateways: those of the configuration with ports of this run, the others taken out.
balance() {
    sed -e "s/127.0.0.1:2100/127.0.0.1:$port/; s/127.0.0.1:8080/127.0.0.1:$web/" \
        -e "s/127.0.0.1:999\([123]\)/127.0.0.1:@\1/" "$here/examples/haproxy.cfg" |
        sed -e "s/:@1/:$((port + 1))/; s/:@2/:$((port + 2))/; s/:@3/:$((port + 3))/" |
        awk -v most="$1" '!/^ *server gateway/ || substr($2, 8) <= most' >"$room/haproxy.cfg"
    haproxy -q -f "$room/haproxy.cfg" &
    balancer=$!
    waits "$port"
    sleep 3
}
sessions() { ss -Htn state established "( dport = :$ztest )" | wc -l; }

yaz-ztest -v none "@:$ztest" &
waits "$ztest"
mapfile -t session <"$here/bench/serve/session.units"
pids=()
for one in 1 2 3; do
    start "$one"
    balance "$one"
    "$room/zload" -p "$port" -n 4000 -c 200 -t 2 -w 120 "${session[@]}" >"$room/load"
    row "$one gateways: all of 4000 clients are answered" $?
    printf '      %s gateways: %s sessions at the target; %s\n' "$one" "$(sessions)" "$(tr '\n' ' ' <"$room/load")"
    tells=$(curl -s -m 10 "http://127.0.0.1:$web/Default?operation=searchRetrieve&version=1.2&query=computer&maximumRecords=0")
    grep -q '<zs:numberOfRecords>' <<<"$tells"
    row "$one gateways: a GET is answered" $?
    kill "$balancer"
    wait "$balancer" 2>/dev/null
done

balance 3
cat >"$room/turns.py" <<'END'
# 200 clients step in turns for 20 seconds: each asks again on its connection, and connects again where it was lost. Prints how many
# steps were answered, and the second of each loss.
import asyncio, sys, time
port, units, begun = int(sys.argv[1]), [bytes.fromhex(line) for line in open(sys.argv[2])][:3], time.time()
steps, losses, wrong = 0, [], 0
async def reply(reader):
    head = await reader.readexactly(2)
    if head[1] & 128:
        more = await reader.readexactly(head[1] & 127)
        return head[:1], await reader.readexactly(int.from_bytes(more, "big"))
    return head[:1], await reader.readexactly(head[1])
async def client():
    global steps, wrong
    while time.time() < begun + 20:
        try:
            reader, writer = await asyncio.open_connection("127.0.0.1", port)
            for turn in range(40):
                unit = units[0] if turn == 0 else units[1]
                writer.write(unit)
                tag, _ = await asyncio.wait_for(reply(reader), 30)
                wrong += tag != (b"\xb5" if turn == 0 else b"\xb7")
                steps += 1
                await asyncio.sleep(0.05)
            writer.close()
        except (OSError, EOFError, asyncio.TimeoutError):
            losses.append(round(time.time() - begun, 1))
async def all_clients(): await asyncio.gather(*(client() for _ in range(200)))
asyncio.run(all_clients())
print(steps, wrong, len(losses), max(losses, default=0), min(losses, default=0))
END
python3 "$room/turns.py" "$port" "$here/bench/serve/session.units" >"$room/turns" &
turns=$!
sleep 6
kill -9 "${pids[2]}"
wait "${pids[2]}" 2>/dev/null
before=$(grep -c 'ended after' "$room/log2")
sleep 5
start 2
wait "$turns"
read -r steps wrong losses last first <"$room/turns"
printf '      one of three killed and started again: %s steps, %s wrong, %s lost between %s and %s seconds\n' "$steps" "$wrong" "$losses" "$first" "$last"
[ "$wrong" = 0 ] && [ "$steps" -gt 0 ]
row 'every answer is one to what was asked' $?
# HAProxy gives it 12 places at a time
[ "$losses" -le 12 ] && awk -v first="$first" -v last="$last" 'BEGIN { exit !(last - first < 2) }'
row 'no client of the others notices' $?
[ "$(grep -c 'ended after' "$room/log2")" -gt "$before" ]
row 'the one that was started again serves' $?
exit "$failed"
