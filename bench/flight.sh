#!/bin/bash
# Times one request to three targets that answer each unit after 50, 100 and 150 milliseconds, over sockets: Searches of a database of
# all three, which are to take as long as the slowest, and beside them Searches of each alone, which add up to what legs one after
# another would take. Prints medians of 20, and ends with 1 where a request takes more than 1.2 times the slowest target's delay.
#
#     bench/flight.sh [COMMAND [PORT]]
#
# COMMAND starts the gateway (the program that is built), PORT is the first of four that are free (21200). It needs Python.
here=$(cd "$(dirname "$0")/.." && pwd) || exit 1
gateway=${1:-$here/crates/gateway_program/out/gateway_program}
port=${2:-21200}
room=$(mktemp -d) || exit 1
trap 'kill $(jobs -p) 2>/dev/null; rm -rf "$room"' EXIT

for number in 1 2 3; do
    printf '[[target]]\nname = "target%d"\naddress = "tcp:127.0.0.1:%d"\n' "$number" $((port + number))
done >"$room/route"
for number in 1 2 3; do
    printf '[[database]]\nname = "One%d"\n[[database.leg]]\nvia = "target%d"\ndatabases = ["Default"]\n' "$number" "$number"
done >>"$room/route"
{ printf '[[database]]\nname = "All0"\n'
  for number in 1 2 3; do printf '[[database.leg]]\nvia = "target%d"\ndatabases = ["Default"]\n' "$number"; done; } >>"$room/route"

cat >"$room/targets.py" <<'END'
# Targets that answer an Init and each Search after a while, each at its port.
import socket, sys, threading, time

REPLIES = {
    0xB4: bytes.fromhex("b516830205e0840301c102850310000086031000008c01ff"),
    0xB6: bytes.fromhex("b70c970103980100990101" "9601ff"),
}


def answer(link, delay):
    while unit := link.recv(4096):
        time.sleep(delay)
        link.sendall(REPLIES[unit[0]])


def serve(port, delay):
    listener = socket.create_server(("127.0.0.1", port))
    while True:
        link, _ = listener.accept()
        link.setsockopt(socket.IPPROTO_TCP, socket.TCP_NODELAY, 1)
        threading.Thread(target=answer, args=(link, delay), daemon=True).start()


for number, delay in enumerate((0.05, 0.1, 0.15), 1):
    threading.Thread(target=serve, args=(int(sys.argv[1]) + number, delay), daemon=True).start()
time.sleep(600)
END
cat >"$room/client.py" <<'END'
# A client that times Searches of each database, each of a word of its own, so that no set of one is given to another.
import socket, statistics, sys, time

INIT = bytes.fromhex("b413830205e0840301fffe85031000008603100000")


def search(database, word):
    term = b"\x9f\x2d" + bytes([len(word)]) + word
    attributes = bytes.fromhex("bf2c0a30089f7801019f790104")
    plain = b"\xbf\x66" + bytes([len(attributes + term)]) + attributes + term
    query = bytes.fromhex("06072a8648ce130301") + b"\xa0" + bytes([len(plain)]) + plain
    wrapped = b"\xa1" + bytes([len(query)]) + query
    names = b"\x9f\x69" + bytes([len(database)]) + database
    body = bytes.fromhex("8d01008e01018f01009001ff910131") + b"\xb2" + bytes([len(names)]) + names
    body += b"\xb5" + bytes([len(wrapped)]) + wrapped
    return b"\xb6" + bytes([len(body)]) + body


def asked(link, unit):
    begun = time.monotonic()
    link.sendall(unit)
    reply = link.recv(4096)
    return reply, time.monotonic() - begun


link = socket.create_connection(("127.0.0.1", int(sys.argv[1])))
link.setsockopt(socket.IPPROTO_TCP, socket.TCP_NODELAY, 1)
asked(link, INIT)
asked(link, search(b"All0", b"first"))
medians = {}
for database in (b"One1", b"One2", b"One3", b"All0"):
    times = []
    for number in range(20):
        reply, took = asked(link, search(database, b"%s%03d" % (database, number)))
        if reply[0] != 0xB7 or reply[2:4] != b"\x97\x01":
            sys.exit(f"{database}: {reply.hex()}")
        times.append(took * 1000)
    medians[database] = statistics.median(times)
alone = [medians[it] for it in (b"One1", b"One2", b"One3")]
print("each target alone: " + ", ".join(f"{it:.0f}" for it in alone) + f" ms, one after another {sum(alone):.0f} ms")
print(f"all three: {medians[b'All0']:.0f} ms, {medians[b'All0'] / 150:.2f} times the slowest target's 150 ms, at most 1.2")
sys.exit(medians[b"All0"] > 1.2 * 150)
END
python3 "$room/targets.py" "$port" &
"$gateway" serve "$room/route" "$port" 2 --quiet >"$room/out" 2>"$room/log" &
for _ in $(seq 300); do (exec 3<>"/dev/tcp/127.0.0.1/$port") 2>/dev/null && break; sleep 1; done
python3 "$room/client.py" "$port"
