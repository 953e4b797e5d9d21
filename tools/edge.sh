#!/bin/bash
# Starts the gateway as an operator may, and prints a row for each thing that is tried: closed standard streams, addresses, refused
# configurations, few descriptors, lines that repeat, totals, the log's form. Ends with 0 only where each came as it should.
#
#     tools/edge.sh [COMMAND [PORT [FRONT]]]
#
# COMMAND starts the gateway (./gateway), PORT is free, and so is the next (20980), FRONT is `serve` or `events` (`serve`). It needs `curl` and Python 3. The gate does not run it.
here=$(CDPATH='' cd -- "$(dirname -- "$0")/.." && pwd) || exit 1
gateway=${1:-$here/gateway}
port=${2:-20980}
front=${3:-serve}
case $front in
    serve) at_once='with 2 workers' ;;
    events) at_once='for 2 connections' ;;
    *) exit 2 ;;
esac
away=$((port + 1))
room=$(mktemp -d) || exit 1
failed=0
server=
trap '[ -z "$server" ] || kill "$server" 2>/dev/null; rm -rf "$room"' EXIT
cd "$room" || exit 1

cat >route.toml <<END
[[target]]
name = "demo"
address = "test:0"
[[target]]
name = "away"
address = "tcp:127.0.0.1:$away"
[[database]]
name = "Demo"
[[database.leg]]
via = "demo"
databases = ["Default"]
[[database]]
name = "Away"
[[database.leg]]
via = "away"
databases = ["Default"]
END

# A row: what was tried, and whether it came so.
row() {
    if [ "$2" = 0 ]; then printf 'ok    %s\n' "$1"; else printf 'FAIL  %s\n' "$1"; failed=1; fi
}

# Starts the front with these words behind the port and the workers, and waits until it listens.
start() {
    "$gateway" "$front" route.toml "$port" "$@" >out 2>log &
    server=$!
    for _ in $(seq 100); do grep -q '^listening' log && break; sleep 0.1; done
}
# Ends it, and waits until it has ended.
stop() { kill "$server"; wait "$server" 2>/dev/null; server=; }

# Whether a host gives hits to a search in a database.
hits() { curl -g -s -m 10 "http://$1:$port/$2?version=1.2&operation=searchRetrieve&query=dc.title%3Da" | grep -q '<zs:numberOfRecords>3<'; }
# Whether the log, or what was printed, has a line of this form.
logs() { grep -qE -- "$1" log; }
prints() { printf '%s\n' "$1" | cmp -s - out; }

# Whether the first octet that a client gets is that of an InitializeResponse.
is_answered() {
    timeout 10 python3 -c "
import socket, sys, time
for again in range(50):
    try: link = socket.create_connection(('127.0.0.1', $port)); break
    except OSError: time.sleep(0.1)
link.sendall(bytes.fromhex('b413830205e0840301fffe85031000008603100000'))
sys.exit(link.recv(1) != b'\xb5')"
}

# Sends octets, in hexadecimal, waits for an answer, and leaves.
asks() {
    timeout 10 python3 -c "
import socket
link = socket.create_connection(('127.0.0.1', $port))
link.sendall(bytes.fromhex('$1'))
link.recv(4096)"
}
# Whether the log's last line of a connection that has ended ends so, within two seconds.
ends() {
    for _ in $(seq 20); do
        grep 'ended after' log | tail -n 1 | grep -qE "$1\$" && return
        sleep 0.1
    done
    return 1
}
# Whether a search in Demo shows its first record.
shows() { curl -g -s -m 10 "http://127.0.0.1:$port/Demo?version=1.2&operation=searchRetrieve&query=dc.title%3Da&maximumRecords=1" | grep -q '<zs:recordPosition>1<'; }

for stream in 0 1 2; do
    case $stream in
        0) "$gateway" "$front" route.toml "$port" 2 <&- >out 2>log & ;;
        1) "$gateway" "$front" route.toml "$port" 2 >&- 2>log & ;;
        2) "$gateway" "$front" route.toml "$port" 2 >out 2>&- & ;;
    esac
    server=$!
    is_answered
    row "descriptor $stream closed: a client is answered, and told nothing else" $?
    stop
done

start 2
logs "^listening on 127\.0\.0\.1, port $port, $at_once$" && ! logs 'other machines'
row 'without --listen: loopback alone' $?
hits 127.0.0.1 Demo
row 'a search' $?
logs '^[0-9]{4}-[0-9]{2}-[0-9]{2}T[0-9]{2}:[0-9]{2}:[0-9]{2}Z \[INFO  (tcp|event)_edge::accepts\] connection 1 from 127\.0\.0\.1:[0-9]+$'
row "the log's lines begin with the time, level and place" $?
stop
start 2
hits 127.0.0.1 Demo
row 'the port can be listened on again at once' $?
for _ in $(seq 40); do curl -s -m 10 "http://127.0.0.1:$port/Away?version=1.2&operation=searchRetrieve&query=dc.title%3Da" >reply; done
lines=$(grep -c 'cannot be dialled' log)
[ "$lines" -ge 1 ] && [ "$lines" -lt 20 ]
row "a line that repeats is logged once a second at most ($lines of 40)" $?
stop

start 2 --quiet
hits 127.0.0.1 Demo
curl -s -m 10 "http://127.0.0.1:$port/Away?version=1.2&operation=searchRetrieve&query=dc.title%3Da" >reply
! logs 'totals'
row 'no totals in the first minute' $?
sleep 61
hits 127.0.0.1 Demo && hits 127.0.0.1 Demo
[ "$(grep -c ' totals: ' log)" = 1 ] && logs 'Z \[INFO  tcp_edge::totals\] totals: 1 connections open, 2 served, requests 1 Plain, 1 Link, 0 Silent, 0 Gone, 0 Full$'
row 'totals stand in the log once a minute in which something happened' $?
logs 'totals of target away: 0 dials, 0 searches, [1-9] faults$' && ! logs 'totals of target demo'
row 'and those of each target at a host that was asked' $?
stop

start 2 --quiet --listen 0.0.0.0
logs "^listening on 0\.0\.0\.0, port $port" && logs 'clients of other machines may connect, and no rules say who may search'
row '--listen beyond loopback says that no rules stand' $?
hits 127.0.0.1 Demo && ! logs 'connection 1 '
row '--quiet logs no connection' $?
stop
start 2 --listen ::1
hits '[::1]' Demo
row '--listen ::1' $?
stop

# A configuration with a user and a rule, which everybody can read, or not.
cp route.toml open.toml
cat >>route.toml <<END
[[user]]
name = "ann"
password = "pw"
[[rule]]
name = "open"
effect = "allow"
user = "*"
databases = ["Demo"]
END
chmod 644 route.toml
start 2 --listen 0.0.0.0
logs 'the configuration has passwords, and everybody on this machine can read it' && ! logs 'no rules say'
row 'passwords that everybody can read are warned of, and rules stand' $?
stop
chmod 600 route.toml
start 2
! logs passwords && hits 127.0.0.1 Demo && ! hits 127.0.0.1 Away
row 'nothing is said of a file that is closed; a rule opens one database' $?
asks b413830205e0840301fffe85031000008603100000 && ends 'Finished, as anonymous'
row 'the log says that a connection was nobody'"'"'s' $?
asks b41d830205e0840301fffe85031000008603100000a7081a06616e6e2f7077 && ends 'Finished, as ann'
row 'or whose it was, and nothing of the password' $?
wrong=b41d830205e0840301fffe85031000008603100000a7081a06616e6e2f7078
asks $wrong && ends 'Finished, login refused' && asks $wrong$wrong && ends 'Finished, login refused 2 times' && ! logs 'p[wx]$|ann/'
row 'or that its logins were refused' $?
stop

# Records that are kept, which `events` does not: the log tells how many Presents they answered.
if [ "$front" = serve ]; then
printf '[cache]\nrecords = 10\n' >>open.toml
cp open.toml route.toml
start 1
hits 127.0.0.1 Demo && shows && shows && ends '1 requests \(0 Link, 0 Silent, 0 Gone, 0 Full\), 1 from the cache, Closed'
row 'records that are kept are given again, and the log says so' $?
stop
sed -i '/^.cache.$/,$d' open.toml
cp open.toml route.toml
fi

# Refusals: the words, what is printed, what the standard error says.
refuses() {
    "$gateway" $2 >out 2>log
    prints "$3" && { [ -z "$4" ] || logs "$4"; } && ! logs listening
    row "$1" $?
}
printf '[[target]]\nname = "demo"\naddress: "test:0"\n' >toml
sed 's/database.leg/database.legs/' route.toml >legs
sed '/demo/,$s/^address/adress/' route.toml >adress
printf '[[schema]]\nname = "dc"\nuri = "a&b"\nelement = "dc"\n' | cat route.toml - >uri
refuses 'the configuration goes before the port' "$front toml $port 2" 'config 1 toml' '^gateway: line 3, column 8: '
refuses 'where no TOML is' 'check toml' 'config 1 toml' '^gateway: line 3, column 8: '
refuses 'a key that is nearly the missing one' 'check legs' 'config 2 database[0].leg' '^gateway: there is a key `legs`: is `leg` meant\?$'
refuses 'the same of a target' 'check adress' 'config 2 target[0].address' '^gateway: there is a key `adress`: is `address` meant\?$'
refuses 'why a file is not read' 'check missing' 'read fault missing' '^gateway: .*[Nn]o such file'
refuses 'a flag that stands twice' "$front route.toml $port 2 --quiet --quiet" 'usage: check CONFIG | replay CONFIG SCRIPT | load N | serve CONFIG PORT WORKERS | events CONFIG PORT MOST' ''
refuses 'an address that is none' "$front route.toml $port 2 --listen here" 'usage: check CONFIG | replay CONFIG SCRIPT | load N | serve CONFIG PORT WORKERS | events CONFIG PORT MOST' ''
refuses 'a schema whose uri breaks XML' 'check uri' 'ok databases 2 classes 2' '^gateway: schema\[0\]\.uri has'
"$gateway" "$front" <(cat route.toml) "$port" 2 >out 2>log &
server=$!
for _ in $(seq 100); do grep -q '^listening' log && break; sleep 0.1; done
hits 127.0.0.1 Demo
row 'a configuration from a pipe' $?
stop

# 64 workers and 40 descriptors: each worker borrows the one listener. Or 64 connections on one thread.
case $front in
    serve) needed='64 workers and 64 sessions with targets may need 328 ' ;;
    events) needed='64 connections and 64 sessions with targets may need 200 ' ;;
esac
sh -c "ulimit -S -n 40; ulimit -H -n 40; exec '$gateway' $front route.toml $port 64" >out 2>log &
server=$!
for _ in $(seq 100); do grep -q '^listening' log && break; sleep 0.1; done
logs "the limit of 40 descriptors is low: $needed"
row 'few descriptors are told' $?
hits 127.0.0.1 Demo
row 'with 64 clients at once and 40 descriptors clients are served' $?
timeout 60 python3 -c "
import socket, time
links = [socket.create_connection(('127.0.0.1', $port)) for _ in range(60)]
time.sleep(5)"
sleep 2
lines=$(grep -cE 'accept failed|was lost' log)
[ "$lines" -ge 1 ] && [ "$lines" -le 20 ] && { [ "$front" = events ] || logs ', [0-9]+ times$'; }
row "no room for clients is logged once a second at most ($lines lines), and by many workers with how often" $?
hits 127.0.0.1 Demo
row 'and they are served when there is room again' $?
stop
exit "$failed"
