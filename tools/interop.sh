#!/bin/bash
# Serves real clients over real targets, and compares what they are answered with what the targets say when they are asked directly; then
# targets and clients fail. Prints a row for each thing that is tried, and ends with 0 only where each came as it should.
#
#     tools/interop.sh [COMMAND [PORT [FRONT]]]
#
# COMMAND starts the gateway (./gateway), PORT is the first of ten that are free (20990), FRONT is `serve` or `events` (`serve`). It needs Debian's `yaz`, `idzebra-2.0`,
# `libnet-z3950-zoom-perl`, `curl` and Python 3. The gate does not run it.
here=$(CDPATH='' cd -- "$(dirname -- "$0")/.." && pwd) || exit 1
gateway=${1:-$here/gateway}
examples=$here/examples
port=${2:-20990}
ztest=$((port + 1))
mute=$((port + 2))
zebra=$((port + 3))
half=$((port + 4))
maps=$((port + 5))
books=$((port + 6))
members=$((port + 7))
closed=$((port + 8))
full=$((port + 9))
front=${3:-serve}
# How many clients are served at a time; and what a search shows of a target that takes no connection: `serve` waits for it, and `events`
# looks as often as the patience says.
case $front in
    serve) most=8 untaken='[109] Database unavailable' ;;
    events) most=1000 untaken='[2] Temporary system error' ;;
    *) exit 2 ;;
esac
room=$(mktemp -d) || exit 1
failed=0
trap 'kill $(jobs -p) 2>/dev/null; rm -rf "$room"' EXIT

cat >"$room/route.toml" <<END
[[target]]
name = "demo"
address = "test:0"
[[target]]
name = "real"
address = "tcp:127.0.0.1:$ztest"
[[target]]
name = "mute"
address = "tcp:127.0.0.1:$mute"
[[target]]
name = "zebra"
address = "tcp:127.0.0.1:$zebra"
[[target]]
name = "half"
address = "tcp:127.0.0.1:$half"
[[target]]
name = "closed"
address = "tcp:127.0.0.1:$closed"
[[target]]
name = "full"
address = "tcp:127.0.0.1:$full"
[[database]]
name = "Demo"
[[database.leg]]
via = "demo"
databases = ["Default"]
[[database]]
name = "Real"
[[database.leg]]
via = "real"
databases = ["Default"]
[[database]]
name = "Both"
[[database.leg]]
via = "demo"
databases = ["Default"]
[[database.leg]]
via = "real"
databases = ["Default"]
[[database]]
name = "Mute"
[[database.leg]]
via = "mute"
databases = ["Default"]
[[database]]
name = "Zebra"
[[database.leg]]
via = "zebra"
databases = ["Default"]
[[database]]
name = "Half"
[[database.leg]]
via = "half"
databases = ["Default"]
[[database]]
name = "Full"
[[database.leg]]
via = "full"
databases = ["Default"]
[[database]]
name = "Closed"
[[database.leg]]
via = "closed"
databases = ["Default"]
[pool]
patience = 20
END

# A row: what was tried, and whether it came so.
row() {
    if [ "$2" = 0 ]; then printf 'ok    %s\n' "$1"; else printf 'FAIL  %s\n' "$1"; failed=1; fi
}

# What yaz-client shows of commands on standard input, at a port.
client() { { echo "open tcp:127.0.0.1:$1"; cat; echo quit; } | timeout 60 yaz-client 2>&1; }

# Whether what yaz-client shows of commands at the gateway has a text.
shows() {
    client "$port" <"$room/commands" >"$room/shown"
    grep -qF -- "$2" "$room/shown"
    row "$1" $?
}
commands() { printf '%s\n' "$@" >"$room/commands"; }

# Whether what a command prints has a text.
tells() {
    what=$1 text=$2
    shift 2
    timeout 60 "$@" >"$room/shown" 2>&1
    grep -qF -- "$text" "$room/shown"
    row "$what" $?
}

hits() { sed -n 's/^Number of hits: \([0-9]*\).*/\1/p'; }
# The fields of records in MARC, without what names the database they came from.
fields() { grep -E '^[0-9]{3} '; }

start_target() { yaz-ztest "@:$ztest" >"$room/target" 2>&1 & target=$!; sleep 1; }
# A target forks a process for each link.
stop_target() { pkill -P "$target"; kill "$target"; wait "$target" 2>/dev/null; }

start_target
# The example of geological maps of Zebra.
cp -r /usr/share/doc/idzebra-2.0/examples/gils "$room/gils" || exit 1
(cd "$room/gils" && zebraidx -c zebra.cfg init && zebraidx -c zebra.cfg update records) >"$room/indexed" 2>&1 || exit 1
(cd "$room/gils" && exec zebrasrv -c zebra.cfg -v none "@:$zebra") &
# The same for those alone who log in.
cp -r "$room/gils" "$room/closed" && echo 'ann:pw' >"$room/closed/passwords" &&
    printf 'passwd: passwords\nperm.anonymous:\nperm.ann: rw\n' >>"$room/closed/zebra.cfg" || exit 1
(cd "$room/closed" && exec zebrasrv -c zebra.cfg -v none "@:$closed") &
# A target that accepts and says nothing, one that accepts an Init and breaks off in its reply to the next request, and one that takes no
# connection, since its queue is full.
timeout 600 python3 -c "
import socket, threading
def listening(port):
    s = socket.socket(); s.setsockopt(socket.SOL_SOCKET, socket.SO_REUSEADDR, 1)
    s.bind(('127.0.0.1', port)); s.listen(9)
    return s
def breaks_off(s):
    accepts = bytes.fromhex('b516830205e0840301c102850310000086031000008c01ff')
    while True:
        link = s.accept()[0]
        link.recv(4096); link.sendall(accepts); link.recv(4096); link.sendall(bytes.fromhex('b70c9701')); link.close()
threading.Thread(target=breaks_off, args=(listening($half),), daemon=True).start()
takes_none = socket.socket(); takes_none.bind(('127.0.0.1', $full)); takes_none.listen(0)
waiting = [socket.socket() for _ in range(8)]
for one in waiting: one.setblocking(False); one.connect_ex(('127.0.0.1', $full))
s = listening($mute); kept = []
while True: kept.append(s.accept())" &
"$gateway" "$front" "$room/route.toml" "$port" "$most" 2>"$room/log" >"$room/out" &
for _ in $(seq 300); do grep -q '^listening' "$room/log" && break; sleep 1; done

commands 'base Demo' 'find @attr 1=4 a' 'format xml' 'show 2+1'
shows 'a built-in target: hits' 'Number of hits: 3'
shows 'a built-in target: a record in the middle' '<r>0.Default.12</r>'
commands 'base Demo' 'scan @attr 1=4 b'
shows 'a scan' '* b (10)'
commands 'base Demo' 'find @attr 1=4 a' 'find @attr 1=4 b' 'find @and @set 1 @set 2'
shows 'result sets as operands' 'setno 3'
commands 'base Nothing' 'find a'
shows 'a database that is none' '[235] Database does not exist'
commands 'base Demo' 'find @attr 1=4 a' 'delete 1'
shows 'a request that is not served' 'Reason: protocolError'

for query in '@attr 1=4 a' 'computer' '@and a b' '@attr 1=1003 c'; do
    directly=$(client "$ztest" <<<"find $query" | hits)
    here=$(printf 'base Real\nfind %s\n' "$query" | client "$port" | hits)
    [ -n "$here" ] && [ "$here" = "$directly" ]
    row "a real target: as many hits ($query: $here)" $?
done
printf 'find computer\nshow 1+1\n' | client "$ztest" | fields >"$room/directly"
printf 'base Real\nfind computer\nshow 1+1\n' | client "$port" | fields >"$room/here"
[ -s "$room/here" ] && cmp -s "$room/directly" "$room/here"
row 'a real target: the same record' $?
commands 'base Both' 'find @attr 1=4 a' 'format xml' 'show 1+1'
shows 'two targets as one' '[Both]'

for query in '@attr 1=4 surficial' 'geology' '@or map water' '@and maine @attr 1=4 map' 'nothingofthekind'; do
    directly=$(client "$zebra" <<<"find $query" | hits)
    here=$(printf 'base Zebra\nfind %s\n' "$query" | client "$port" | hits)
    [ -n "$here" ] && [ "$here" = "$directly" ]
    row "zebrasrv: as many hits ($query: $here)" $?
done
# Records as lines, without the names of the databases that they came from.
maps() { sed -n '/^<gils>/,/^<\/gils>/p' | sed 's/^\(<\/gils>\)\[[A-Za-z]*\]/\1/'; }
printf 'find geology\nformat xml\nshow 1+3\n' | client "$zebra" | maps >"$room/directly"
printf 'base Zebra\nfind geology\nformat xml\nshow 1+3\n' | client "$port" | maps >"$room/here"
[ -s "$room/here" ] && cmp -s "$room/directly" "$room/here"
row 'zebrasrv: the same records' $?
# Terms as they are searched for: yaz-client prints how a target spells them for display, which Zebra does in capitals.
entries() { grep -E '^[* ] .* \([0-9]+\)$' | tr '[:upper:]' '[:lower:]'; }
client "$zebra" <<<'scan @attr 1=4 map' | entries >"$room/directly"
printf 'base Zebra\nscan @attr 1=4 map\n' | client "$port" | entries >"$room/here"
[ -s "$room/here" ] && cmp -s "$room/directly" "$room/here"
row 'zebrasrv: the same entries of a scan' $?

tells 'zoomsh: hits' '3 hits' zoomsh 'set preferredRecordSyntax xml' "connect 127.0.0.1:$port/Demo" 'search @attr 1=4 a' quit
tells 'zoomsh: a record' '0.Default.12' zoomsh 'set preferredRecordSyntax xml' "connect 127.0.0.1:$port/Demo" 'search @attr 1=4 a' 'show 1 1' quit
tells "ZOOM in Perl: hits and a record" '3 <r>0.Default.20</r>' perl -MZOOM -e '
    my $link = ZOOM::Connection->new($ARGV[0]);
    $link->option(preferredRecordSyntax => "xml");
    my $set = $link->search_pqf(q(@attr 1=4 a));
    print $set->size, " ", $set->record(2)->raw' "127.0.0.1:$port/Demo"
sru="http://127.0.0.1:$port/Demo?operation=searchRetrieve&version=1.2"
tells 'curl: hits over the same port' '<zs:numberOfRecords>3<' curl -s -m 10 "$sru&query=dc.title%3Da&maximumRecords=1"
tells 'curl: hits of zebrasrv' '<zs:numberOfRecords>1<' curl -s -m 10 "${sru/Demo/Zebra}&query=dc.title%3Dsurficial&maximumRecords=1"
tells 'yaz-client over SRU' 'Number of hits: 3' yaz-client <<END
open http://127.0.0.1:$port/Demo
sru get 1.2
find dc.title=a
quit
END

# What yaz-client shows of a search in a database at a port, behind a command that says who asks, has a text.
asks() {
    printf '%s\nopen tcp:127.0.0.1:%s\nbase %s\nfind @attr 1=4 %s\nquit\n' "$2" "$3" "$4" "$5" | timeout 60 yaz-client >"$room/shown" 2>&1
    grep -qF -- "$6" "$room/shown"
    row "$1" $?
}
asks 'a login goes to a target that wants one' 'auth ann/pw' "$port" Closed map 'Number of hits: '
asks 'and so does one of name and password apart' 'auth ann pw' "$port" Closed map 'Number of hits: '
asks 'a session of that login serves nobody without it' 'format xml' "$port" Closed map 'Database unavailable'
asks 'nor another login' 'auth ann/no' "$port" Closed map 'Database unavailable'

"$gateway" "$front" "$examples/members.toml" "$members" 2 2>"$room/members.log" >"$room/members.out" &
for _ in $(seq 60); do grep -q '^listening' "$room/members.log" && break; sleep 1; done
asks 'examples/members.toml: a user' 'auth ann/pw' "$members" All a 'Number of hits: '
asks 'examples/members.toml: a user by name and password apart' 'auth ann pw' "$members" All a 'Number of hits: '
asks 'examples/members.toml: who has not logged in is told the rule' 'format xml' "$members" All a 'members-only'
asks 'examples/members.toml: and may search what is open' 'format xml' "$members" Books a 'Number of hits: 3'
asks 'examples/members.toml: a wrong password' 'auth ann/no' "$members" Books a 'Connection rejected by v3 target'
tells 'examples/members.toml: ZOOM with user and password' 'hits' zoomsh 'set user ann' 'set password pw' "connect 127.0.0.1:$members/All" 'search @attr 1=4 a' quit
tells 'examples/members.toml: ZOOM with a wrong password' 'Init rejected' zoomsh 'set user ann' 'set password no' "connect 127.0.0.1:$members/Books" 'search @attr 1=4 a' quit
tells 'examples/members.toml: a GET is nobody'"'"'s' 'members-only' curl -s -m 10 "http://127.0.0.1:$members/All?operation=searchRetrieve&version=1.2&query=dc.title%3Da"

# The configurations of examples/ for SRU before these targets, whose addresses are put in: each schema gives records, in XML, and no
# diagnostic in the place of one; the first schema of a configuration without any gives diagnostics alone.
serves() {
    sed "s/127.0.0.1:9998/127.0.0.1:$3/" "$examples/$1" >"$room/$1"
    "$gateway" "$front" "$room/$1" "$2" 2 2>"$room/$1.log" >"$room/$1.out" &
    for _ in $(seq 60); do grep -q '^listening' "$room/$1.log" && break; sleep 1; done
}
# Whether a GET is answered by so many records, all in place, in a reply that a reader of XML takes.
gives() {
    curl -s -m 10 "http://127.0.0.1:$2&version=1.2&operation=searchRetrieve&startRecord=1" >"$room/reply"
    python3 - "$room/reply" "$3" "$4" <<'END'
import sys, xml.etree.ElementTree as tree
name, count, inside = sys.argv[1:]
zs = '{http://www.loc.gov/zing/srw/}'
records = tree.parse(name).getroot().findall(f'.//{zs}record')
schemas = {it.find(f'{zs}recordSchema').text for it in records}
data = [it.find(f'{zs}recordData')[0].tag.rpartition('}')[2] for it in records]
told = 'info:srw/schema/1/diagnostics-v1.1' in schemas
sys.exit(len(records) != int(count) or set(data) != {inside} or told != (inside == 'diagnostic'))
END
    row "$1" $?
}
serves sru-zebra.toml "$maps" "$zebra"
serves sru-ztest.toml "$books" "$ztest"
gives 'examples/sru-zebra.toml: records of the first schema' "$maps/Maps?query=dc.title%3Dmap&maximumRecords=2" 2 gils
gives 'examples/sru-zebra.toml: records of the other' "$maps/Maps?query=dc.title%3Dmap&maximumRecords=2&recordSchema=brief" 2 gils
gives 'examples/sru-ztest.toml: records' "$books/Books?query=computer&maximumRecords=2" 2 record
gives 'without a schema for it Zebra gives diagnostics in the place of records' "$port/Zebra?query=dc.title%3Dmap&maximumRecords=2" 2 diagnostic

commands 'base Mute' 'find a'
shows 'a target that never answers' '[2] Temporary system error'
commands 'base Full' 'find a'
shows 'a target that takes no connection' "$untaken"
# Searches of others, while one is awaited that is asked of a target that says nothing, or that takes no connection.
for away in Mute Full; do
    printf 'base %s\nfind b\n' "$away" | client "$port" >"$room/away" &
    commands 'base Demo' 'find @attr 1=4 a'
    shows "another target while $away is awaited" 'Number of hits: 3'
    wait $!
done
commands 'base Half' 'find a'
shows 'a target that breaks off in its reply' '[109] Database unavailable'
stop_target
# A search that no one made before: the hits of others are still shared.
commands 'base Real' 'find @attr 1=4 z'
shows 'a target that is gone' '[109] Database unavailable'
commands 'base Demo' 'find @attr 1=4 a'
shows 'another target meanwhile' 'Number of hits: 3'
start_target
commands 'base Real' 'find @attr 1=4 z'
shows 'the target is back' 'Number of hits: '
for _ in $(seq 100); do (exec 3<>"/dev/tcp/127.0.0.1/$port" && printf '\264\023' >&3) 2>/dev/null; done
commands 'base Demo' 'find @attr 1=4 a'
shows 'after 100 clients that connect and vanish' 'Number of hits: 3'
(exec 3<>"/dev/tcp/127.0.0.1/$port"; printf '\264\023\203\002\005\340\204\003\001\377\376\205\003\020\000\000\206\003\020\000\000' >&3
 for _ in $(seq 5); do head -c 1 <&3 >/dev/null; sleep 1; done) &
shows 'beside a client that reads an octet a second' 'Number of hits: 3'
# As many clients that log in and say no more as may be beside two others.
timeout 120 python3 -c "
import socket, sys, time
init = bytes.fromhex('b413830205e0840301fffe85031000008603100000')
idle = [socket.create_connection(('127.0.0.1', $port)) for _ in range($most - 2)]
for one in idle: one.sendall(init)
for one in idle: assert one.recv(4096)[:1] == b'\xb5'
open('$room/idle', 'w').close()
time.sleep(15)" &
for _ in $(seq 60); do [ -e "$room/idle" ] && break; sleep 1; done
[ -e "$room/idle" ]
row "$((most - 2)) clients that log in" $?
commands 'base Demo' 'find @attr 1=4 a'
shows 'a client beside them' 'Number of hits: 3'
wait $!
grep -q 'target .* cannot be dialled' "$room/log"
row 'the log names the target that was gone' $?
exit "$failed"
