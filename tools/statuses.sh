#!/bin/bash
# Runs the built program once for every way to end that a shell can bring about, and compares its status and
# what it prints with what `docs/formats/replay.md` says. Want of memory has a script of its own, `refuse_memory.sh`.
#
#     tools/statuses.sh [COMMAND]
#
# COMMAND starts the gateway; without it the program is proved and built first.
here=$(cd "$(dirname "$0")/.." && pwd) || exit 1
program=$1
if [ -z "$program" ]; then
    program=$here/crates/gateway_program/out/gateway_program
    "$here/gateway" prove || exit 1
fi
room=$(mktemp -d) || exit 1
trap 'rm -rf "$room"' EXIT
cd "$room" || exit 1

cp "$here/examples/first.toml" c
cp "$here/examples/first.script" s
cp c $'c\xff'
cp s $'s\xfe'
printf 'x' >x
sed -e 's/alpha/far/' -e 's/test:0/tcp:localhost:9999/' c >real
printf '#\nfeed 1 b\n' >bad
head -c 262145 /dev/zero >long_config
head -c 16777217 /dev/zero | tr '\0' '#' >long_script
yes 'run 1' | head -n 1000000 >most
(cat most; echo 'end 1') >many
mkdir folder
page=$(cat "$here/examples/first.page"; echo .)
page=${page%.}
usage=$'usage: check CONFIG | replay CONFIG SCRIPT | load N | serve CONFIG PORT WORKERS | events CONFIG PORT MOST\n'
help=$'Zaklumen, a gateway for Z39.50 and SRU.\n\n'
help+=$'check CONFIG               reads a configuration, and prints how many databases and classes it has\n'
help+=$'replay CONFIG SCRIPT       plays what a script says of clients, time and targets, and prints what clients are answered\n'
help+=$'load N                     plays N clients of four requests each, and prints how many octets, searches and links that took\n'
help+=$'serve CONFIG PORT WORKERS  serves clients at a port of this machine, as many at once as there are workers (1 to 64)\n'
help+=$'events CONFIG PORT MOST    serves clients on one thread, as many at once as MOST says (1 to 1000)\n'
help+=$'serve .. --listen ADDRESS  the same, at another address of this machine than 127.0.0.1\n'
help+=$'serve .. --quiet           the same, and logs no connection that begins or ends\n'
help+=$'--help                     prints this\n'
help+=$'--version                  prints the version\n'
tried=0
wrong=0

# Compares the status and the text of the run that was made last.
judge() {
    tried=$((tried + 1))
    if [ "$2" != "$3" ] || ! printf '%s' "$4" | cmp -s - printed; then
        wrong=$((wrong + 1))
        echo "$1: status $2 where $3 is right; printed:" >&2
        cat printed >&2
    fi
}

# Runs the program on words: the name of the case, the status, the text, the words.
ends() {
    local name=$1 status=$2 text=$3
    shift 3
    "$program" "$@" >printed
    judge "$name" $? "$status" "$text"
}

# The same with an output that takes nothing.
fails() {
    local name=$1 status=$2 output=$3
    shift 3
    if [ "$output" = closed ]; then "$program" "$@" >&-; else "$program" "$@" >"$output"; fi
    local got=$?
    : >printed
    judge "$name" $got "$status" ''
}

ends 'a replay' 0 "$page" replay c s
ends 'a million events' 0 $'client 1\nbytes -\nmarks -\nend Finished\nclass alpha dials 0 searches 0 gones 0 faults 0\nclients 1 requests 0\n' replay c most
ends 'names that are not UTF-8' 0 "$page" replay $'c\xff' $'s\xfe'
ends 'help' 0 "$help" --help
ends 'version' 0 $'zaklumen 0.1.0\n' --version
ends 'no words' 2 "$usage"
ends 'a word too few' 2 "$usage" replay c
ends 'a word too many' 2 "$usage" replay c s s
ends 'help and more' 2 "$usage" --help c
ends 'an unknown word' 2 "$usage" play c s
ends 'a word that is not UTF-8' 2 "$usage" $'repl\xff' c s
ends 'a check' 0 $'ok databases 1 classes 1\n' check c
ends 'a load' 0 $'load clients 12 requests 48 plain 48 bytes 1500 searches 5 dials 1\n' load 12
ends 'a load of as many as may be' 0 $'load clients 10000 requests 40000 plain 40000 bytes 1250000 searches 5 dials 1\n' load 10000
ends 'a load of nobody' 0 $'load clients 0 requests 0 plain 0 bytes 0 searches 0 dials 0\n' load 0
ends 'a load with a leading zero' 2 "$usage" load 010
ends 'a load of too many' 2 "$usage" load 10001
ends 'a refused configuration' 3 $'config 1 toml\n' replay x s
ends 'a check of a refused configuration' 3 $'config 1 toml\n' check x
ends 'a configuration over its limit' 3 $'config 7 bytes 262145\n' replay long_config s
ends 'a target over TCP' 9 $'real target far\n' replay real s
ends 'a refused script' 4 $'script line 2\n' replay c bad
ends 'an event too many' 4 $'script line 1000001\n' replay c many
ends 'a script over its limit' 4 $'script line 0\n' replay c long_script
ends 'a missing configuration' 5 $'read fault missing\n' replay missing s
ends 'a missing script' 5 $'read fault missing\n' replay c missing
ends 'a missing name that is not UTF-8' 5 $'read fault m\xff\n' replay $'m\xff' s
ends 'a folder' 5 $'read fault folder\n' replay c folder
chmod 000 x
if [ "$(id -u)" = 0 ]; then
    chmod 755 .
    setpriv --reuid 65534 --regid 65534 --clear-groups "$program" replay c x >printed
else
    "$program" replay c x >printed
fi
judge 'a file that may not be read' $? 5 $'read fault x\n'
fails 'a page and a full disk' 6 /dev/full replay c s
fails 'a load and a full disk' 6 /dev/full load 1
fails 'help and a full disk' 6 /dev/full --help
fails 'a page and a closed output' 6 closed replay c s
fails 'a refusal and a full disk' 4 /dev/full replay c bad
fails 'words and a closed output' 2 closed replay
echo "$tried runs, $wrong of them wrong"
[ "$wrong" = 0 ]
