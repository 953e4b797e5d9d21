#!/bin/bash
# What another reader of XML says of the replies to SRU clients: each that the cases of texts_tests expect, octet
# for octet, is parted into its head and its body, whose length has to be that of the head. xmllint (Debian's
# libxml2-utils) reads the body, and holds it against `sru_reply.rng`; what a packed record says is read once more.
here=$(cd "$(dirname "$0")/.." && pwd) || exit 1
command -v xmllint >/dev/null || {
    echo "xmllint is not there; Debian has it in libxml2-utils" >&2
    exit 1
}
room=$(mktemp -d) || exit 1
trap 'rm -rf "$room"' EXIT
tried=0
wrong=0
found=$'HTTP/1.1 200 OK\r'

# The octets of an answer, as the cases have it: escapes of backslashes, CR and LF.
octets() {
    printf '%b' "$1"
}

# Whether a packed record is XML, where there is one.
unpacked() {
    local data
    [[ $(xmllint --xpath 'string(//*[local-name()="recordPacking"])' "$1") == string ]] || return 0
    data=$(xmllint --xpath 'string(//*[local-name()="recordData"])' "$1") || return 1
    xmllint --noout - <<<"$data"
}

while IFS= read -r line; do
    octets "$line" >"$room/reply"
    IFS= read -r status <"$room/reply"
    [[ $status == "$found" ]] || continue
    tried=$((tried + 1))
    sed '1,/^\r$/d' "$room/reply" >"$room/body"
    : >"$room/said"
    length=$(sed -n 's/^Content-Length: \([0-9]*\)\r$/\1/p' "$room/reply")
    if [[ $length != $(wc -c <"$room/body") ]] ||
        ! xmllint --noout --relaxng "$here/tools/sru_reply.rng" "$room/body" 2>"$room/said" ||
        ! unpacked "$room/body" 2>>"$room/said"; then
        wrong=$((wrong + 1))
        echo "wrong: a reply of $length octets"
        cat "$room/said"
    fi
done < <(grep -o 'HTTP/1\.1 .*$' "$here/crates/texts_tests/data/sru-replies.cases")

echo "$tried replies, $wrong wrong"
[[ $tried -gt 0 && $wrong -eq 0 ]]
