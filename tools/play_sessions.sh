#!/bin/bash
# Replays each session of crates/gateway_sessions/data without proof, as the gate does with the proved program:
# prints the name of each whose replay prints another page than its own, and how many print theirs.
here=$(cd "$(dirname "$0")/.." && pwd)
cd "$here/crates/gateway_sessions" || exit 1
files=()
while read -r file; do files+=(--data "${file#data/}=$file"); done < <(find data -type f | sort)
printed=$(rt try "${files[@]}" 2>/dev/null)
grep -v ' proved=no$' <<<"$printed"
[ "$(head -n 1 <<<"$printed")" = "$(cat stdout)" ]
