# Times runs of the built program; the scripts beside this one read it. What they make stands in `room`.
here=$(cd "$(dirname "${BASH_SOURCE[0]}")/.." && pwd) || exit 1
program=$here/crates/gateway_program/out/gateway_program
room=$(mktemp -d) || exit 1
trap 'rm -rf "$room"' EXIT

"$here/gateway" prove || exit 1

# The median of 5 runs of the program by these words, in seconds. Each has to end with the status `wanted`, or 0 where
# none is named; the status is 1 where one does not.
median() {
    for _ in 1 2 3 4 5; do
        begun=$(date +%s%N)
        "$program" "$@" >"$room/page"
        [ $? = "${wanted:-0}" ] || exit 1
        ended=$(date +%s%N)
        echo $((ended - begun))
    done | sort -n | awk 'NR == 3 { printf "%.4f", $1 / 1e9 } END { exit NR < 5 }'
}
