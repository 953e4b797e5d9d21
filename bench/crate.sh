#!/bin/bash
# Puts the crates of the benches, which stand in crates/ beside this script and which the gate does not read, into a copy of the
# repository, and there runs a command in the folder of one:
#
#     bench/crate.sh NAME COMMAND ..      such as: bench/crate.sh bench_pool rt try -- alike 6 300
#
# With no command it proves and builds that crate, has it write what its file stdout has, and prints the path of the program; where no
# file has changed since, it prints the path alone. The copy is kept below the user's folder of caches. What is proved in the
# repository is taken from there: `./gateway prove` first proves most libraries on all processors.
here=$(cd "$(dirname "$0")/.." && pwd) || exit 1
copy=${XDG_CACHE_HOME:-$HOME/.cache}/zaklumen${here//\//-}
name=$1
folder=$copy/crates/$name
program=$folder/out/$name

# The program is there, and no file that it is made from is newer.
is_current() {
    local newer
    newer=$(find "$here/crates.txt" "$here/crates" "$here/bench/crates" -name out -prune -o -type f ! -name README.md -newer "$program" -print 2>&1 | head -n 1)
    [ -z "$newer" ]
}

# Copies the sources of a crate, and its files of words and output, into its folder of the copy.
put() {
    local to=$2
    mkdir -p "$to/out"
    for part in src specs proofs args stdout; do
        rm -rf "${to:?}/$part"
        [ ! -e "$1/$part" ] || cp -R "$1/$part" "$to/$part"
    done
}

# Takes the proved library of a crate, by a second name of its files where that can be.
take_library() {
    local from=$1/out/rlib to=$2/out/rlib
    [ -f "$from/stamp" ] && ! cmp -s "$from/stamp" "$to/stamp" || return 0
    rm -rf "$to"
    cp -al "$from" "$to" 2>/dev/null || { rm -rf "$to" && cp -a "$from" "$to"; }
}

# Brings the copy to where the repository is.
bring() {
    local at crate file
    mkdir -p "$copy/crates"
    cp "$here/HANDLES" "$copy/HANDLES"
    cat "$here/crates.txt" "$here/bench/crates/list.txt" >"$copy/crates.txt"
    for at in "$copy"/crates/*/; do
        crate=$(basename "$at")
        [ -d "$here/crates/$crate" ] || [ -d "$here/bench/crates/$crate" ] || rm -rf "$at"
    done
    for at in "$here"/crates/*/; do
        crate=$(basename "$at")
        put "$at" "$copy/crates/$crate"
        take_library "$at" "$copy/crates/$crate"
    done
    for at in "$here"/bench/crates/*/; do
        crate=$(basename "$at")
        put "$at" "$copy/crates/$crate"
        find "$copy/crates/$crate" -name out -prune -o -name '*.txt' -print | while read -r file; do mv "$file" "${file%.txt}"; done
    done
}

# Proves and builds the program, and looks at what it writes.
build() {
    local words
    mapfile -t words <"$folder/args"
    (cd "$folder" && rt run -- "${words[@]}") >"$folder/out/log" 2>&1 || { tail -n 20 "$folder/out/log" >&2; return 1; }
    [ "$("$program" "${words[@]}")" = "$(cat "$folder/stdout")" ] || return 1
    # (`rt` leaves a program as it is where only times have changed)
    touch "$program"
}

[ -d "$here/bench/crates/$name/src" ] || { echo "there is no crate of benches of the name '$name'" >&2; exit 1; }
if [ $# -gt 1 ] || ! is_current; then
    mkdir -p "$copy" && exec 9>"$copy/lock" && flock 9 && bring || exit 1
    if [ $# -gt 1 ]; then
        exec 9>&-
        cd "$folder" && shift && exec "$@"
    fi
    build || { echo "$name was not built" >&2; exit 1; }
fi
echo "$program"
