#!/bin/sh
# Proves programs and the crates that they stand on, and leaves each executable at crates/PROGRAM/out/PROGRAM.
#
# The crates are proved side by side in a copy that has neither the edits of the gate nor the crates of tests. What it
# proves, and what the gate proved before, is kept by `rt ci` and not proved again. The copy lies in TMPDIR, may take some
# GiB, and is removed at the end; a file that is told there lies in crates/ too.
#
# Usage: bench/making/build.sh [PROGRAM..], crates with a main; reraid if none is named
set -eu
top=$(cd "$(dirname "$0")/../.." && pwd)
programs=${*:-reraid}
for program in $programs; do
    if [ ! -e "$top/crates/$program/src/main.rt" ]; then
        echo "build.sh: there is no program $program" >&2
        exit 1
    fi
done
copy=$(mktemp -d)
trap 'rm -rf "$copy"' EXIT
trap 'exit 130' INT
trap 'exit 143' TERM HUP

# A crate stands above those that it needs, so from the last line up each one is asked for before it comes.
tac "$top/crates.txt" | awk -F: -v programs=" $programs " '
    /^[a-z]/ {
        split($1, head, " ")
        if (index(programs, " " head[1] " ") || head[1] in needed) {
            print
            split($2, below, " ")
            for (i in below) needed[below[i]]
        }
    }' > "$copy/crates.txt"

for name in $(sed 's/[: ].*//' "$copy/crates.txt"); do
    mkdir -p "$copy/crates/$name"
    for part in src specs proofs stdin stdout args status data; do
        if [ -e "$top/crates/$name/$part" ]; then
            cp -R "$top/crates/$name/$part" "$copy/crates/$name"
        fi
    done
done
cp "$top/HANDLES" "$copy"

(cd "$copy" && rt ci)
for program in $programs; do
    mkdir -p "$top/crates/$program/out"
    "$top/bench/making/put.sh" 755 "$copy/crates/$program/out/$program" "$top/crates/$program/out"
    # With what it was proved and built, for those who have to say so.
    rt version > "$top/crates/$program/out/KIT"
done
