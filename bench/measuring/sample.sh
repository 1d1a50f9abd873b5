#!/bin/sh
# Generates an array of twelve members with the landmarks of an XFS, surveys it and takes the first page of what passes:
# the slowest array that the tool is tried on. Compares the six lines with those that were worked out by hand, and times the run.
# Usage: bench/measuring/sample.sh
set -eu
program=$(cd "$(dirname "$0")/../../crates/reraid/out" && pwd)/reraid
[ -x "$program" ] || { echo "there is no $program: see make build" >&2; exit 1; }

uname -srm
started=$(date +%s%N)
found=$("$program" sample number=7 set=5:ls:none:8:0:0,1,2,3,4,5,6,7,8,9,10,11 rows=200 marks=xfs -- </dev/null)
ended=$(date +%s%N)
[ "$found" = "images 12
sectors 1600
marks 192
total 103464345600
found yes
next 103464345600 of 103464345600" ] || { echo "$found" >&2; exit 1; }
awk -v t="$((ended - started))" 'BEGIN { printf "a generated array of 12 members: %.1f s\n", t / 1e9 }'
