#!/bin/sh
# Times `mirrors` and `mirrorwrite` over arrays of near=2 of random bytes, beside cat, best of three runs each, and of thirty of mirrorwrite.
# All 40,320 orders of eight images, chunk and offset known, over windows of 4,096 sectors; the 9,580,032,000 sets of twelve images, five
# chunks and four offsets; the volume of eight members with none and with one missing.
# Usage: bench/measuring/mirrors.sh [MEGABYTES] [FOLDER]
set -eu
bench=$(cd "$(dirname "$0")" && pwd)
. "$bench/folder.sh"

head -c "$((megabytes * 4))M" /dev/urandom >volume
python3 "$bench/../making/disks.py" near2 128 volume a b c d e f g h
head -c 12M volume >short
python3 "$bench/../making/disks.py" near2 128 short 0 1 2 3 4 5 6 7 8 9 10 11

# against NAME CAT COMMAND..: a run beside cat of these files, best of $runs
runs=3
against() {
    name=$1
    files=$2
    shift 2
    awk -v n="$name" -v c="$(best "$runs" /dev/null cat $files)" -v t="$(best "$runs" /dev/null "$@")" 'BEGIN {
        printf "%s: cat %.3f s, reraid %.3f s, ratio 1:%.2f\n", n, c / 1e9, t / 1e9, t / c
    }'
}

uname -srm
sed -n 's/^model name[^:]*: //p' /proc/cpuinfo | head -n 1
for name in a b c d e f g h; do tail -c +1048577 "$name" | head -c 2M >"$name.window"; done
[ "$("$program" mirrors chunks=128 offsets=2048 window=4096 size=1000 -- a b c d e f g h | tail -n 1)" = "next 40320 of 40320" ] ||
    { echo "not all orders were gone through" >&2; exit 1; }
against "40,320 orders of 8 images, windows of 4,096 sectors" "a.window b.window c.window d.window e.window f.window g.window h.window" \
    "$program" mirrors chunks=128 offsets=2048 window=4096 size=1000 -- a b c d e f g h
set -- 0 1 2 3 4 5 6 7 8 9 10 11
awk -v t="$(best 3 /dev/null "$program" mirrors chunks=32,64,128,256,512 offsets=0,1024,2048,4096 window=4096 -- "$@")" 'BEGIN {
    printf "12 images, five chunks, four offsets: %.3f s\n", t / 1e9
}'
"$program" mirrorwrite set=near2:128:2048:0,1,2,3,4,5,6,7 -- a b c d e f g h | cmp -n "$((megabytes * 4194304))" - volume ||
    { echo "the volume differs" >&2; exit 1; }
runs=30
against "mirrorwrite, nothing missing" "a c e g" "$program" mirrorwrite set=near2:128:2048:0,1,2,3,4,5,6,7 -- a b c d e f g h
against "mirrorwrite, one missing" "b c e g" "$program" mirrorwrite set=near2:128:2048:-,0,1,2,3,4,5,6 -- b c d e f g h
