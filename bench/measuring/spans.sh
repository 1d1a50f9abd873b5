#!/bin/sh
# Times spans of ranks of plans over eight disks, by what rules their sets out: landmarks, parity, or nothing. Best of three
# runs each. The volume of the landmarks is that of volume.py; the other one is random bytes, of which 5 MiB of each disk are
# tested.
# Usage: bench/measuring/spans.sh [0 FOLDER]
set -eu
bench=$(cd "$(dirname "$0")" && pwd)
. "$bench/folder.sh"

head -c 48M /dev/urandom >random
python3 "$bench/../making/volume.py" volume
python3 "$bench/../making/disks.py" 6 128 random a b c d e f g h
python3 "$bench/../making/disks.py" 5 128 volume p q r s t u v w

# span NAME RANKS IMAGES OPERAND..: the time of the first so many ranks of the plan of a survey that is told so
span() {
    name=$1
    ranks=$2
    images=$3
    shift 3
    "$program" survey "$@" -- $images >plan
    nanoseconds=$(best 3 plan "$program" list span="$ranks" size="$((ranks < 1000000 ? ranks : 1000000))" -- $images)
    awk -v n="$name" -v r="$ranks" -v t="$nanoseconds" 'BEGIN {
        printf "%-58s %9d ranks %8.3f s %12.0f ranks/s\n", n, r, t / 1e9, r / (t / 1e9)
    }'
}

uname -srm
sed -n 's/^model name[^:]*: //p' /proc/cpuinfo | head -n 1
span "landmarks, level 5, all there" 8709120 "p q r s t u v w" levels=5
span "landmarks, level 5, one of eight lost" 8709120 "p q r s t u w" levels=5 members=8 missing=1
span "parity, level 6, all there, two offsets and nine chunks" 28304640 "a b c d e f g h" levels=6 offsets=0,2048 window=10240
span "parity, level 6, all there, one offset and one chunk" 1572480 "a b c d e f g h" levels=6 offsets=2048 chunks=128 window=10240
span "parity, level 6, one of eight lost" 20000 "a b c d e f g" levels=6 members=8 missing=1 offsets=2048 chunks=128 window=10240
span "parity, level 6, one of eight foreign" 20000 "a b c d e f g h" levels=6 members=7 foreign=1 offsets=2048 chunks=128 window=10240
span "nothing, level 5, one of eight lost, no landmarks" 200 "a b c d e f g" levels=5 members=8 missing=1 offsets=2048 chunks=128 window=10240
