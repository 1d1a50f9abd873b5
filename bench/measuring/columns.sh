#!/bin/bash
# Times searches in which parity alone tells, over disks of level 6 with random bytes, of which 5 MiB of each are tested: best of three runs
# each, on one processor. The plans are those of surveys that are told the level and what else is known; with all patterns and orders of Q,
# nine chunks and two offsets each has 702 heads. Beside it the lists that stand at the end, and how many sets there are in all.
# Usage: bench/measuring/columns.sh [0 FOLDER]
set -eu
bench=$(cd "$(dirname "$0")" && pwd)
. "$bench/folder.sh"

disks() { python3 "$bench/../making/disks.py" "$@"; }
head -c 96M /dev/urandom >random
head -c 96M /dev/urandom >other
disks 6 128 random a b c d e f g h
disks 6 128 random m n o p q r s t u v w y
disks 6 128 random A B C D E F G H I J K L M N O P
disks 5 128 other Q R S T U V W X Y Z
disks 6 128 other aa bb cc dd ee ff gg hh
for name in x z; do head -c "$(stat -c %s m)" /dev/urandom >$name; done
# An image of which 3% of the rows are wrong, and disks of which 1% of the rows are no zeros.
cp m wrong
python3 - <<'END'
import random
chosen = random.Random(3)
with open("wrong", "r+b") as file:
    for row in range(2048, 2048 + 10240):
        if chosen.random() < 0.03:
            file.seek(512 * row)
            file.write(chosen.randbytes(512))
with open("sparse", "wb") as file:
    file.truncate(512 * 6 * 10240)
    for row in range(10240):
        if chosen.random() < 0.01:
            for item in range(6):
                file.seek(512 * (row // 128 * 768 + 128 * item + row % 128))
                file.write(chosen.randbytes(512))
END
disks 6 128 sparse s1 s2 s3 s4 s5 s6 s7 s8

# searched NAME IMAGES OPERAND..: the time of the listing of all ranks of the plan of a survey that is told so
searched() {
    name=$1
    images=$2
    shift 2
    "$program" survey levels=6 window=$window "$@" -- $images >plan
    taskset -c 0 "$program" list size=1000 -- $images <plan >listed
    ranks=$(sed -n 's/^next [0-9]* of //p' listed)
    nanoseconds=$(best 3 plan taskset -c 0 "$program" list size=1000 -- $images)
    awk -v n="$name" -v r="$ranks" -v t="$nanoseconds" -v l="$(($(wc -l <listed) - 1))" 'BEGIN {
        printf "%-66s %22s sets %5d listed %9.3f s\n", n, r, l, t / 1e9
    }'
}

uname -srm
sed -n 's/^model name[^:]*: //p' /proc/cpuinfo | head -n 1
all="offsets=0,2048" window=10240
searched "eight images, 702 heads" "a b c d e f g h" $all
searched "one of eight lost, one chunk and offset" "a b c d e f g" members=8 missing=1 offsets=2048 chunks=128
searched "eight members among nine images, one foreign, one chunk and offset" "a b x c d e f g h" members=8 foreign=1 offsets=2048 chunks=128
searched "one of twelve lost, ls, after-q, one chunk and offset" "m n o p q r s t u v w" members=12 missing=1 patterns=ls syndromes=after-q \
    offsets=2048 chunks=128
searched "one of twelve lost, 702 heads" "m n o p q r s t u v w" members=12 missing=1 $all
searched "one of sixteen lost, 702 heads" "A B C D E F G H I J K L M N O" members=16 missing=1 $all
searched "sixteen images, 702 heads" "A B C D E F G H I J K L M N O P" $all
searched "twelve members, at most one lost, thirteen images, 702 heads" "m n o p q r x s t u z v w" members=12 missing=1 foreign=2 $all
searched "eight members, at most one lost, and nine of ten of a RAID 5, 702 heads" "a Q b R c S d T e U f V g W X Y" members=8 missing=1 foreign=9 $all
searched "eight members among eight of one RAID 6 and eight of another, one chunk and offset" \
    "a aa b bb c cc d dd e ee f ff g gg h hh" members=8 foreign=8 offsets=2048 chunks=128
window=4096
searched "one of twelve lost, 3% of the rows of one wrong, 702 heads" "wrong n o p q r s t u v w" members=12 missing=1 badrows=128 $all
window=10240
searched "eight images, zeros but for 1% of the rows, 702 heads" "s1 s2 s3 s4 s5 s6 s7 s8" $all
