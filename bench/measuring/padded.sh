#!/bin/sh
# Times `write` of a set whose images have offsets of their own beside `write` of one that has a common offset, best of five runs each in
# turns: four members of level 5, over images as they are and over images that begin at different sectors. Then `check` of the same
# sets, over plans that test all their rows, best of nine. Then `list` over six images of a volume with landmarks, of which each may
# begin at one of four sectors: all orders and patterns of level 5 with the default chunks; and a part of it over a plan without landmarks.
# Usage: bench/measuring/padded.sh [MEGABYTES] [FOLDER]
set -eu
bench=$(cd "$(dirname "$0")" && pwd)
. "$bench/folder.sh"

head -c "$((megabytes * 3))M" /dev/urandom >volume
python3 "$bench/../making/disks.py" 5 128 volume a b c d
python3 "$bench/../making/disks.py" offsets=2048,0,4096,2048 5 128 volume p q r s
one=set=5:ls:none:128:2048:0,1,2,3
each=set=5:ls:none:128:2048+0+4096+2048:0,1,2,3
"$program" write $each -- p q r s | cmp -n "$((megabytes * 3145728))" - volume || { echo "the volume differs" >&2; exit 1; }
uname -srm
sed -n 's/^model name[^:]*: //p' /proc/cpuinfo | head -n 1
for turn in 1 2 3; do
    awk -v a="$(best 5 /dev/null "$program" write $one -- a b c d)" -v b="$(best 5 /dev/null "$program" write $each -- p q r s)" 'BEGIN {
        printf "one offset %.3f s, an offset each %.3f s, ratio 1:%.2f\n", a / 1e9, b / 1e9, b / a
    }'
done

"$program" survey levels=5 offsets=2048 kinds=btrfs -- a b c d >common
"$program" survey mode=each levels=5 offsets=0,2048,4096 kinds=btrfs -- p q r s >own
awk -v a="$(best 9 common "$program" check $one -- a b c d)" -v b="$(best 9 own "$program" check $each -- p q r s)" 'BEGIN {
    printf "check: one offset %.3f s, an offset each %.3f s, ratio 1:%.2f\n", a / 1e9, b / 1e9, b / a
}'
python3 "$bench/../making/volume.py" marked
python3 "$bench/../making/disks.py" offsets=2048,4096,2048,6144,8192,2048 5 128 marked i j k l m n
"$program" survey mode=each levels=5 offsets=2048,4096,6144,8192 -- i j k l m n >plan
"$program" survey mode=each levels=5 offsets=2048,4096,6144,8192 kinds=btrfs -- i j k l m n >bare
awk -v a="$(best 3 plan "$program" list -- i j k l m n)" -v b="$(best 3 bare "$program" list span=7200000 size=10000 -- i j k l m n)" 'BEGIN {
    printf "list of 159,252,480 sets by their landmarks %.2f s; of 7,200,000 of them without landmarks %.2f s\n", a / 1e9, b / 1e9
}'
