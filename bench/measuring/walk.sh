#!/bin/sh
# Times walks over the 103,464,345,600 sets of a plan of level 5 over 12 images, in every order and pattern, with nine chunks.
# With landmarks: the images of an array with the heads of 64 allocation groups of an XFS in its volume; in six of the images no
# head lies, so that the 720 orders of these pass. The whole listing, and a page of it that is asked for in the middle.
# Without: images of random bytes, which do not belong together, beside cat of the same images.
# Usage: bench/measuring/walk.sh [MEGABYTES] [FOLDER]
set -eu
. "$(dirname "$0")/folder.sh"
bench=$(dirname "$program")/../../../bench/measuring

last="next 103464345600 of 103464345600"
uname -srm
sed -n 's/^model name[^:]*: //p' /proc/cpuinfo | head -n 1

python3 "$bench/../making/sampled.py" 7 12 8 200 xfs
set -- 0 1 2 3 4 5 6 7 8 9 10 11
"$program" survey levels=5 missing=0 members=12 -- "$@" </dev/null >plan
"$program" list size=1000 -- "$@" <plan >listed
[ "$(wc -l <listed)" = 721 ] && [ "$(tail -n 1 listed)" = "$last" ] || { echo "not the 720 sets" >&2; exit 1; }
grep -q ' 5:ls:none:8:0:0,1,2,3,4,5,6,7,8,9,10,11$' listed || { echo "the array is not among them" >&2; exit 1; }
middle=$(sed -n 's/^\([0-9]*\) .*/\1/p' listed | sed -n 360p)
awk -v l="$(best 5 plan "$program" list size=1000 -- "$@")" -v p="$(best 5 plan "$program" list "from=$middle" size=10 -- "$@")" 'BEGIN {
    printf "12 images with landmarks: list %.3f s, ten sets from the middle on %.3f s\n", l / 1e9, p / 1e9
}'

for name in "$@"; do head -c "${megabytes}M" /dev/urandom >"$name"; done
"$program" survey levels=5 missing=0 members=12 kinds=gpt window=1000000000 -- "$@" </dev/null >plan
[ "$("$program" list -- "$@" <plan)" = "$last" ] || { echo "random bytes belong together" >&2; exit 1; }
awk -v m="$megabytes" -v c="$(best 5 plan cat "$@")" -v l="$(best 5 plan "$program" list -- "$@")" 'BEGIN {
    printf "12 images of %d MiB of random bytes: cat %.3f s, list %.3f s\n", m, c / 1e9, l / 1e9
}'
