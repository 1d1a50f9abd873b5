#!/bin/sh
# Times a listing whose every sector row is tested beside cat of the same images, best of five runs each. Three members:
# random bytes, the same bytes again, and zeros, which cancel in every row and every order. So the one set that is asked
# for passes, and each image is read once, whole.
# Usage: bench/measuring/list.sh [MEGABYTES] [FOLDER]
set -eu
. "$(dirname "$0")/folder.sh"

head -c "${megabytes}M" /dev/urandom >a
cp a b
head -c "${megabytes}M" /dev/zero >c
sectors=$((megabytes * 2048))
{
    printf 'reraid-plan 1\nimages 3\n'
    printf 'length %s\n' "$sectors" "$sectors" "$sectors"
    printf 'end %s\nlevels 5\nmembers 3\npatterns ls\nsyndromes none\nchunks 128\noffsets 0\norigins 0\n' "$sectors"
    printf 'missing 0\nforeign 0\nbadrows 0\nwindow %s\nmisfits 0\nleast 1\ndone\n' "$sectors"
} >plan

[ "$("$program" list size=1 -- a b c <plan | tail -n 1)" = "next 1 of 6" ] || { echo "the set did not pass" >&2; exit 1; }
uname -srm
sed -n 's/^model name[^:]*: //p' /proc/cpuinfo | head -n 1
awk -v m="$megabytes" -v c="$(best 5 plan cat a b c)" -v l="$(best 5 plan "$program" list size=1 -- a b c)" 'BEGIN {
    printf "3 images of %d MiB: cat %.3f s, list %.3f s, %.0f MB/s, ratio %.1f\n", m, c / 1e9, l / 1e9, 3 * m * 1048.576 / (l / 1e6), l / c
}'
