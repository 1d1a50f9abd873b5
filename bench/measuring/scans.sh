#!/bin/sh
# Times listings whose sets are tested together, on all processors and on one, best of three runs each: all orders of one layout
# where every order passes, beside a check of one of them, and where every row of every order has to be computed. The images
# of the first are pairs of the same random bytes and one of zeros; those of the others are random bytes, and badrows lets each
# row be unsound.
# Usage: bench/measuring/scans.sh [MEGABYTES] [FOLDER]
set -eu
. "$(dirname "$0")/folder.sh"

# plan IMAGES MEMBERS LEVEL SYNDROME SECTORS WINDOW BADROWS: one layout in chunks of 64 KiB
plan() {
    printf 'reraid-plan 1\nimages %s\n' "$1"
    for _ in $(seq "$1"); do printf 'length %s\n' "$5"; done
    printf 'end %s\nlevels %s\nmembers %s\npatterns ls\nsyndromes %s\nchunks 128\noffsets 0\norigins 0\n' "$5" "$3" "$2" "$4"
    printf 'missing 0\nforeign %s\nbadrows %s\nwindow %s\nmisfits 0\nleast 1\ndone\n' $(($1 - $2)) "$7" "$6"
}

# timed NAME IMAGES: the listing on all processors, and on one
timed() {
    all=$(best 3 plan "$program" list size=1000000 -- $2)
    one=$(best 3 plan taskset -c 0 "$program" list size=1000000 -- $2)
    awk -v n="$1" -v a="$all" -v o="$one" -v l="$("$program" list size=1000000 -- $2 <plan | tail -n 1)" 'BEGIN {
        printf "%-70s %7.3f s, on one processor %7.3f s, %.1f times (%s)\n", n, a / 1e9, o / 1e9, o / a, l
    }'
}

# seconds COMMAND..: its best of three runs over the plan
seconds() { awk -v t="$(best 3 plan "$@")" 'BEGIN { printf "%.3f s", t / 1e9 }'; }

uname -srm
sed -n 's/^model name[^:]*: //p' /proc/cpuinfo | head -n 1
echo "$(nproc) processors"

for pair in "a b" "c d" "e f"; do
    set -- $pair
    head -c "${megabytes}M" /dev/urandom >"$1"
    cp "$1" "$2"
done
head -c "${megabytes}M" /dev/zero >g
sectors=$((megabytes * 2048))
plan 7 7 5 none "$sectors" "$sectors" 0 >plan
echo "cat of 7 images of $megabytes MiB: $(seconds cat a b c d e f g)"
echo "check of one order: $(seconds "$program" check set=5:ls:none:128:0:0,1,2,3,4,5,6 -- a b c d e f g)"
timed "level 5, 5,040 orders of 7 images, all pass" "a b c d e f g"
rm a b c d e f g

for name in a b c d e f g h i; do head -c 2M /dev/urandom >$name; done
plan 8 8 6 after-q 4096 1024 4096 >plan
timed "level 6, 40,320 orders of 8 images, 1,024 rows, all computed" "a b c d e f g h"
plan 9 8 5 none 4096 256 4096 >plan
timed "level 5, 362,880 orders of 8 of 9 images, 256 rows, all computed" "a b c d e f g h i"
