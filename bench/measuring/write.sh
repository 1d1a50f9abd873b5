#!/bin/sh
# Times `write` and `rebuild` beside cat of the present images, best of three runs each. Four members of level 6, left-symmetric with
# the order after Q: zeros for data, P and Q, which agree in every row, so members can be lost and found.
# Usage: bench/measuring/write.sh [MEGABYTES] [FOLDER]
set -eu
. "$(dirname "$0")/folder.sh"

for name in a b c d; do head -c "${megabytes}M" /dev/zero >"$name"; done

# against NAME CAT COMMAND..: a run beside cat of as many files
against() {
    name=$1
    files=$2
    shift 2
    awk -v n="$name" -v c="$(best 3 /dev/null cat $files)" -v t="$(best 3 /dev/null "$@")" 'BEGIN {
        printf "%s: cat %.3f s, reraid %.3f s, ratio 1:%.1f\n", n, c / 1e9, t / 1e9, t / c
    }'
}

[ "$("$program" write set=6:ls:after-q:128:0:-,-,0,1 -- a b | cmp -n $((megabytes * 2097152)) - /dev/zero && echo same)" = same ] ||
    { echo "the volume differs" >&2; exit 1; }
uname -srm
sed -n 's/^model name[^:]*: //p' /proc/cpuinfo | head -n 1
echo "4 members of $megabytes MiB, chunks of 64 KiB, from the page cache; cat reads the present images"
against "write, nothing lost" "a b c d" "$program" write set=6:ls:after-q:128:0:0,1,2,3 -- a b c d
against "write, one lost" "a b c" "$program" write set=6:ls:after-q:128:0:-,0,1,2 -- a b c
against "write, two lost" "a b" "$program" write set=6:ls:after-q:128:0:-,-,0,1 -- a b
against "rebuild" "a b c" "$program" rebuild set=6:ls:after-q:128:0:-,0,1,2 slot=0 -- a b c
