#!/bin/sh
# Times a survey for the usual kinds of landmarks, and one for all, beside cat of the same images, best of five runs each: four images of random
# bytes, then four of zeros.
# Usage: bench/measuring/survey.sh [MEGABYTES] [FOLDER]
set -eu
. "$(dirname "$0")/folder.sh"

uname -srm
sed -n 's/^model name[^:]*: //p' /proc/cpuinfo | head -n 1
for source in urandom zero; do
    for name in a b c d; do head -c "${megabytes}M" "/dev/$source" >"$name"; done
    for kinds in gpt,ntfs,xfs,btrfs,lvm gpt,ntfs,xfs,btrfs,lvm,ext,extinode,xfs5,btrfstree,mft; do
        set -- "$program" survey kinds="$kinds" offsets=0 -- a b c d
        "$@" </dev/null | tail -n 1 | grep -qx 'done'
        awk -v m="$megabytes" -v s="$source" -v k="$kinds" -v c="$(best 5 /dev/null cat a b c d)" -v l="$(best 5 /dev/null "$@")" 'BEGIN {
            printf "4 images of %d MiB of %s, %s: cat %.3f s, survey %.3f s, ratio %.1f\n", m, s, k, c / 1e9, l / 1e9, l / c
        }'
    done
done
