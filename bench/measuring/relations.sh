#!/bin/sh
# Times `relations` of 24 images in the page cache, in the 4,096 rows that it looks at where no step is given, beside a plain program in C that
# solves the same rows, and `cat` of the images; best of five runs each. The images are the members of a RAID 6, then such of random bytes, which
# have no relation, then a RAID 6 that lacks two disks and images of zeros among it.
# It needs gcc. Usage: bench/measuring/relations.sh SOURCE.c [MEGABYTES OF EACH IMAGE [FOLDER]]
# SOURCE.c is called with the first row, the step, how many rows, and the images.
set -eu
[ $# -gt 0 ] || { sed -n 's/^# .*\(Usage: .*\)/\1/p' "$0" >&2; exit 2; }
source=$(realpath "$1")
making=$(cd "$(dirname "$0")/../making" && pwd)
shift
set -- "${1:-16}" ${2:+"$2"}
. "$(dirname "$0")/folder.sh"
gcc -O2 -w "$source" -o plain

# timed NAME IMAGE..: the three times over these images
timed() {
    name=$1
    shift
    rows=$(($(for image; do stat -c %s "$image"; done | sort -n | head -n 1) / 512))
    step=$(((rows + 4095) / 4096))
    count=$(((rows + step - 1) / step))
    cat "$@" >/dev/null
    lines=$("$program" relations -- "$@" </dev/null | wc -l)
    awk -v n="$name" -v i=$# -v r=$count -v s=$step -v l="$lines" -v c="$(best 5 /dev/null cat "$@")" -v p="$(best 5 /dev/null ./plain 0 $step $count "$@")" \
        -v t="$(best 5 /dev/null "$program" relations -- "$@")" 'BEGIN {
        printf "%s, %d images, %d rows, every %d: cat %.3f s, plain %.3f s, relations %.3f s (%d lines), ratio to plain %.2f\n",
            n, i, r, s, c / 1e9, p / 1e9, t / 1e9, l, t / p
    }'
}

uname -srm
sed -n 's/^model name[^:]*: //p' /proc/cpuinfo | head -n 1
disks=$(for number in $(seq 10 33); do echo "d$number"; done)
head -c "$((22 * megabytes))M" /dev/urandom >volume
python3 "$making/disks.py" 6 128 volume $disks
timed "a RAID 6" $disks
rm volume d10 d20
truncate -s "$(stat -c %s d11)" d10 d20
timed "a RAID 6 that lacks two, and zeros" $disks
for disk in $disks; do head -c "${megabytes}M" /dev/urandom >"$disk"; done
timed "random bytes" $disks
