#!/bin/bash
# Times survey, check and write over eight images on hard disks, beside cat of one after the other, and of all at once: on one disk that holds
# all of them, as files of an ext4, and on eight disks of their own, as block devices. The disks are nbdkit plugins (slow_disk.py) behind loop devices, so
# the kernel reads ahead as it does on disks: 128 KiB first, and then 8 MiB. Each run begins with nothing in the cache.
# It is to be run as root, and takes nbdkit with its python plugin, nbdfuse of libnbd, mkfs.ext4 and loop devices.
# Usage: bench/measuring/slow.sh [MEGABYTES] [FOLDER], of each image, 128 of them if left out
# In the environment PACE is in megabytes a second, SEEK in milliseconds, AHEAD in KiB, and DISKS is one, eight or both. On a machine that
# cannot show eight disks at the pace of real ones, let both be slower: PACE=50 SEEK=24 leaves the ratios as they are.
set -eu
beside=$(cd "$(dirname "$0")" && pwd)
set -- "${1:-128}" "${2:-${TMPDIR:-/tmp}}"
. "$beside/folder.sh"
pace=${PACE:-150}
seek=${SEEK:-8}
images="a b c d e f g h"
set=5:ls:none:128:0:0,1,2,3,4,5,6,7

# away: nothing is attached any more
away() {
    if mountpoint -q files; then umount -l files; fi
    for device in $attached; do losetup -d "$device"; done
    attached=
}

ended() {
    set +e
    cd "$folder" || return
    away
    for image in shown/*; do umount -l "$image"; done
    for number in pid.*; do kill "$(cat "$number")"; done
    cd /
    rm -rf "$folder"
}
attached=
trap ended EXIT
trap 'exit 130' INT TERM HUP

# disk FILE: it is shown as a disk at shown/FILE/disk
disk() {
    mkdir -p "shown/$1"
    nbdkit -r -U "$folder/socket.$1" -P "$folder/pid.$1" python "$beside/slow_disk.py" file="$folder/$1" pace="$pace" seek="$seek"
    until [ -s "pid.$1" ]; do sleep 0.1; done
    nbdfuse -r "shown/$1/disk" --unix "$folder/socket.$1" &
    until [ -e "shown/$1/disk" ]; do sleep 0.1; done
}

# attach FILE SECTORS: its disk is the loop device `device`, and the kernel reads so far ahead
attach() {
    device=$(losetup -r -f --show "shown/$1/disk")
    attached="$attached $device"
    blockdev --flushbufs "$device"
    blockdev --setra "$2" "$device"
}

# fresh DISKS SECTORS: the images are attached anew, with nothing of them in the cache, as `names`
fresh() {
    away
    names=
    if [ "$1" = one ]; then
        attach one "$2"
        mount -o ro,noload "$device" files
        for image in $images; do names="$names files/$image"; done
    else
        for image in $images; do
            attach "$image" "$2"
            names="$names $device"
        done
    fi
}

# together IMAGE..: cat of all of them at once
together() {
    for image in "$@"; do cat "$image" & done
    wait $(jobs -p | tail -n $#)
}

# run DISKS SECTORS NAME COMMAND..: the time of a run over fresh images, and what passes of them in it, beside cat of one after the other
run() {
    fresh "$1" "$2"
    name=$3
    shift 3
    begin=$(date +%s%N)
    # The names of the images are words.
    "$@" $names <plan >/dev/null
    took=$(($(date +%s%N) - begin))
    if [ "$name" = cat ]; then cat=$took; fi
    awk -v t="$took" -v c="$cat" -v m="$megabytes" -v n="$name" 'BEGIN {
        printf "  %-8s %7.1f s, %5.0f MB/s, %4.2f of the pace of cat\n", n, t / 1e9, m * 1048.576 * 8 / (t / 1e6), c / t
    }'
}

mkdir shown files tree
for name in $images; do
    head -c "${megabytes}M" /dev/urandom >"$name"
    ln "$name" "tree/$name"
done
truncate -s "$((megabytes * 9 + 64))M" one
mkfs.ext4 -q -O ^has_journal -m 0 -d tree one
"$program" survey levels=5 offsets=0 -- $images >plan
for name in one $images; do disk "$name"; done

uname -srm
echo "8 images of $megabytes MiB on disks of $pace MB/s, with seeks of $seek ms"
for disks in ${DISKS:-one eight}; do
    for kibibytes in ${AHEAD:-128 8192}; do
        echo "$disks, read ahead $kibibytes KiB"
        ahead=$((kibibytes * 2))
        run "$disks" "$ahead" cat cat
        [ "$disks" = one ] || run "$disks" "$ahead" together together
        run "$disks" "$ahead" survey "$program" survey levels=5 offsets=0 --
        run "$disks" "$ahead" check "$program" check set="$set" --
        run "$disks" "$ahead" write "$program" write set="$set" --
    done
done
