#!/bin/sh
# Makes the example of the pages in the current folder: the volume volume.img, which has an XFS with the file photos.gz in a GPT partition, and the
# disks a.img to e.img of a RAID 5 with this volume, under shuffled names.
# It needs the Debian packages xfsprogs and gdisk. Usage: example.sh, in an empty folder
set -eu
here=$(dirname "$(realpath "$0")")
[ -z "$(ls -A)" ] || { echo "example.sh: $PWD is not empty: run it in an empty folder" >&2; exit 1; }
PATH=$here:$PATH:/usr/sbin
head -c 40M /dev/urandom | gzip >photos.gz
printf '/\n0 0\nd--755 0 0\nphotos.gz ---644 0 0 photos.gz\n$\n' >files
truncate -s 342M part.img
mkfs.xfs -q -p files part.img
truncate -s 384M volume.img
sgdisk -n 1:2048:0 volume.img >log 2>&1
dd if=part.img of=volume.img bs=1M seek=1 conv=notrunc status=none
disks.py 5 128 volume.img e.img a.img d.img c.img b.img
rm photos.gz files part.img log
