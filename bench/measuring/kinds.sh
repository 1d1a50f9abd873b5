#!/bin/bash
# Makes file systems on arrays of five disks, level by level, with all disks and with one lost, and prints of how many sets how many pass,
# without landmarks and with those of the file system's kind; the true set is among the latter, or the line says so. Where it is not, lines
# below the table say what passes with each group of LVM2 as the only one, or of ext with misfits or without what is in a journal.
# Needs the Debian packages e2fsprogs, xfsprogs, btrfs-progs and ntfs-3g; as root and with loop devices also lvm2, for what is in LVM2, and
# user-mode-linux, for an ext4 that was grown while it was mounted.
# Usage: bench/measuring/kinds.sh [MEGABYTES] [FOLDER]
set -eu
bench=$(cd "$(dirname "$0")" && pwd)
. "$bench/folder.sh"
[ "$#" -gt 0 ] || megabytes=384
kinds="ext4 ext4-1k ext2 btrfs xfs ntfs"
[ "$(id -u)" != 0 ] || kinds="$kinds lvm-xfs lvm-ext4 ext4-used ext4-grown"

# volume_manager COMMAND WORD..: the command of LVM2, over $device alone and without device mapper
volume_manager() {
    command=$1
    shift
    LVM_SUPPRESS_FD_WARNINGS=1 "$command" --driverloaded n --nolocking --devices "$device" --config 'backup { backup=0 archive=0 }
        devices { obtain_device_list_from_udev=0 external_device_info_source="none" } activation { udev_sync=0 udev_rules=0 }' "$@" 2>>log
}

# logical COMMAND..: the file `volume` as a physical volume, whose one logical volume the command makes a file system of, as file `logical`
logical() {
    device=$(losetup --find --show volume)
    volume_manager pvcreate -q "$device" >>log
    volume_manager vgcreate -q group "$device" >>log
    volume_manager lvcreate -q -an -Zn -Wn -n data -l 100%FREE group >>log
    first=$(volume_manager pvs --noheadings --nosuffix --units s -o pe_start | tr -d ' ')
    size=$(volume_manager lvs --noheadings --nosuffix --units s -o lv_size | tr -d ' ')
    losetup -d "$device"
    rm -f logical
    truncate -s "$((size * 512))" logical
    "$@" logical
    dd if=logical of=volume bs=512 seek="$first" conv=notrunc,sparse status=none
}

# use FOLDER COMMAND..: what the file system that is mounted there is used for, with a command in its midst
use() {
    used=$1
    shift
    head -c 40M /dev/urandom | gzip >"$used/photos.gz"
    for number in $(seq 200); do head -c 20000 /dev/urandom >"$used/$number"; done
    sync
    "$@"
    head -c 60M /dev/urandom >"$used/film"
    sync
    rm "$used"/1*
    umount "$used"
}

# in_guest FUNCTION: runs it as root of a Linux in user mode, with the file `volume` as /dev/ubda and the host's files for reading
in_guest() {
    {
        echo '#!/bin/bash'
        declare -f use "$1"
        echo "export PATH=$PATH; mount -t proc proc /proc; mount -t tmpfs tmpfs /mnt; uname -r; $1; echo o >/proc/sysrq-trigger; sleep 60"
    } >init
    chmod +x init
    timeout 300 linux.uml mem=512M root=/dev/root rootfstype=hostfs rootflags=/ ro init="$folder/init" ubd0="$folder/volume" uml_dir="$folder" \
        con=null con0=null,fd:1 </dev/null >>log 2>&1
}

# grow: an ext4 that has half of its device gets the rest of it
grow() {
    mkdir /mnt/used
    mount -t ext4 /dev/ubda /mnt/used
    use /mnt/used resize2fs /dev/ubda
}

# make KIND: the file `volume` with such a file system, and the origins of what is in it
make() {
    rm -f volume
    truncate -s "${megabytes}M" volume
    origins=0
    case $1 in
        ext4) mke2fs -q -t ext4 -b 4096 volume ;;
        ext4-1k) mke2fs -q -t ext4 -b 1024 volume ;;
        ext2) mke2fs -q -t ext2 -r 0 -b 1024 volume ;;
        btrfs) mkfs.btrfs -q volume ;;
        xfs) mkfs.xfs -q volume ;;
        ntfs) mkntfs -q -F -f -s 512 -p 0 -H 0 -S 0 volume >/dev/null 2>&1 ;;
        ext4-used)
            mke2fs -q -t ext4 -b 1024 volume
            mkdir used
            mount -o loop volume used
            use used true
            rmdir used ;;
        ext4-grown)
            mke2fs -q -t ext4 -b 1024 volume "$((megabytes / 2))M"
            in_guest grow
            dumpe2fs -h volume 2>>log | grep -q "^Block count: *$((megabytes * 1024))\$" || { echo "kinds.sh: not grown" >&2; cat log >&2; exit 1; } ;;
        lvm-xfs) logical mkfs.xfs -q ;;
        lvm-ext4) logical mke2fs -q -t ext4 -b 4096 ;;
    esac
    case $1 in lvm-*) origins=0,$first ;; esac
}

# count KINDS MEMBERS MISSING LEVEL IMAGES: how many sets pass, and of how many
count() {
    "$program" survey kinds="$1" levels="$4" members="$2" missing="$3" chunks=64,128,256 offsets=2048 window=4096 origins="$origins" -- $5 \
        >plan </dev/null
    list "$5" plan
}

# list IMAGES PLAN
list() {
    "$program" list size=1000000 -- $1 <"$2" >listed
    awk 'END { print NR - 1, $4 }' listed
}

# there SET: whether it is among those that were listed
there() {
    if grep -q " $1\$" listed; then echo listed; else echo missing; fi
}

# only GROUP: the plan with this one of its groups of LVM2 alone
only() {
    awk -v one="$1" '/^group/ { n++; out = $2 == "lvm" && n != one } /^(group|mark)/ && out { next } 1' plan
}

# relaxation HOW SET IMAGES PLAN: what passes with such a plan
relaxation() {
    with=$(list "$3" "$4")
    echo "$1: ${with% *} of ${with#* }, the true set $(there "$2")" >>relaxations
}

# apart: the plan without the marks of ext that are nearer than 1,000 sectors to one of another block group, as copies in a journal are
apart() {
    awk '$1 != "mark" || $2 != "ext" { if (NR > FNR) print; next }
        NR == FNR { sector[++n] = $4; rule[n] = $5; next }
        { near = 0; for (i in sector) near += rule[i] != $5 && sector[i] - $4 < 1000 && $4 - sector[i] < 1000 }
        !near' plan plan
}

# relaxations ROW SET IMAGES: what passes with one group of LVM2 alone, each in turn, or of ext with misfits, or without what is in a journal
relaxations() {
    grep '^group' plan | grep -n lvm | while IFS=: read -r number _; do
        only "$number" >other
        relaxation "$1, of LVM2 group $((number - 1)) alone" "$2" "$3" other
    done
    case $1 in ext*)
        sed "s/^misfits 0/misfits 10/" plan >other
        relaxation "$1, misfits=10" "$2" "$3" other
        apart >other
        relaxation "$1, marks that lie apart" "$2" "$3" other ;;
    esac
}

uname -srm
echo "| file system | level | sets | by parity alone | with its kind | the true set |"
echo "|---|---|---|---|---|---|"
: >relaxations
for kind in $kinds; do
    make "$kind"
    case $kind in ext*) names=ext ;; lvm-ext4) names=lvm,ext ;; lvm-xfs) names=xfs,lvm ;; *) names=$kind ;; esac
    for level in 0 5 6; do
        python3 "$bench/../making/disks.py" "$level" 128 volume a b c d e
        for lost in 0 1; do
            [ "$level$lost" != 01 ] || continue
            images="a b c d e"
            slots=0,1,2,3,4
            [ "$lost" = 0 ] || { images="a b d e"; slots=0,1,-,2,3; }
            none=$(count gpt 5 "$lost" "$level" "$images")
            with=$(count "$names" 5 "$lost" "$level" "$images")
            case $level in 0) word=0:plain:none ;; 5) word=5:ls:none ;; *) word=6:ls:after-q ;; esac
            there=$(there "$word:128:2048:$slots")
            echo "| $kind | $level, $lost lost | ${none#* } | ${none% *} | ${with% *} | $there |"
            [ "$there" = listed ] || relaxations "$kind $level, $lost lost" "$word:128:2048:$slots" "$images"
        done
    done
done
cat relaxations
