#!/bin/bash
# Tries reraid-nbd: by nbd_dialogues.py, by nbd_maps.py over damaged images, and with real clients over arrays of ext4, XFS and btrfs with
# members lost: nbdinfo, nbdcopy, nbdsh, nbdfuse with a loop mount, qemu-img by a socket and through nbdkit, and reraid-mount; and over an
# ext4 of damaged disks by their maps, mounted and copied by ddrescue. All that they read is compared with what `write`, `mirrorwrite` and
# `salvage` put, and all files with those that were put into the file systems. Its last line says how many cases were as stated; status 1
# where one was not.
# It is to be run as root, and takes loop devices, FUSE and the Debian packages libnbd-bin, python3-libnbd, nbdkit, qemu-utils, e2fsprogs,
# xfsprogs, btrfs-progs and gddrescue. What is said after SERVER goes to nbd_dialogues.py: seed=, reads=, dialogues=; seed= and dialogues= to
# nbd_maps.py too.
# Usage: hostile/nbd.sh PROGRAM SERVER [WORD..]
set -u
[ $# -ge 2 ] || { sed -n 's/^# \(Usage.*\)/\1/p' "$0"; exit 2; }
here=$(cd "$(dirname "$0")" && pwd)
bench=$here/../bench
program=$(realpath "$1") server=$(realpath "$2")
shift 2
export PATH=$PATH:/usr/sbin:/sbin
missing=
for tool in nbdinfo:libnbd-bin nbdcopy:libnbd-bin nbdfuse:libnbd-bin nbdkit:nbdkit qemu-img:qemu-utils mke2fs:e2fsprogs mkfs.xfs:xfsprogs \
    mkfs.btrfs:btrfs-progs ddrescue:gddrescue; do
    command -v "${tool%:*}" >/dev/null || missing="$missing ${tool%:*} (${tool#*:})"
done
[ -z "$missing" ] || { echo "nbd.sh: nothing was tried, since these are not installed:$missing" >&2; exit 2; }
# The module of libnbd is one of Debian's own Python.
libnbd=yes
/usr/bin/python3 -c "import nbd" 2>/dev/null || { libnbd=; echo "left out: what libnbd is asked for by itself (python3-libnbd is not installed)"; }
folder=$(mktemp -d "${TMPDIR:-/tmp}/reraid-nbd.XXXXXX") || exit 2
listener=
ended() {
    cd "$folder" || return
    for name in files shown; do umount "$name" 2>/dev/null; done
    [ -z "$listener" ] || kill "$listener" 2>/dev/null
    for number in *.pid; do [ ! -s "$number" ] || kill "$(cat "$number")" 2>/dev/null; done
    cd / && rm -rf "$folder"
}
trap ended EXIT

talked=$(python3 "$here/nbd_dialogues.py" "$program" "$server" "$@")
echo "$talked"
read -r cases _ _ reads _ failed _ <<<"$(tail -n 1 <<<"$talked")"
of_maps=()
for word; do case $word in reads=*) ;; *) of_maps+=("$word") ;; esac; done
talked=$(python3 "$here/nbd_maps.py" "$server" "${of_maps[@]}")
echo "$talked"
read -r more _ wrong _ <<<"$(tail -n 1 <<<"$talked")"
cases=$((cases + more)) failed=$((failed + wrong))

cd "$folder" || exit 2
uri=nbd+unix:///?socket=$folder/socket
mkdir bin tree files shown
ln -s "$program" bin/reraid
ln -s "$server" bin/reraid-nbd
cp "$here/../bin/reraid-mount" bin
export PATH=$folder/bin:$PATH

# as NAME COMMAND..: a case, which is as stated where the command ends with 0
as() {
    local name=$1
    shift
    cases=$((cases + 1))
    if "$@" >log 2>&1; then
        echo "ok $name"
    else
        failed=$((failed + 1))
        echo "FAILED $name: $(head -c 400 log | tr '\n' '|')"
    fi
}

not() { ! "$@"; }

# listening: clients of the socket get the server of the array from now on
listening() {
    [ -z "$listener" ] || { kill "$listener"; wait "$listener" 2>/dev/null; }
    rm -f socket
    python3 "$bench/measuring/nbd_listen.py" socket reraid-nbd "${words[@]}" &
    listener=$!
    until [ -S socket ]; do sleep 0.1; done
}

# shown: the server is asked by nbdfuse for the file shown/volume
shown() {
    nbdfuse -r shown/volume --command reraid-nbd "${words[@]}" &
    for _ in $(seq 100); do [ ! -e shown/volume ] || return 0; sleep 0.1; done
    return 1
}

# holds TEXT COMMAND..: the command prints it
holds() {
    local text=$1
    shift
    "$@" | tee log | grep -qF -- "$text"
}

told() {
    as "$1: nbdinfo says the size" test "$(nbdinfo --size "$uri")" = "$size"
    for line in "is_read_only: true" "can_multi_conn: true" "can_flush: false" "can_trim: false" "can_zero: false" "block_size_minimum: 1" \
        "block_size_preferred: 4096" "block_size_maximum: 33554432" "protocol: newstyle-fixed without TLS, using simple packets"; do
        as "$1: nbdinfo says $line" holds "$line" nbdinfo "$uri"
    done
    as "$1: nbdinfo lists one export" holds 'export="":' nbdinfo --list "$uri"
    as "$1: nbdinfo of a name that is not there" not nbdinfo "nbd+unix:///name?socket=$folder/socket"
}

copied() {
    for connections in 1 4; do
        as "$1: nbdcopy, $connections connections" nbdcopy --connections=$connections "$uri" copy
        as "$1: what it copied" cmp copy volume
    done
    as "$1: qemu-img compare" qemu-img compare -f raw -F raw "$uri" volume
    as "$1: qemu-img convert" qemu-img convert -f raw -O raw "$uri" copy
    as "$1: what it converted" cmp copy volume
    nbdkit -U kit.socket -P kit.pid nbd socket="$folder/socket"
    until [ -s kit.pid ]; do sleep 0.1; done
    as "$1: qemu-img compare through nbdkit" qemu-img compare -f raw -F raw "nbd+unix:///?socket=$folder/kit.socket" volume
    kill "$(cat kit.pid)"
    rm -f kit.pid kit.socket copy
}

# What libnbd refuses by itself is asked all the same.
asked() {
    [ -n "$libnbd" ] || return 0
    cat >ask.py <<'END'
import sys
import nbd

client = nbd.NBD()
client.set_strict_mode(0)
client.connect_command(["reraid-nbd", *sys.argv[1:]])
size = client.get_size()


def refused(number, call, *words):
    try:
        call(*words)
    except nbd.Error as error:
        assert error.errnum == number, (error.errnum, number, call)
    else:
        raise AssertionError(call)


assert client.is_read_only()
refused(1, client.pwrite, bytes(5 << 20), 0)
refused(1, client.pwrite, bytes(512), 0, nbd.CMD_FLAG_FUA)
refused(1, client.trim, 512, 0)
refused(1, client.zero, 512, 0)
refused(22, client.pread, 1, size)
refused(22, client.pread, 2, size - 1)
refused(22, client.pread, (32 << 20) + 1, 0)
refused(22, client.cache, 512, 0)
refused(22, client.flush)
with open("volume", "rb") as file:
    for place, length in ((0, min(size, 32 << 20)), (size - 1, 1), (size // 2 - 77, 1234567), (511, 2)):
        file.seek(place)
        assert client.pread(length, place) == file.read(length), (place, length)
client.shutdown()
END
    as "$1: libnbd" /usr/bin/python3 ask.py "${words[@]}"
}

# looked NAME OPTIONS: the files of the file system, mounted from the file that is shown
looked() {
    as "$1: a mount of $3" mount -o "$2" "$3" files
    as "$1: its files" diff -r tree files -x lost+found
    as "$1: none can be written" not touch files/new
    as "$1: its end" umount files
}

mounted() {
    as "$1: nbdfuse" shown
    as "$1: the length of its file" test "$(stat -c %s shown/volume)" = "$size"
    as "$1: its file" cmp shown/volume volume
    as "$1: its file cannot be written" not dd if=/dev/zero of=shown/volume conv=notrunc count=1
    looked "$1" "$2" shown/volume
    as "$1: nbdfuse ends" umount shown
    set=${words[0]#set=}
    as "$1: reraid-mount" reraid-mount "$set" shown "${words[@]:2}"
    looked "$1" "$2" shown/volume
    as "$1: reraid-mount ends" umount shown
}

# array NAME OPTIONS COMMAND SET IMAGE..: all of this over an array whose volume that command of reraid writes
array() {
    local name=$1 options=$2 command=$3
    words=("set=$4" -- "${@:5}")
    reraid "$command" "${words[@]}" >volume || exit 2
    size=$(stat -c %s volume)
    listening
    told "$name"
    copied "$name"
    asked "$name"
    mounted "$name" "$options"
    rm -f volume ?.img
}

# bad IMAGE FIRST COUNT..: sectors of an image could not be read. They hold noise, and its map says so
bad() {
    local image=$1 length first count end=0
    length=$(stat -c %s "$image")
    echo "0x0 + 1"
    shift
    while [ $# -gt 0 ]; do
        first=$(($1 * 512)) count=$(($2 * 512))
        shift 2
        dd if=/dev/urandom of="$image" bs=512 seek=$((first / 512)) count=$((count / 512)) conv=notrunc status=none
        echo "$end $((first - end)) +"
        echo "$first $count -"
        end=$((first + count))
    done
    echo "$end $((length - end)) +"
}

# damaged NAME SET LOST IMAGE..: the volume of ext4 by the text `maps`, of which so many sectors are lost, each of them in tree/large. It is
# mounted, and copied by ddrescue
damaged() {
    local name=$1 lost=$3 file fails=
    words=("set=$2" maps=maps -- "${@:4}")
    reraid salvage "set=$2" -- "${@:4}" <maps >volume || exit 2
    size=$(stat -c %s volume)
    as "$name: what is lost" test "$(reraid salvage "set=$2" form=lost -- "${@:4}" <maps | tail -n 1)" = "good $((size / 512 - lost)) of $((size / 512))"
    as "$name: nbdfuse" shown
    as "$name: a mount" mount -o ro,noload,loop shown/volume files
    for file in $(cd tree && find . -type f); do cmp -s "tree/$file" "files/$file" || fails=$fails$file; done
    as "$name: its files" test "$fails" = "$([ "$lost" = 0 ] || echo ./large)"
    as "$name: its end" umount files
    as "$name: ddrescue" ddrescue -q -d shown/volume copy copy.map
    as "$name: what it copied" cmp copy volume
    as "$name: what it could not read" test "$(ddrescuelog --list-blocks=- copy.map | wc -l)" = "$lost"
    as "$name: nbdfuse ends" umount shown
    rm -f volume copy copy.map
}

# meeting SET IMAGE..: the image and its sector in which a chunk of tree/large begins, and the image that has its parity
meeting() {
    local first
    mount -o ro,noload,loop made files
    first=$(filefrag -v -b512 files/large | awk '$1 == "1:" || $1 == "0:" { sub(/\.\..*/, "", $4); print $4; exit }')
    umount files
    reraid map "set=$1" sector=$(((first / 128 + 3) * 128)) -- "${@:2}" | awk '$1 == "row" { print $8, $10, $12 }'
}

# ends STATUS TEXT COMMAND..: it ends with that status, and says the text
ends() {
    local status=$1 text=$2
    shift 2
    "$@" >log 2>&1
    [ $? = "$status" ] && grep -qF -- "$text" log
}

# refused: what reraid-mount does not show, and names that are awkward
refused() {
    head -c 1M /dev/urandom >made
    mkdir "a folder"
    "$bench/making/disks.py" offsets=0 5 8 made "a folder/one image" --d1 d2
    local set=5:ls:none:8:0:0,1,2 images=("a folder/one image" --d1 d2)
    as "reraid-mount without images" ends 1 "give the images after shown" reraid-mount "$set" shown
    as "reraid-mount of a folder that is not empty" ends 1 "tree is not empty" reraid-mount "$set" tree "${images[@]}"
    as "reraid-mount of a file" ends 1 "" reraid-mount "$set" made "${images[@]}"
    as "reraid-mount of no set" ends 1 "word 1 is not understood" reraid-mount 5:ls shown "${images[@]}"
    as "reraid-mount of a set with a fault" ends 7 "set rule 6 value 1" reraid-mount 5:ls:none:8:0:0,1,1 shown "${images[@]}"
    as "reraid-mount of an image that is not there" ends 10 "image read fault" reraid-mount "$set" shown --d1 d2 nothing
    as "reraid-mount without nbdfuse" ends 1 "nbdfuse is not installed" env PATH="$folder/bin:$folder/few" "$(command -v reraid-mount)" "$set" shown "${images[@]}"
    as "nothing is shown" test -z "$(ls -A shown)"
    as "reraid-mount of a folder that it makes" ends 0 "to unmount it: umount -new: folder/" reraid-mount "set=$set" "-new: folder/" "${images[@]}"
    reraid write "set=$set" -- "${images[@]}" >volume
    as "its file" cmp "./-new: folder/volume" volume
    as "its end" umount "./-new: folder"
    rm -rf made volume "a folder" ./--d1 d2 "./-new: folder"
}

mkdir few
for name in dirname realpath ls id stat mktemp mkdir setsid sleep cat rm; do ln -s "$(command -v $name)" few; done

mkdir -p tree/deep/er
head -c 9M /dev/urandom >tree/large
head -c 700 /dev/urandom >tree/deep/small
for number in $(seq 60); do head -c "${number}00" /dev/urandom >"tree/deep/er/$number"; done

refused

mke2fs -q -t ext4 -d tree made 32M >/dev/null
"$bench/making/disks.py" offsets=2048,0,16,4096 5 128 made a.img b.img c.img d.img
array "ext4, level 5, an offset of each image, one lost" ro,noload,loop write 5:ls:none:128:16+4096+2048:2,-,0,1 c.img d.img a.img

names=(a.img b.img c.img d.img e.img)
"$bench/making/disks.py" 6 128 made "${names[@]}"
{ echo map 1 && bad b.img 2048 3000 9000 5000 && echo map 3 && bad d.img 2500 4000 9100 1; } >maps
damaged "ext4, level 6, two damaged disks" 6:ls:after-q:128:2048:0,1,2,3,4 0 "${names[@]}"
rm -f ?.img
names=(a.img b.img c.img d.img)
"$bench/making/disks.py" 5 128 made "${names[@]}"
{ echo map 0 && bad a.img 2048 3000 9000 5000 && echo map 2 && bad c.img 6000 2999 14000 7; } >maps
damaged "ext4, level 5, areas that do not meet" 5:ls:none:128:2048:0,1,2,3 0 "${names[@]}"
rm -f ?.img
"$bench/making/disks.py" 5 128 made "${names[@]}"
read -r image sector other <<<"$(meeting 5:ls:none:128:2048:0,1,2,3 "${names[@]}")"
for number in 0 1 2 3; do
    case $number in "$image" | "$other") echo "map $number" && bad "${names[$number]}" "$sector" 5 ;; esac
done >maps
damaged "ext4, level 5, areas that meet" 5:ls:none:128:2048:0,1,2,3 5 "${names[@]}"
rm -f ?.img maps

truncate -s 320M made
mkfs.xfs -q -f made
mount -o loop made files && cp -r tree/. files && umount files
python3 "$bench/making/sparse.py" 6 1024 264192 524288 made a.img b.img c.img d.img e.img
array "XFS, level 6, two lost" ro,norecovery,loop write 6:ls:after-q:1024:264192:-,2,0,-,1 c.img e.img b.img

rm made && truncate -s 120M made
mkfs.btrfs -q -r tree made 2>/dev/null
"$bench/making/disks.py" near2 128 made a.img b.img c.img d.img
array "btrfs, near2, one lost" ro,loop mirrorwrite near2:128:2048:1,-,0,2 c.img a.img d.img

echo "$cases cases, with $reads reads, $failed not as stated"
[ "$failed" = 0 ]
