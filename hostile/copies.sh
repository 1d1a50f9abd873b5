#!/bin/bash
# Tries copies of a volume that are ended midway and gone on with: ddrescue over a mount, ended by a signal, killed, and when the mount itself was
# lost under it; each is gone on with by its map, does not read again what the map calls read, and has the volume at the end. Then targets that are
# full, as RECIPES has it: what `write` put is a prefix of the volume, and the rest comes from a mount or out of `salvage`; a copy by ddrescue is moved
# to where there is room. Its last line says how many cases were as stated; status 1 where one was not.
# As root, with FUSE and the Debian packages libnbd-bin, gddrescue and strace.
# Usage: hostile/copies.sh PROGRAM SERVER
set -u
[ $# -eq 2 ] || { sed -n 's/^# \(Usage.*\)/\1/p' "$0"; exit 2; }
here=$(cd "$(dirname "$0")" && pwd)
program=$(realpath "$1") server=$(realpath "$2")
export LC_ALL=C.UTF-8
for tool in nbdfuse ddrescue strace; do
    command -v $tool >/dev/null || { echo "copies.sh: nothing was tried, since there is no $tool" >&2; exit 2; }
done
folder=$(mktemp -d "${TMPDIR:-/tmp}/reraid-copies.XXXXXX") || exit 2
ended() {
    cd "$folder" || return
    for name in look small; do mountpoint -q $name && umount -l $name; done
    cd / && rm -rf "$folder"
}
trap ended EXIT
cd "$folder" || exit 2
# As it is installed.
mkdir -p bin libexec/reraid small
cp "$here"/../bin/* bin && cp -r "$here/../lib" lib && cp "$here/../VERSION" libexec/reraid
ln -s "$program" bin/reraid
ln -s "$server" libexec/reraid/reraid-nbd
export PATH=$folder/bin:$PATH
cases=0 failed=0

# as NAME COMMAND..: a case, which is as stated where the command ends with 0
as() {
    local name=$1
    shift
    cases=$((cases + 1))
    if "$@" >log 2>&1; then
        echo "ok $name"
    else
        failed=$((failed + 1))
        echo "FAILED $name: $(head -c 400 log | tr '\n' '|')"
    fi
}

# ends STATUS TEXT COMMAND..: it ends with that status, and says the text
ends() {
    local status=$1 text=$2
    shift 2
    "$@" >said 2>&1
    [ $? = "$status" ] && grep -qF -- "$text" said
}

# read_until_now MAP: how many bytes the map calls read
read_until_now() {
    local sum=0 size kind
    while read -r _ size kind; do [ "$kind" != + ] || sum=$((sum + size)); done < <(grep '^0x' "$1" | tail -n +2)
    echo $sum
}

# some MAP: the map calls part of the volume read, and part not
some() { local count; count=$(read_until_now "$1"); [ "$count" -gt 0 ] && [ "$count" -lt "$length" ]; }

# all MAP: the map calls all of the volume read
all() { [ "$(read_until_now "$1")" = "$length" ]; }

# midway COPY: waits until a quarter of the copy is there, and says whether it does not have all
midway() {
    local count=0
    for _ in $(seq 600); do
        count=$(stat -c %s "$1" 2>/dev/null || echo 0)
        [ "$count" -lt $((length / 4)) ] || break
        sleep 0.1
    done
    [ "$count" -ge $((length / 4)) ] && [ "$count" -lt "$length" ]
}

# bytes_read COMMAND..: how many bytes of the volume a command reads, in the file `count`, by a trace of its calls
bytes_read() {
    strace -f -e trace=openat,read,pread64 -o trace "$@" || return 1
    awk '/openat\(.*look\/volume"/ { number = $NF } number != "" && $0 ~ "read(64)?\\(" number "," { sum += $NF } END { print sum + 0 }' trace >count
}

shown() { reraid-mount $set look a.img b.img d.img; }

head -c 64M /dev/urandom >made
"$here/../bench/making/disks.py" 5 128 made a.img b.img c.img d.img
rm c.img
set=5:ls:none:128:2048:0,1,-,2
reraid write set=$set -- a.img b.img d.img >volume || exit 2
length=$(stat -c %s volume)
as "the volume is what the disks were made of" cmp -n "$(stat -c %s made)" made volume

as "reraid-mount" shown
for signal in INT TERM KILL; do
    rm -f copy copy.map
    ddrescue -q --max-read-rate=16Mi look/volume copy copy.map &
    copying=$!
    as "a copy is midway" midway copy
    kill -$signal $copying
    wait $copying 2>/dev/null
    # What was killed has a map only if it kept one before: else all is read again.
    if [ $signal != KILL ]; then
        as "ended by $signal: the map calls a part read" some copy.map
        had=$(read_until_now copy.map)
        as "it is gone on with" bytes_read ddrescue -q look/volume copy copy.map
        as "and reads the rest alone, or a block more" test "$(cat count)" -ge $((length - had)) -a "$(cat count)" -le $((length - had + 1048576))
    else
        as "killed, it is gone on with" ddrescue -q look/volume copy copy.map
    fi
    as "the map calls all read" all copy.map
    as "the copy is the volume" cmp copy volume
done

# The mount is lost under a copy: the server is killed, or what shows its volume.
umount look
for who in server nbdfuse; do
    rm -f copy copy.map
    nbdfuse -r look/volume --command reraid-nbd set=$set -- a.img b.img d.img &
    showing=$!
    for _ in $(seq 100); do [ ! -e look/volume ] || break; sleep 0.1; done
    ddrescue -q --max-read-rate=16Mi look/volume copy copy.map 2>said &
    copying=$!
    as "a copy is midway" midway copy
    if [ $who = server ]; then kill -KILL $(ps -o pid= --ppid $showing); else kill -KILL $showing; fi
    wait $copying
    echo "$who killed: ddrescue ended with status $?: $(tail -n 1 said)"
    umount -l look
    wait $showing 2>/dev/null
    as "$who killed: the map calls a part read" some copy.map
    as "reraid-mount again" shown
    as "it is gone on with, and what could not be read is tried again" ddrescue -q -A -r1 look/volume copy copy.map
    as "the map calls all read" all copy.map
    as "the copy is the volume" cmp copy volume
    umount look
done
rm -f copy copy.map
as "reraid-mount once more" shown

# Targets that are full.
mount -t tmpfs -o size=20m none small || exit 2
as "write to a full target says so" ends 12 "reraid: output fault" sh -c "reraid write set=$set -- a.img b.img d.img >small/first"
had=$(stat -c %s small/first)
as "what came out is some of it" test "$had" -gt 1048576 -a "$had" -lt "$length"
as "and a prefix of the volume" cmp -n "$had" small/first volume
as "the rest from a mount" dd if=look/volume of=second bs=1M iflag=skip_bytes skip="$had" status=none
as "both are the volume" sh -c "cat small/first second | cmp - volume"
rm small/first second
printf 'map 0\n0 + 1\n0 %d +\n' "$(stat -c %s a.img)" >maps
as "salvage to a full target says so" ends 12 "reraid: output fault" sh -c "reraid salvage set=$set -- a.img b.img d.img <maps >small/first"
had=$(stat -c %s small/first)
as "what came out is a prefix of the volume" cmp -n "$had" small/first volume
as "the rest out of salvage" sh -c "reraid salvage set=$set -- a.img b.img d.img <maps | tail -c +$((had + 1)) >second"
as "both are the volume" sh -c "cat small/first second | cmp - volume"
rm small/first second
ddrescue -q look/volume small/copy copy.map
as "ddrescue to a full target ends, with a part read" some copy.map
as "its copy is moved to where there is room" mv small/copy copy
as "and gone on with by its map" ddrescue -q look/volume copy copy.map
as "the map calls all read" all copy.map
as "the copy is the volume" cmp copy volume

echo "$cases cases, $failed not as stated"
[ "$failed" = 0 ]
