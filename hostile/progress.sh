#!/bin/bash
# Tries what is said of long runs, over disks that are slow (nbdkit's filter `rate`, shown as files by nbdfuse): pv over write, rebuild, salvage, a
# survey and a copy from a mount says which part is done and how long the rest takes; reraid-mount says that it waits; reraid-try says on a terminal
# how long the rest of a survey takes, and where standard error is a file what is at work, each minute or as often as --every asks. Volumes are
# compared with what they were made of. Its last line says how many cases were as stated; status 1 where one was not.
# Needs FUSE and the Debian packages libnbd-bin, nbdkit, pv, e2fsprogs and util-linux (for script).
# Usage: hostile/progress.sh PROGRAM SERVER
set -u
[ $# -eq 2 ] || { sed -n 's/^# \(Usage.*\)/\1/p' "$0"; exit 2; }
here=$(cd "$(dirname "$0")" && pwd)
program=$(realpath "$1") server=$(realpath "$2")
export PATH=$PATH:/usr/sbin:/sbin LC_ALL=C.UTF-8 COLUMNS=120
for tool in nbdfuse nbdkit pv mke2fs script; do
    command -v $tool >/dev/null || { echo "progress.sh: nothing was tried, since there is no $tool" >&2; exit 2; }
done
folder=$(mktemp -d "${TMPDIR:-/tmp}/reraid-progress.XXXXXX") || exit 2
# unmount NAME: of what nbdfuse shows
unmount() { mountpoint -q "$1" && { fusermount3 -u "$1" 2>/dev/null || umount -l "$1"; }; }
ended() {
    cd "$folder" || return
    for name in look slow/*; do unmount "$name"; done
    cd / && rm -rf "$folder"
}
trap ended EXIT
cd "$folder" || exit 2
# As it is installed.
mkdir -p bin libexec/reraid tree slow room
cp "$here"/../bin/* bin && cp -r "$here/../lib" lib && cp "$here/../VERSION" libexec/reraid
ln -s "$program" bin/reraid
ln -s "$server" libexec/reraid/reraid-nbd
export PATH=$folder/bin:$PATH
cases=0 failed=0

# as NAME COMMAND..: a case, which is as stated where the command ends with 0; what the one before it said is in `before`
as() {
    local name=$1
    shift
    mv -f log before 2>/dev/null
    cases=$((cases + 1))
    if "$@" >log 2>&1; then
        echo "ok $name"
    else
        failed=$((failed + 1))
        echo "FAILED $name: $(head -c 400 log | tr '\n' '|')"
    fi
}

# parts FILE: pv put there at least three different parts of a hundred, and how long the rest takes
parts() { [ "$(tr '\r' '\n' <"$1" | grep -o '[0-9]*%' | sort -u | wc -l)" -ge 3 ] && grep -q 'ETA ' "$1"; }

# slower MIB: each image is from now on shown in its folder of slow/, at so many MiB a second
slower() {
    local name
    for name in "${images[@]}"; do
        unmount "slow/$name.shown"
        mkdir -p "slow/$name.shown"
        nbdfuse -r "slow/$name.shown/$name" --command nbdkit -s -r --filter=rate file "$name" rate=$(($1 * 8))M &
        ln -sf "$name.shown/$name" "slow/$name"
    done
    for name in "${images[@]}"; do
        for _ in $(seq 300); do [ ! -e "slow/$name" ] || break; sleep 0.1; done
    done
}

# on_terminal FILE COMMAND..: what the command puts on a terminal of 120 columns
on_terminal() {
    local file=$1
    shift
    script -qefc "stty columns 120; $(printf '%q ' "$@")" "$file" </dev/null >/dev/null
}

images=(a.img b.img c.img d.img)
set=5:ls:none:128:2048:0,1,2,3
for number in 1 2 3 4; do head -c 9M /dev/urandom | gzip >"tree/$number.gz"; done
mke2fs -q -t ext4 -d tree made 48M
"$here/../bench/making/disks.py" 5 128 made "${images[@]}"
reraid write set=$set -- "${images[@]}" >volume || exit 2
length=$(stat -c %s volume)
slower 4

cd slow || exit 2
reraid write set=$set -- "${images[@]}" | pv -f -i 0.5 -w 120 -s "$length" 2>../shown >../copy
cd ..
as "pv over write: parts, and what is left" parts shown
as "what was written" cmp copy volume
slower 4
cd slow || exit 2
reraid rebuild set=5:ls:none:128:2048:-,1,2,3 slot=0 -- "${images[@]}" | pv -f -i 0.5 -w 120 -s $((length / 3)) 2>../shown >../copy
cd ..
as "pv over rebuild" parts shown
as "what was rebuilt" cmp -n $((length / 3)) -i 0:1048576 copy a.img
slower 4
cd slow || exit 2
printf 'map 0\n0 + 1\n0 %d +\n' "$(stat -c %s ../a.img)" | reraid salvage set=$set -- "${images[@]}" | pv -f -i 0.5 -w 120 -s "$length" 2>../shown >../copy
cd ..
as "pv over salvage" parts shown
as "what was salvaged" cmp copy volume

slower 4
cd slow || exit 2
reraid survey levels=5 kinds=gpt,ntfs,xfs,btrfs,lvm,ext -- "${images[@]}" >../plan &
survey=$!
cd ..
sleep 0.5
timeout 60 pv -f -i 0.5 -w 120 -d $survey >shown 2>&1
wait $survey
as "a survey ends with 0, and" test $? = 0
as "pv -d of a survey says how far each image is" sh -c "tr '\r' '\n' <shown | grep -q 'a.img.*%' && grep -q 'ETA ' shown"

slower 4
as "reraid-mount" reraid-mount $set look "${images[@]/#/slow/}"
as "it says how to copy it" grep -qx "to copy it, or to continue a copy: ddrescue look/volume FILE FILE.map" before
pv -f -i 0.5 -w 120 look/volume 2>shown >copy
as "pv over a copy from a mount knows the length by itself" parts shown
as "what was copied" cmp copy volume
unmount look
# An nbdfuse that comes late.
mkdir late
printf '#!/bin/sh\nsleep 11\nexec %q "$@"\n' "$(command -v nbdfuse)" >late/nbdfuse
chmod 755 late/nbdfuse
as "reraid-mount of what comes late" env PATH="$folder/late:$PATH" reraid-mount $set look "${images[@]}"
as "it says that it waits" grep -qx 'reraid-mount: waiting for nbdfuse, 10 s' before
as "and shows the volume" cmp look/volume volume
unmount look

slower 4
as "reraid-try on a terminal" on_terminal shown reraid-try --levels 5 --members 4 --room room "${images[@]/#/slow/}"
as "it says how long the rest of the survey takes" grep -qE 'reraid survey: [0-9]+ MiB read, [0-9]+ MiB/s, about [0-9]+ s left' shown
as "it finds the set" grep -qF "5:ls:none:128:2048:0,1,2,3" shown
slower 4
reraid-try --every 2 --levels 5 --members 4 --room room "${images[@]/#/slow/}" >out 2>told
as "reraid-try with both outputs in files" test $? = 0
as "it says what is at work" grep -qE '^[0-9]+:[0-9]{2} .+: (still running|[0-9]+ of [0-9]+.*)$' told
as "and nothing else, nor a bar" sh -c "! grep -vE '^[0-9]+:[0-9]{2} .+: (still running|[0-9]+ of [0-9]+.*)\$' told"
as "it finds the same set" grep -qF "5:ls:none:128:2048:0,1,2,3" out

echo "$cases cases, $failed not as stated"
[ "$failed" = 0 ]
