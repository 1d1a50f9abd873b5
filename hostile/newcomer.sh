#!/bin/bash
# Tries what someone meets who uses reraid for the first time: how a run of reraid-try ends (SIGHUP, a terminal that is closed, SIGKILL and --clean),
# reports that are never empty, the lines to type pasted at once and those that end them, refusals that name their object, a warning of
# reraid-mount, and programs that are replaced while they run. Its last line says how many cases were as stated; status 1 where one was not.
# As root; needs FUSE and the Debian packages libnbd-bin, e2fsprogs and qemu-utils.
# Usage: hostile/newcomer.sh PROGRAM SERVER
set -u
[ $# -eq 2 ] || { sed -n 's/^# \(Usage.*\)/\1/p' "$0"; exit 2; }
here=$(cd "$(dirname "$0")" && pwd)
program=$(realpath "$1") server=$(realpath "$2")
export PATH=$PATH:/usr/sbin:/sbin LC_ALL=C.UTF-8
[ "$(id -u)" = 0 ] || { echo "newcomer.sh: nothing was tried: it mounts volumes, as root" >&2; exit 2; }
for tool in nbdfuse mke2fs qemu-img qemu-nbd; do
    command -v $tool >/dev/null || { echo "newcomer.sh: nothing was tried, since there is no $tool" >&2; exit 2; }
done
# All mounts are in a name space of its own, so that /mnt is free.
if [ "${NEWCOMER_APART-}" != yes ]; then
    export NEWCOMER_APART=yes
    exec unshare -m "$0" "$@"
fi
mount -t tmpfs none /mnt || exit 2
folder=$(mktemp -d "${TMPDIR:-/tmp}/reraid-newcomer.XXXXXX") || exit 2
ended() {
    cd / && awk -v folder="$folder" 'index($2, folder) == 1 {print $2}' /proc/self/mounts | sort -r | xargs -r umount -l
    rm -rf "$folder"
}
trap ended EXIT
cd "$folder" || exit 2
# As it is installed.
mkdir -p bin libexec/reraid tree room slow
cp "$here"/../bin/* bin && cp -r "$here/../lib" lib && cp "$here/../VERSION" libexec/reraid
cp "$program" bin/reraid
ln -s "$server" libexec/reraid/reraid-nbd
export PATH=$folder/bin:$here/../bench/making:$PATH
cases=0 failed=0

# as NAME COMMAND..: a case, which is as stated where the command ends with 0
as() {
    local name=$1
    shift
    cases=$((cases + 1))
    if "$@" >log 2>&1; then
        echo "ok $name"
    else
        failed=$((failed + 1))
        echo "FAILED $name: $(head -c 600 log | tr '\n' '|')"
    fi
}

# ends STATUS TEXT COMMAND..: it ends with that status, and says the text
ends() {
    local status=$1 text=$2 got
    shift 2
    "$@" </dev/null >said 2>&1
    got=$?
    [ $got = "$status" ] && grep -qF -- "$text" said || { echo "status $got"; cat said; return 1; }
}

# soon COMMAND..: it ends with 0 within twenty seconds
soon() { for _ in $(seq 200); do "$@" && return 0; sleep 0.1; done; return 1; }

mounted() { grep -q "^[^ ]* $folder/room/" /proc/self/mounts; }
not() { ! "$@"; }
# of_run: the numbers of the processes that a run in this room started
of_run() { grep -lazs "^RERAID_TRY_ROOM=$folder/room/" /proc/[0-9]*/environ | cut -d / -f 3; }
# nothing: no mount, folder and process of a run is left
nothing() { ! mounted && [ -z "$(ls room)" ] && [ -z "$(of_run)" ]; }

for number in 1 2 3; do head -c 1M /dev/urandom | gzip >"tree/$number.gz"; done
mke2fs -q -t ext4 -d tree made 24M
disks.py 6 128 made d.img a.img e.img c.img b.img
rm e.img
# A checker that takes long, so that a run is ended while a volume is mounted.
printf '#!/bin/sh\nexec sleep 1000\n' >slow/e2fsck
chmod 755 slow/e2fsck
line=(reraid-try --room "$folder/room" --time 600 --resume kept --report page.html a.img b.img c.img d.img)

# begun: a run that hangs in a checker, with a volume mounted; its number is in `run`
begun() {
    PATH=$folder/slow:$PATH "${line[@]}" >out 2>err </dev/null &
    run=$!
    soon mounted
}

# ended_by SIGNAL: the run that was begun ends by it, with 130
ended_by() { kill "-$1" $run && wait $run; [ $? = 130 ]; }

echo "== how a run ends"
for signal in HUP TERM INT; do
    rm -f kept page.html
    as "a run begins" begun
    as "no report is there before its end" test ! -e page.html
    as "SIG$signal ends it with 130" ended_by $signal
    as "nothing is left" soon nothing
    as "its report is whole" grep -qF '</html>' page.html
    as "it says that the run was interrupted" grep -qF 'it was interrupted' page.html
done
as "the same words go on, and replace the report" ends 0 "reused from kept" "${line[@]}"
as "that report is of a run that ended by itself" not grep -qF 'it was interrupted' page.html
as "without --resume it is not written over" ends 2 "page.html exists already" reraid-try --report page.html a.img b.img c.img d.img
rm -f kept page.html

# A terminal that is closed: the run is in the foreground of a shell's session.
cat >closed.py <<'END'
import os, pty, sys, time
number, master = pty.fork()
if number == 0:
    os.execvp(sys.argv[2], sys.argv[2:])
until = time.time() + 60
while time.time() < until and not any(sys.argv[1] in line for line in open("/proc/self/mounts")):
    os.set_blocking(master, False)
    try:
        os.read(master, 65536)
    except BlockingIOError:
        pass
    time.sleep(0.1)
os.close(master)
_, status = os.waitpid(number, 0)
print(os.waitstatus_to_exitcode(status))
END
as "a terminal that is closed ends a run with 130" test "$(PATH=$folder/slow:$PATH python3 closed.py "$folder/room/" "${line[@]}")" = 130
as "nothing is left then" soon nothing
as "and the report is whole" grep -qF '</html>' page.html
rm -f kept page.html
as "a run under nohup" sh -c "trap '' HUP; PATH=$folder/slow:\$PATH ${line[*]} >out 2>err </dev/null & echo \$! >number"
run=$(cat number)
soon mounted
kill -HUP "$run"
sleep 2
as "goes on after SIGHUP" kill -0 "$run"
kill "$run"
as "and ends by SIGTERM" soon nothing
rm -f kept page.html

as "another run begins" begun
kill -KILL $run
wait $run 2>/dev/null
as "a killed run leaves its mount" mounted
as "and no report" test ! -e page.html
sleep 2
as "the next run goes on all the same" ends 0 "candidate 0: RAID 6" reraid-try --room "$folder/room" a.img b.img c.img d.img
as "and says what was left, and how to remove it" sh -c "tr -s ' \n' ' ' <said | grep -qE 'a killed run left $folder/room/reraid-try[.][^ ]* with 1 mount and [0-9]+ process.*To remove it: reraid-try --clean --room $folder/room '"
as "--clean removes it" ends 0 "removed $folder/room/reraid-try." reraid-try --clean --room room
as "all of it" nothing
as "and then nothing is left" ends 0 "no killed run left anything" reraid-try --clean --room room

echo "== what is typed"
# pasted NAME IMAGE..: the lines of the best candidate, pasted at once, mount its files, and those that end it leave nothing
pasted() {
    local name=$1 before
    shift
    reraid-try --json --room room "$@" >events 2>err
    python3 - <<'END'
import json
found = [it for it in map(json.loads, open("events")) if it["event"] == "words" and "set" in it]
open("do", "w").write("\n".join(found[0]["commands"]) + "\n")
open("undo", "w").write("\n".join(found[0]["ends"]) + "\n")
END
    before=$(cat /proc/self/mounts)
    as "$name: the lines" bash <do
    as "$name: the files are there" diff -r -x lost+found tree /mnt
    as "$name: what ends them" bash <undo
    as "$name: nothing is mounted any more" soon test "$(cat /proc/self/mounts)" = "$before"
    as "$name: no line needs another one to be waited for" not grep -qE 'nbdfuse .*candidate0' do
    rm -rf candidate0 opened
}
pasted "a RAID 6 with a disk lost" a.img b.img c.img d.img
qemu-img convert -O qcow2 c.img c.qcow2
pasted "a disk in a container" a.img b.img c.qcow2 d.img
cp d.img whole.img
length=$(stat -c %s d.img)
dd if=/dev/zero of=d.img bs=512 seek=9000 count=64 conv=notrunc status=none
printf '0 + 1\n0 %d +\n%d %d -\n%d %d +\n' $((9000 * 512)) $((9000 * 512)) $((64 * 512)) $((9064 * 512)) $((length - 9064 * 512)) >d.map
qemu-img convert -O qcow2 d.img e.qcow2 && cp d.map e.map && mv d.img d.map slow
pasted "a damaged disk in a container, with its map" a.img b.img c.img e.qcow2
as "its maps are typed" grep -q '^printf .*candidate0.maps' do
mv slow/d.* .
ln -s "$folder/d.img" link
as "the map of a link is found beside its file" ends 0 "$folder/d.map" reraid-try --room room a.img b.img c.img link
rm d.map && mv whole.img d.img

echo "== refusals"
set=6:ls:after-q:128:2048:3,0,-,2,1
images=(a.img b.img c.img d.img)
: >empty
mkdir disks look
as "reraid-mount without DIR" ends 1 "a.img is a file: give a folder between the layout" reraid-mount $set "${images[@]}"
as "without anything behind the set" ends 1 "give DIR after the layout" reraid-mount $set
as "without images" ends 1 "give the images after look" reraid-mount $set look
as "without a set" ends 1 "look: give a layout first" reraid-mount look "${images[@]}"
as "an option that it has not" ends 1 "--map: unknown option" reraid-mount --map x $set look "${images[@]}"
as "an image that is not there" ends 10 "nothing: No such file" reraid-mount $set look a.img b.img c.img nothing
as "an image that is empty" ends 7 "empty is empty: leave it out" reraid-mount $set look a.img b.img c.img empty
as "an image that is named twice" ends 1 "a.img is given twice" reraid-mount $set look a.img b.img c.img a.img
as "an image that is a folder" ends 10 "disks is a folder: give the images in it, such as disks/*" reraid-nbd set=$set -- a.img b.img c.img disks
as "reraid-try: an image that is not there" ends 2 "nothing: No such file" reraid-try a.img nothing
as "reraid-try: a folder" ends 2 "disks is a folder: give the images in it, such as disks/*" reraid-try disks
as "reraid-try: an empty image" ends 2 "empty is empty: leave it out" reraid-try a.img empty
as "reraid-try: one image twice" ends 2 "link and d.img are the same file" reraid-try a.img d.img link
as "reraid-try: no image" ends 2 "give the images of all disks" reraid-try
truncate -s 8M zeros.1 zeros.2
as "images of zeros end the search" ends 1 "nothing but zeros: there is nothing to search" reraid-try --room room zeros.1 zeros.2
for name in reraid reraid-nbd reraid-mount; do
    for word in --help -h help; do as "$name $word" ends 0 "usage: $name " $name $word; done
done
as "reraid list --help" ends 1 "word 2 is not understood" reraid list --help
as "reraid help list" ends 1 "word 1 is not understood" reraid help list
as "reraid-mount of the true set" ends 0 "look/volume is the volume, read-only, " reraid-mount $set look "${images[@]}"
as "says no warning" not grep -q warning said
umount look
as "images in a wrong order" ends 0 "warning: look/volume begins with no known file system" reraid-mount 6:ls:after-q:128:2048:3,2,-,0,1 look "${images[@]}"
umount look
as "with an end" ends 0 "look/volume is the volume, read-only, $((40 * 128 * 3 * 512)) bytes" reraid-mount --end $((2048 + 40 * 128)) $set look "${images[@]}"
umount look

echo "== a program that runs is replaced"
mkdir place
"$here/../bench/making/put.sh" 755 bin/reraid place
mkfifo wait
place/reraid classes images=3 end=9 -- <wait >out 2>err &
run=$!
exec 9>wait
runs() { [ "$(readlink /proc/$run/exe)" = "$folder/place/reraid" ]; }
as "a program runs" soon runs
as "a copy in its place fails" not cp bin/reraid place/reraid
as "put.sh replaces it" "$here/../bench/making/put.sh" 755 bin/reraid place
echo "0 5:ls:none:1:0:0,1,2" >&9
exec 9>&-
wait $run
as "and it goes on to its end" grep -qx "classes 1 of 1" out
as "nothing else is left in the folder" test "$(ls -A place)" = reraid

echo "$cases cases, $failed not as stated"
[ "$failed" = 0 ]
