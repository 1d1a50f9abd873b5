#!/bin/sh
# Mounts the ext4 of an array of sparse files of 8 TiB each, with data in a few places, as `reraid-nbd` shows it, and compares its
# files with those that were put into it. Four members of level 6, of which two are lost. It is to be run as root, and takes a loop
# device, nbdfuse of libnbd, mkfs.ext4 and python3. A step that fails ends it; its last line says how long the mount and the files took.
# Usage: bench/measuring/sparse.sh [FOLDER]
set -eu
beside=$(cd "$(dirname "$0")" && pwd)
server=$(cd "$beside/../../crates/reraid_nbd/out" && pwd)/reraid_nbd
[ -x "$server" ] || { echo "there is no $server: see make build" >&2; exit 1; }
folder=$(mktemp -d "${1:-${TMPDIR:-/tmp}}/reraid-sparse.XXXXXX")
ended() {
    umount "$folder/files" 2>/dev/null || true
    umount "$folder/shown" 2>/dev/null || true
    rm -rf "$folder"
}
trap ended EXIT
cd "$folder"
mkdir put shown files

for number in 1 2 3 4 5 6 7 8 9; do head -c "${number}M" /dev/urandom >"put/$number"; done
truncate -s 15T volume
mkfs.ext4 -q -F -O ^has_journal -m 0 -N 2000000 -d put volume
python3 "$beside/../making/sparse.py" 6 128 2048 17179869184 volume a b c d
rm volume
du -h --apparent-size a | cut -f 1
du -ch a b c d | tail -n 1

begin=$(date +%s%N)
nbdfuse shown --command "$server" set=6:ls:after-q:128:2048:0,-,-,1 -- a d &
tries=100
until [ -e shown/nbd ]; do
    tries=$((tries - 1))
    [ "$tries" -gt 0 ] || { echo "nothing is shown" >&2; exit 1; }
    sleep 0.1
done
mount -o loop,ro,noload shown/nbd files
for number in 1 2 3 4 5 6 7 8 9; do cmp "put/$number" "files/$number"; done
awk -v t="$(($(date +%s%N) - begin))" 'BEGIN { printf "mounted, and 9 files of 45 MiB in all compared, in %.1f s\n", t / 1e9 }'
