#!/bin/bash
# Times reraid-try over images of large disks that lie on simulated hard disks of their own (slow_disk.py): at the pace of their platters, with their
# seeks, and with nothing in the cache. No holes are told of, so the first pass reads all that it may. It is to be run as root, and takes nbdkit with its
# python plugin, nbdfuse of libnbd and loop devices.
# Usage: bench/measuring/large_slow.sh IMAGE.. [-- OPTION..], with options of reraid-try
# In the environment PACE is in megabytes a second, SEEK in milliseconds, and AHEAD in KiB.
set -eu
beside=$(cd "$(dirname "$0")" && pwd)
top=$(cd "$beside/../.." && pwd)
images=()
while [ $# -gt 0 ] && [ "$1" != -- ]; do images+=("$(realpath "$1")"); shift; done
[ $# -eq 0 ] || shift
folder=$(mktemp -d "${TMPDIR:-/tmp}/reraid-slow.XXXXXX")
devices=()
ended() {
    set +e
    for device in "${devices[@]}"; do losetup -d "$device"; done
    for number in "${!images[@]}"; do umount -l "$folder/$number/disk"; kill "$(cat "$folder/$number/pid")"; done 2>/dev/null
    rm -rf "$folder"
}
trap ended EXIT
trap 'exit 130' INT TERM HUP
for number in "${!images[@]}"; do
    here=$folder/$number
    mkdir "$here"
    nbdkit -r -U "$here/socket" -P "$here/pid" python "$beside/slow_disk.py" file="${images[number]}" pace="${PACE:-150}" seek="${SEEK:-8}"
    until [ -s "$here/pid" ]; do sleep 0.1; done
    : >"$here/disk"
    nbdfuse -r "$here/disk" --unix "$here/socket" &
    until [ "$(stat -c %s "$here/disk")" -gt 0 ]; do sleep 0.1; done
    device=$(losetup -r -f --show "$here/disk")
    devices+=("$device")
    blockdev --setra $((2 * ${AHEAD:-8192})) "$device"
done
begin=$(date +%s%N)
status=0
PATH=$top/crates/reraid/out:$top/bin:$PATH reraid-try "$@" "${devices[@]}" || status=$?
awk -v t="$(($(date +%s%N) - begin))" -v n="${#images[@]}" 'BEGIN { printf "%d disks, %.0f s\n", n, t / 1e9 }'
exit "$status"
