#!/bin/sh
# Times `reraid-nbd`: nbdcopy of the volume to null: beside `write` to /dev/null, best of three runs each, and random reads of 4 KiB,
# from the page cache. Four and eight members of level 6, left-symmetric with the order after Q, in chunks of 64 KiB: zeros for
# data, P and Q, which agree in every row, so members can be lost and found. It takes nbdcopy of libnbd, and python3.
# Usage: bench/measuring/nbd.sh [MEGABYTES] [FOLDER]
set -eu
beside=$(cd "$(dirname "$0")" && pwd)
server=$(cd "$beside/../../crates/reraid_nbd/out" && pwd)/reraid_nbd
[ -x "$server" ] || { echo "there is no $server: see make build" >&2; exit 1; }
. "$beside/folder.sh"

for name in a b c d e f g h; do head -c "${megabytes}M" /dev/zero >"$name"; done

# copied: nbdcopy of what the server at the socket shows
copied() {
    nbdcopy "nbd+unix:///?socket=$folder/socket" null:
}

# listening COMMAND..: clients of the socket get this server from now on
listening() {
    if [ -n "${listener:-}" ]; then kill "$listener"; fi
    rm -f socket
    python3 "$beside/nbd_listen.py" socket "$@" &
    listener=$!
    trap 'kill "$listener"; rm -rf "$folder"' EXIT
    until [ -S socket ]; do sleep 0.1; done
}

# against NAME SET IMAGE..: the server beside `write`, and its random reads
against() {
    name=$1
    set=$2
    shift 2
    listening "$server" "set=$set" -- "$@"
    awk -v n="$name" -v w="$(best 3 /dev/null "$program" write "set=$set" -- "$@")" -v t="$(best 3 /dev/null copied)" \
        -v r="$(python3 "$beside/nbd_reads.py" 20000 4096 "$server" "set=$set" -- "$@")" 'BEGIN {
        printf "%s: write %.3f s, nbdcopy %.3f s, ratio 1:%.2f; %d random reads of 4 KiB a second\n", n, w / 1e9, t / 1e9, t / w, r
    }'
}

uname -srm
sed -n 's/^model name[^:]*: //p' /proc/cpuinfo | head -n 1
echo "members of $megabytes MiB, chunks of 64 KiB, from the page cache"
against "4 members, none lost" 6:ls:after-q:128:0:0,1,2,3 a b c d
against "4 members, two lost" 6:ls:after-q:128:0:-,-,0,1 a b
against "8 members, none lost" 6:ls:after-q:128:0:0,1,2,3,4,5,6,7 a b c d e f g h
against "8 members, two lost" 6:ls:after-q:128:0:-,-,0,1,2,3,4,5 a b c d e f
