#!/bin/bash
# Tries bin/reraid-nbd with clients that hand it a listening socket, over an array of level 5 with a lost member: nbdcopy and nbdinfo with a
# command in brackets, several clients side by side, refused words, clients that go away, and that nothing is left running. What is read is
# compared with what `reraid write` puts. Its last line says how many cases were as stated; status 1 where one was not.
# Needs the Debian packages libnbd-bin and python3.
# Usage: hostile/sockets.sh PROGRAM SERVER
set -u
[ $# -eq 2 ] || { sed -n 's/^# \(Usage.*\)/\1/p' "$0"; exit 2; }
here=$(cd "$(dirname "$0")" && pwd)
program=$(realpath "$1") server=$(realpath "$2")
folder=$(mktemp -d "${TMPDIR:-/tmp}/reraid-sockets.XXXXXX") || exit 2
trap 'rm -rf "$folder"' EXIT
cd "$folder" || exit 2
# As it is installed.
mkdir -p bin libexec/reraid
cp "$here/../bin/reraid-nbd" bin && cp -r "$here/../lib" lib && cp "$here/../VERSION" libexec/reraid
ln -s "$program" bin/reraid
ln -s "$server" libexec/reraid/reraid-nbd
export PATH=$folder/bin:$PATH
cases=0 failed=0

# as NAME COMMAND..: a case, which is as stated where the command ends with 0
as() {
    local name=$1
    shift
    cases=$((cases + 1))
    if "$@" >log 2>&1; then
        echo "ok $name"
    else
        failed=$((failed + 1))
        echo "FAILED $name: $(head -c 400 log | tr '\n' '|')"
    fi
}

# ends STATUS TEXT COMMAND..: it ends with that status, and says the text
ends() {
    local status=$1 text=$2
    shift 2
    "$@" >said 2>&1
    [ $? = "$status" ] && grep -qF -- "$text" said
}

# gone: within some seconds no server over the images of this folder is left
gone() {
    for _ in $(seq 100); do
        ps -eo args | grep -F "$folder/" | grep -vq grep || return 0
        sleep 0.1
    done
    return 1
}

# together: clients that read side by side from one socket all get the volume
together() {
    python3 - "$folder/bin/reraid-nbd" "${words[@]}" <<'END'
import os
import socket
import subprocess
import sys

listener = socket.socket(socket.AF_UNIX)
listener.bind("socket")
listener.listen(8)
number = os.fork()
if number == 0:
    os.dup2(listener.fileno(), 3)
    os.set_inheritable(3, True)
    os.environ |= {"LISTEN_FDS": "1", "LISTEN_PID": str(os.getpid())}
    os.execv(sys.argv[1], sys.argv[1:])
listener.close()
copies = [subprocess.Popen(["nbdcopy", "nbd+unix:///?socket=socket", f"copy{k}"]) for k in range(4)]
good = [child.wait() == 0 for child in copies] + [open(f"copy{k}", "rb").read() == open("volume", "rb").read() for k in range(4)]
os.kill(number, 15)
_, status = os.waitpid(number, 0)
sys.exit(not (all(good) and status == 0))
END
}

# killed: a client that is killed leaves nothing behind
killed() {
    nbdinfo --size -- [ reraid-nbd "${words[@]}" ] >/dev/null || return 1
    python3 - "${words[@]}" <<'END'
import subprocess
import sys
import time

client = subprocess.Popen(["nbdcopy", "--", "[", "reraid-nbd", *sys.argv[1:], "]", "-"], stdout=subprocess.PIPE)
client.stdout.read(1 << 16)
time.sleep(0.2)
client.kill()
client.wait()
END
    gone
}

head -c 24M /dev/urandom >made
"$here/../bench/making/disks.py" 5 128 made "a b.img" b.img c.img d.img
set=5:ls:none:128:2048:0,-,1,2
words=("set=$set" -- "$folder/a b.img" "$folder/c.img" "$folder/d.img")
reraid write "${words[@]}" >volume || exit 2

as "nbdinfo says the size" test "$(nbdinfo --size -- [ reraid-nbd "${words[@]}" ])" = "$(stat -c %s volume)"
as "nbdinfo says what it is" ends 0 "is_read_only: true" nbdinfo -- [ reraid-nbd "${words[@]}" ]
for connections in 1 4; do
    as "nbdcopy, $connections connections" nbdcopy --connections=$connections -- [ reraid-nbd "${words[@]}" ] copy
    as "what it copied" cmp copy volume
    rm -f copy
done
as "four clients of one socket" together
as "a socket that is for another process" test "$(LISTEN_FDS=1 LISTEN_PID=1 nbdfuse --version >/dev/null; LISTEN_FDS=1 LISTEN_PID=1 reraid-nbd "${words[@]}" </dev/null | head -c 8)" = NBDMAGIC
as "a refused word" ends 1 "word 1 is not understood" nbdcopy -- [ reraid-nbd set=5:left-symmetric:none:128:2048:0,-,1,2 -- "${words[@]:2}" ] copy
as "what was expected" grep -qF "reraid-nbd: left-symmetric (did you mean ls?)" said
as "an image that is not there" ends 1 "image read fault" nbdcopy -- [ reraid-nbd "set=$set" -- nothing b.img c.img ] copy
as "a set with a fault" ends 7 "set rule 6 value 1" reraid-nbd set=5:ls:none:128:2048:0,1,1 -- "${words[@]:2}"
as "--version" ends 0 "reraid-nbd $(cat "$here/../VERSION")" reraid-nbd --version
as "--help" ends 0 "usage: reraid-nbd set=SET" reraid-nbd --help
as "--help with more" ends 1 "word 1 is not understood" reraid-nbd --help more
as "a client that is killed" killed
as "nothing is left" gone

echo "$cases cases, $failed not as stated"
[ "$failed" = 0 ]
