#!/bin/bash
# Runs the program in hostile surroundings, and compares status, line on standard error and bytes on standard output with what
# docs/STATUSES.md says. Each run has twenty seconds; a signal is never right, but where the kernel lets the stack not grow for want of memory, as
# the address of the fault shows, and nothing was put. At the end the images hold what they held, and a trace
# of the system calls shows that they were opened for reading alone.
#
# Usage: hostile/surroundings.sh PROGRAM [FOLDER]
# Needs bash, python3, setpriv and strace; as root, for the run of a user without permission.
set -u
given=$(realpath "$1") || exit 2
folder=$(mktemp -d "${2:-${TMPDIR:-/tmp}}/reraid-hostile.XXXXXX") || exit 2
trap 'chmod -R u+rwx "$folder"; rm -rf "$folder"' EXIT
chmod 755 "$folder"
cd "$folder" || exit 2
cp "$given" program && chmod 755 program
program=./program

runs=0
failures=0

# image NAME BYTES..: an image with a sector of each of these bytes
image() {
    python3 - "$@" <<'END'
import sys
with open(sys.argv[1], "wb") as file:
    file.write(b"".join(bytes([int(byte)]) * 512 for byte in sys.argv[2:]))
END
}

# judge NAME STATUS LINE OUT: compares what the last run left: `status`, and the files err and out. OUT is a file, or empty for nothing,
# or - for anything
judge() {
    runs=$((runs + 1))
    printf '%s' "${3:+$3
}" >wanted
    if [ "$status" != "$2" ] || ! cmp -s wanted err || { [ "$4" != - ] && ! cmp -s "${4:-/dev/null}" out; }; then
        failures=$((failures + 1))
        echo "FAILED $1: status $status, not $2; standard error: $(head -c 200 err | tr '\n' '|'); $(wc -c <out) bytes put"
    else
        echo "ok $1: $2${3:+, $3}"
    fi
}

# expect NAME STATUS LINE OUT WORDS..: a run whose streams are the plan and two files
expect() {
    local name=$1 wanted=$2 line=$3 left=$4
    shift 4
    timeout 20 "$program" "$@" <plan >out 2>err
    status=$?
    judge "$name" "$wanted" "$line" "$left"
}

# through NAME STATUS LINE OUT REDIRECTIONS WORDS..: a run with redirections of the shell
through() {
    local name=$1 wanted=$2 line=$3 left=$4 redirections=$5
    shift 5
    : >out
    : >err
    timeout 20 bash -c "exec \"\$@\" $redirections" bash "$program" "$@"
    status=$?
    judge "$name" "$wanted" "$line" "$left"
}

image a 1 2
image b 3 4
image c 2 6
image volume 1 3 6 2
image member 1 2
cat >plan <<'END'
reraid-plan 1
images 3
length 2
length 2
length 2
end 2
levels 5
members 3
patterns ls
syndromes none
chunks 1
offsets 0
origins 0
missing 0
foreign 0
badrows 0
window 2
misfits 0
least 1
done
END
printf '%s\n' "0 5:ls:none:1:0:0,1,2" "1 5:ls:none:1:0:0,2,1" "2 5:ls:none:1:0:1,0,2" "3 5:ls:none:1:0:1,2,0" \
    "4 5:ls:none:1:0:2,0,1" "5 5:ls:none:1:0:2,1,0" "next 6 of 6" >listing
printf '%s\n' "0 5:ls:none:1:0:0,1,2" "1 5:ls:none:1:0:0,2,1" "2 5:ls:none:1:0:1,0,2" "3 5:ls:none:1:0:1,2,0" \
    "4 5:ls:none:1:0:2,0,1" "5 5:ls:none:1:0:2,1,0" "classes 6 of 6" >classed
printf '%s\n' "row 1 item 0 slot 2 image 2 sector 1 p 1 q -" "name left-symmetric" >place
: >empty
echo "classes 0 of 0" >none
printf '%s\n' "rows 0 0 zero - tied 1=3*0 2=2*0" "rows 1 1 zero - tied 1=2*0 2=3*0" "together 0,1,2 in 2 rows" "alone -" "free 0 of 2" >related
head -c 1000 a >thousand
head -c 511 a >short
sha256sum a b c empty thousand short >sums
set=5:ls:none:1:0:0,1,2

fault="reraid: image read fault"
output="reraid: output fault"
noplan="reraid: plan line 1 is not understood"
far="reraid: cursor 7 is past 6"

echo "== as it should be"
expect "a listing" 0 "" listing list -- a b c
expect "a volume" 0 "" volume write set=$set -- a b c
expect "a member" 0 "" member rebuild set=5:ls:none:1:0:-,0,1 slot=0 -- b c
expect "a place" 0 "" place map set=$set sector=2 -- a b c
through "classes" 0 "" classed '<listing >out 2>err' classes images=3 end=2 --
expect "relations" 0 "" related relations -- a b c

echo "== standard descriptors that are closed"
through "input, of a listing" 2 "$noplan" "" '<&- >out 2>err' list -- a b c
through "input, of a test" 2 "$noplan" "" '<&- >out 2>err' check set=$set -- a b c
through "input, of a volume" 0 "" volume '<&- >out 2>err' write set=$set -- a b c
through "output, of a listing" 12 "$output" "" '<plan >&- 2>err' list -- a b c
through "output, of a place" 12 "$output" "" '<plan >&- 2>err' map set=$set sector=2 -- a b c
through "output, of a volume" 12 "$output" "" '<plan >&- 2>err' write set=$set -- a b c
through "output, of a survey" 12 "$output" "" '<plan >&- 2>err' survey -- a b c
through "error, of a listing" 0 "" listing '<plan >out 2>&-' list -- a b c
through "error, of a cursor past the total" 6 "" "" '<plan >out 2>&-' list from=7 -- a b c
through "input and output" 2 "$noplan" "" '<&- >&- 2>err' list -- a b c
through "output and error" 12 "" "" '<plan >&- 2>&-' list -- a b c
through "input and error" 0 "" volume '<&- >out 2>&-' write set=$set -- a b c
through "input, of classes" 0 "" none '<&- >out 2>err' classes images=3 end=2 --
through "output, of classes" 12 "$output" "" '<listing >&- 2>err' classes images=3 end=2 --
through "input, of relations" 0 "" related '<&- >out 2>err' relations -- a b c
through "output, of relations" 12 "$output" "" '<plan >&- 2>err' relations -- a b c
through "output, of the help" 12 "$output" "" '<plan >&- 2>err' --help
through "output, of the version" 12 "$output" "" '<plan >&- 2>err' --version
through "all, of a listing" 2 "" "" '<&- >&- 2>&-' list -- a b c
through "all, of a volume" 12 "" "" '<&- >&- 2>&-' write set=$set -- a b c
through "all, of words that are none" 1 "" "" '<&- >&- 2>&-' nothing

echo "== streams that fail"
through "a full disk, of a listing" 12 "$output" "" '<plan >/dev/full 2>err' list -- a b c
through "a full disk, of a volume" 12 "$output" "" '<plan >/dev/full 2>err' write set=$set -- a b c
through "a full disk, of a member" 12 "$output" "" '<plan >/dev/full 2>err' rebuild set=5:ls:none:1:0:-,0,1 slot=0 -- b c
through "a full disk, of a survey" 12 "$output" "" '<plan >/dev/full 2>err' survey -- a b c
through "a full disk, of classes" 12 "$output" "" '<listing >/dev/full 2>err' classes images=3 end=2 --
through "a full disk, of relations" 12 "$output" "" '<plan >/dev/full 2>err' relations -- a b c
through "a full disk, of the help" 12 "$output" "" '<plan >/dev/full 2>err' --help
through "a full disk for the line" 6 "" "" '<plan >out 2>/dev/full' list from=7 -- a b c
through "output that is open for reading" 12 "$output" "" '<plan 1<empty 2>err' list -- a b c
through "input that is open for writing" 11 "reraid: plan read fault" "" '0>>empty >out 2>err' list -- a b c
through "input that is a folder" 11 "reraid: plan read fault" "" '<. >out 2>err' list -- a b c
through "input without an end, of zeros" 3 "reraid: plan is longer than 4194304 bytes" "" '</dev/zero >out 2>err' list -- a b c
through "input without an end, of lines" 3 "reraid: plan is longer than 4194304 bytes" "" '< <(yes) >out 2>err' list -- a b c
through "input that is a folder, of classes" 11 "reraid: plan read fault" "" '<. >out 2>err' classes images=3 end=2 --
through "input without an end, of classes" 3 "reraid: set list is longer than 4194304 bytes" "" '</dev/zero >out 2>err' classes images=3 end=2 --
through "a plan for classes" 13 "reraid: set line 1 is not understood" "" '<plan >out 2>err' classes images=3 end=2 --
through "input without an end, of a volume" 0 "" volume '</dev/zero >out 2>err' write set=$set -- a b c

# a volume of 64 MiB, so that the pipe is full before its reader leaves
truncate -s 32M x y z
: >out
timeout 20 "$program" write set=5:ls:none:128:0:0,1,2 -- x y z 2>err | head -c 100 >/dev/null
status=${PIPESTATUS[0]}
judge "a pipe whose reader leaves, of a volume" 12 "$output" ""
timeout 20 "$program" list -- a b c <plan 2>err | true
status=${PIPESTATUS[0]}
case $status in
    0) judge "a pipe whose reader leaves, of a listing that was there before" 0 "" "" ;;
    *) judge "a pipe whose reader leaves, of a listing" 12 "$output" "" ;;
esac

echo "== names"
mkfifo fifo
mkdir inside
python3 -c 'import socket; socket.socket(socket.AF_UNIX).bind("socket")'
ln -s a link
ln -s nothing broken
ln -s loop loop
long=$(printf 'n%.0s' $(seq 255))
cp a "$long"
for name in absent inside fifo socket /dev/null /dev/zero /dev/full /dev/tty broken loop a/ a/b "" "$(printf 'n%.0s' $(seq 256))" \
    "$(printf 'n%.0s' $(seq 4096))" "$(printf './%.0s' $(seq 2048))a"; do
    for command in "survey" "list" "check set=$set" "map set=$set sector=0" "write set=$set" "rebuild set=5:ls:none:1:0:-,0,1 slot=0" \
        "mirrors" "mirrorwrite set=near2:1:0:0,1,2" "salvage set=$set" "salvage set=$set form=lost" "relations"; do
        expect "${command%% *} with the name ${name:0:20}" 10 "$fault" "" $command -- a "$name" c
    done
done
expect "a link" 0 "" listing list -- link b c
expect "a name of 255 bytes" 0 "" listing list -- "$long" b c
expect "images of 1000, 511 and 0 bytes" 4 "reraid: images: length 0 given 1 planned 2" "" list -- thousand short empty
expect "an image without a sector" 7 "reraid: set rule 8 value 0" "" write set=$set -- empty empty empty
if device=$(losetup --find --show --read-only a 2>/dev/null); then
    expect "a block device" 0 "" listing list -- "$device" b c
    through "a block device, of a volume" 0 "" volume '<plan >out 2>err' write set=$set -- "$device" b c
    losetup --detach "$device"
    expect "a block device without a medium" 7 "reraid: set rule 8 value 0" "" write set=$set -- "$device" b c
else
    echo "left out: there is no loop device to be had"
fi
expect "one name twice" 0 "" - list -- a a c
expect "the name --" 10 "$fault" "" list -- -- b c

echo "== words"
expect "none" 1 "reraid: word 1 is not understood" ""
expect "one that is not text" 1 "reraid: word 1 is not understood" "" list -- a b $'\xff'
expect "--help" 0 "" - --help
expect "--version" 0 "" - --version
expect "--help and more" 1 "reraid: word 1 is not understood" "" --help --version
expect "one of 100,000 digits" 1 "reraid: word 2 is not understood" "" list "from=$(printf '1%.0s' $(seq 100000))" -- a b c
expect "no name" 4 "reraid: images: count given 0 planned 3" "" list --

echo "== very many names"
ulimit -S -n "$(ulimit -H -n)"
python3 - "$program" >many 2>many.err <<'END'
import resource
import subprocess
import sys
limit = 65600
try:
    resource.setrlimit(resource.RLIMIT_NOFILE, (limit, limit))
except (ValueError, OSError):
    print("refused")
    sys.exit(0)
for count in (65535, 65536, 65537, 70000):
    run = subprocess.run([sys.argv[1], "survey", "--", *["a"] * count], capture_output=True, timeout=60)
    assert not run.stdout
    print(count, run.returncode, run.stderr.decode(), end="")
END
if [ "$(cat many)" = refused ]; then
    # so many files may not be opened here: the names are attached up to that
    python3 - "$program" >many 2>err <<'END'
import subprocess
import sys
sys.exit(subprocess.run([sys.argv[1], "survey", "--", *["a"] * 65537], stdout=sys.stdout, stderr=sys.stderr, timeout=60).returncode)
END
    status=$?
    cp many out
    judge "65537 names, of which $(ulimit -n) files at most may be open" 10 "$fault" ""
else
    for count in 65535 65536 65537 70000; do
        status=$(sed -n "s/^$count \([0-9]*\) .*/\1/p" many)
        sed -n "s/^$count [0-9]* //p" many >err
        : >out
        judge "$count names" 4 "reraid: images: count given $count planned 24" ""
    done
fi

echo "== no permission"
cp a secret
chmod 000 secret
if [ "$(id -u)" = 0 ]; then
    timeout 20 setpriv --reuid=65534 --regid=65534 --clear-groups "$program" survey -- secret >out 2>err
    status=$?
    judge "an image that may not be read" 10 "$fault" ""
    mkdir hidden
    cp a hidden/a
    chmod 700 hidden
    timeout 20 setpriv --reuid=65534 --regid=65534 --clear-groups "$program" survey -- hidden/a >out 2>err
    status=$?
    judge "an image in a folder that may not be searched" 10 "$fault" ""
    timeout 20 setpriv --reuid=65534 --regid=65534 --clear-groups "$program" list -- a b c <plan >out 2>err
    status=$?
    judge "images of another user that may be read" 0 "" listing
else
    expect "an image that may not be read" 10 "$fault" "" survey -- secret
fi

echo "== few open files and little memory"
python3 - "$program" >limits <<'END'
import re
import resource
import signal
import subprocess
import sys

program = sys.argv[1]
plan = open("plan", "rb").read()
# Where the stack ends when addresses are not at random, and how long it may grow.
TOP, LONGEST = 0x7ffffffff000, 8 << 20
files = {name: open(name, "rb").read() for name in ("listing", "volume", "member", "related")}
runs = [
    (["list", "--", "a", "b", "c"], files["listing"]),
    (["write", "set=5:ls:none:1:0:0,1,2", "--", "a", "b", "c"], files["volume"]),
    (["rebuild", "set=5:ls:none:1:0:-,0,1", "slot=0", "--", "b", "c"], files["member"]),
    (["check", "set=5:ls:none:1:0:0,1,2", "--", "a", "b", "c"], b"rank 0\nunsound 0 of 2\npass\n"),
    (["survey", "--", "a", "b", "c"], None),
    (["relations", "--", "a", "b", "c"], files["related"]),
    (["write", "set=5:ls:none:32768:0:0,1,2", "--", "x", "y", "z"], bytes(2 * 32 * 2 ** 20)),
]


def run(words, kind, limit):
    """Status, output and line of a run under a limit; None where the system does not come as far as the program."""
    def bound():
        resource.setrlimit(kind, (limit, limit))
    try:
        ran = subprocess.run([program, *words], input=plan, capture_output=True, timeout=60, preexec_fn=bound)
    except (OSError, subprocess.SubprocessError):
        return None
    return None if ran.returncode == 127 else (ran.returncode, ran.stdout, ran.stderr)


def stack_is_refused(words, limit):
    """The run ends by a fault within its stack, which the kernel does not let grow under this limit on memory: so it ends any program."""
    ended = subprocess.run(["setarch", "-R", "strace", "-o", "faults", "-e", "trace=none", "prlimit", f"--as={limit}", program, *words],
                           input=plan, capture_output=True, timeout=60)
    found = ended.returncode in (-signal.SIGSEGV, 128 + signal.SIGSEGV) and re.search(r"SIGSEGV .*si_addr=(0x[0-9a-f]+)", open("faults").read())
    return bool(found) and TOP - LONGEST <= int(found[1], 16) < TOP


def sweep(name, words, out, kind, limits, status, line):
    """A run under each limit, with the status that may come in place of its own."""
    counts, wrong = {}, 0
    for limit in limits:
        # where not even words that are none are refused the program did not start
        if run([], kind, limit) != (1, b"", b"reraid: word 1 is not understood\n"):
            counts["not started"] = counts.get("not started", 0) + 1
            continue
        ended = run(words, kind, limit)
        if ended and ended[0] == 0 and ended[2] == b"" and out in (None, ended[1]):
            counts[0] = counts.get(0, 0) + 1
        elif ended == (status, b"", line):
            counts[status] = counts.get(status, 0) + 1
        elif kind == resource.RLIMIT_AS and ended and ended[:2] == (-signal.SIGSEGV, b"") and stack_is_refused(words, limit):
            counts["its stack refused"] = counts.get("its stack refused", 0) + 1
        else:
            wrong += 1
            told = ended and (ended[0], len(ended[1]), ended[2][:80])
            print(f"FAILED {name} of {' '.join(words)[:36]} at {limit}: {told}")
    shown = ", ".join(f"{key}: {count} limits" for key, count in counts.items())
    print(f"{'FAILED' if wrong else 'ok'} {name} of {' '.join(words)[:36]}: {shown}")


for words, out in runs:
    sweep("few files", words, out, resource.RLIMIT_NOFILE, range(3, 16), 10, b"reraid: image read fault\n")
    limits = [kibibytes * 1024 for kibibytes in [*range(1024, 16384, 128), *range(16384, 262144, 8192)]]
    sweep("little memory", words, out, resource.RLIMIT_AS, limits, 20, b"reraid: out of memory\n")
END
cat limits
runs=$((runs + $(grep -cE '^(ok|FAILED) .* limits' limits)))
failures=$((failures + $(grep -cE '^FAILED .* limits' limits)))

echo "== an image that shrinks while it is read"
# Images are attached before the plan is read: the image is cut while the program waits for the plan.
for size in 0 512 1023; do
    cp a shrinking
    mkfifo slow
    timeout 20 "$program" list -- shrinking b c <slow >out 2>err &
    run=$!
    exec 3>slow
    for _ in $(seq 200); do
        ls -l "/proc/$(pgrep -P $run 2>/dev/null || echo $run)/fd" 2>/dev/null | grep -q '/c$' && break
        sleep 0.05
    done
    truncate -s "$size" shrinking
    cat plan >&3
    exec 3>&-
    wait $run
    status=$?
    judge "to $size bytes" 10 "$fault" ""
    rm slow
done
# A whole survey of a large image, which is cut in its midst.
truncate -s 8G large
timeout 60 "$program" survey -- large >out 2>err &
run=$!
sleep 0.3
truncate -s 1M large
wait $run
status=$?
judge "in the midst of a survey" 10 "$fault" ""
rm large

echo "== images are only read"
runs=$((runs + 1))
if sha256sum --quiet -c sums; then
    echo "ok the images hold what they held"
else
    failures=$((failures + 1))
fi
for command in "survey" "list" "check set=$set" "map set=$set sector=0" "write set=$set" "rebuild set=5:ls:none:1:0:-,1,2 slot=0" \
    "mirrors chunks=1 offsets=0" "mirrorwrite set=near2:1:0:0,1,2" "salvage set=$set" "salvage set=$set form=lost" "relations"; do
    runs=$((runs + 1))
    case $command in
    salvage*) input=empty ;;
    *) input=plan ;;
    esac
    strace -f -qq -o trace "$program" $command -- a b c <$input >/dev/null 2>/dev/null
    opened=$(grep -cE 'open(at|at2)?\(.*"[abc]", O_RDONLY(\||,|\))' trace)
    written=$(grep -E 'open(at|at2)?\(|creat\(' trace | grep -cE 'O_(WRONLY|RDWR|CREAT|TRUNC|APPEND)|creat\(')
    others=$(grep -vE ' (write\((1|2),|exit_group)' trace |
        grep -cE '(pwrite|pwritev|writev|write|truncate|ftruncate|fallocate|unlink|unlinkat|rename|renameat|renameat2|link|linkat|symlink|chmod|fchmod|fchmodat|chown|utimensat|mkdir|mknod|setxattr|fsetxattr|copy_file_range|sendfile|ioctl|fsync|socket|connect|clone|fork|execve)\(')
    # the one execve is that of the program
    if [ "$opened" = 3 ] && [ "$written" = 0 ] && [ "$others" -le 1 ]; then
        echo "ok ${command%% *}: three images opened for reading, nothing else opened for writing, changed or started"
    else
        failures=$((failures + 1))
        echo "FAILED ${command%% *}: $opened images opened for reading, $written opened for writing, $others other changes"
        grep -vE ' (write\((1|2),|exit_group)' trace | grep -E '(write|truncate|unlink|rename|ioctl|socket|clone)[a-z0-9]*\(' | head -5
    fi
done

echo "$((runs - failures)) of $runs as stated, $failures not"
[ "$failures" = 0 ]
