#!/bin/bash
# Refuses each request for memory in turn, over the proved program: a library that is loaded before the C library counts the
# requests and refuses one of them. The runs are listings, of which one scans few sets and one scans pieces of 720 side by side, a
# test of a set with Q, surveys of images with tables of their own and with labels, volumes, a member, a generated array, mirrors, a
# damaged array, relations, the help and classes of sets.
# Each ends with its own status and answer, or with status 20, its line, and nothing put; the images hold what they held.
#
# Usage: hostile/fail_alloc.sh PROGRAM [FOLDER]
# Needs bash, cc and python3.
set -u
program=$(realpath "$1") || exit 2
here=$(cd "$(dirname "$0")" && pwd)
folder=$(mktemp -d "${2:-${TMPDIR:-/tmp}}/reraid-memory.XXXXXX") || exit 2
trap 'rm -rf "$folder"' EXIT
cc -O2 -Wall -shared -fPIC -o "$folder/refuse_memory.so" "$here/refuse_memory.c" || exit 2
cd "$folder" || exit 2
exec python3 - "$program" "$folder/refuse_memory.so" <<'END'
import hashlib
import os
import struct
import subprocess
import sys
import tempfile
import zlib

program, library = sys.argv[1:]


def sectors(*values):
    return b"".join(bytes([value]) * 512 for value in values)


def header(own, other, entries):
    """The header of a table, whose other copy is in another block and whose entries begin in a third."""
    block = bytearray(struct.pack("<8sIIIIQQQQ16sQIII", b"EFI PART", 0x10000, 92, 0, 0, own, other, 0, 0, bytes(16), entries, 4, 128, 0))
    struct.pack_into("<I", block, 16, zlib.crc32(block[:92]))
    return bytes(block[:92]).ljust(512, b"\0")


def plan(images, length, lines):
    usual = {"levels": "5", "members": str(images), "patterns": "ls", "syndromes": "none", "chunks": "1", "offsets": "0", "origins": "0",
             "missing": "0", "foreign": "0", "badrows": "0", "window": str(length), "misfits": "0", "least": "1"}
    usual.update(lines)
    text = ["reraid-plan 1", f"images {images}", *[f"length {length}"] * images, f"end {length}"]
    return "".join(line + "\n" for line in [*text, *(f"{name} {value}" for name, value in usual.items()), "done"]).encode()


# a label of LVM2 at sector 3, and a superblock of btrfs at sector 130
label = struct.pack("<8sQ8x8s", b"LABELONE", 1, b"LVM2 001").ljust(512, b"\0")
super_block = struct.pack("<32x16sQ8x8s", bytes(range(16)), 65536, b"_BHRfS_M").ljust(512, b"\0")
landmarks = bytes(3 * 512) + label + bytes(126 * 512) + super_block + bytes(269 * 512)
tables = bytes(512) + header(1, 99, 2) + bytes(97 * 512) + header(99, 1, 98)
files = {"a": sectors(1, 2), "b": sectors(3, 4), "c": sectors(2, 6), "q": sectors(0x1C), "x": sectors(1), "y": sectors(0x80),
         "p": sectors(0x81), "t": tables, "z": sectors(0), "d": sectors(9, 1, 2), "e": sectors(3, 4, 9), "f": sectors(2, 6, 9),
         "m": sectors(1, 2), "n": sectors(3, 4), "l": landmarks}
for name, data in files.items():
    with open(name, "wb") as file:
        file.write(data)
listing = plan(3, 2, {})
rescue = b"map 0\n# a map file\n0x0 ? 1\n0x0 0x200 -\n0x200 0x200 +\nmap 1\n0 +\n0 512 -\n512 512 +\n"
double = plan(4, 1, {"levels": "6", "syndromes": "after-q,by-data,by-slot"})
pieces = plan(6, 1, {"levels": "6", "syndromes": "after-q"})
runs = [
    (["list", "size=10", "--", "a", "b", "c"], listing),
    (["list", "size=10", "form=json", "--", "a", "b", "c"], listing),
    (["list", "size=10", "--", "q", "x", "y", "p"], double),
    (["list", "size=10", "--", "z", "z", "z", "z", "z", "z"], pieces),
    (["check", "set=6:ls:after-q:1:0:0,1,2,3", "--", "q", "x", "y", "p"], double),
    (["survey", "--", "t", "t", "t"], b""),
    (["write", "set=5:ls:none:1:0:0,1,2", "--", "a", "b", "c"], b""),
    (["rebuild", "set=5:ls:none:1:0:-,0,1", "slot=0", "--", "b", "c"], b""),
    (["map", "set=5:ls:none:1:0:0,1,2", "sector=2", "--", "a", "b", "c"], b""),
    (["sample", "number=7", "set=5:ls:none:8:0:0,1,2", "rows=2", "--"], b""),
    (["write", "set=5:ls:none:1:1+0+0:0,1,2", "--", "d", "e", "f"], b""),
    (["check", "set=5:ls:none:1:1+0+0:0,1,2", "--", "d", "e", "f"], plan(3, 3, {})),
    (["survey", "kinds=btrfs,lvm,ext", "--", "l"], b""),
    (["mirrors", "chunks=1", "offsets=0", "--", "m", "m", "n", "n"], b""),
    (["mirrorwrite", "set=near2:1:0:0,1,2,3", "--", "m", "m", "n", "n"], b""),
    (["salvage", "set=5:ls:none:1:0:0,1,2", "--", "a", "b", "c"], rescue),
    (["salvage", "set=5:ls:none:1:0:0,1,2", "form=lost", "--", "a", "b", "c"], rescue),
    (["relations", "--", "a", "b", "c"], b""),
    (["relations", "form=json", "offsets=1+0+0", "--", "d", "e", "f"], b""),
    (["--help"], b""),
    (["classes", "images=3", "end=2", "--"], b"0 5:ls:none:1:0:0,1,2\n1 5:parity-last:none:1:0:0,1,2\n2 0:plain:none:1:0:0,1\nnext 3 of 3\n"),
]


def run(words, text, refused):
    """Status, output and line of a run, and how many requests it made."""
    with tempfile.TemporaryFile() as count:
        ran = subprocess.run([program, *words], input=text, capture_output=True, timeout=120, pass_fds=[count.fileno()],
                             env={**os.environ, "LD_PRELOAD": library, "REFUSE": str(refused), "COUNT": str(count.fileno())})
        count.seek(0)
        return (ran.returncode, ran.stdout, ran.stderr), int(count.read() or 0)


wrong, total = 0, 0
for words, text in runs:
    usual, requests = run(words, text, 0)
    counts = {}
    for number in range(1, requests + 1):
        ended, _ = run(words, text, number)
        total += 1
        if ended == usual:
            counts["its own"] = counts.get("its own", 0) + 1
        elif ended == (20, b"", b"reraid: out of memory\n"):
            counts["20"] = counts.get("20", 0) + 1
        else:
            wrong += 1
            print(f"FAILED {' '.join(words)}: request {number} refused, {ended[0]}, {len(ended[1])} bytes put, {ended[2][:100]}")
    told = ", ".join(f"{key} {count} times" for key, count in counts.items())
    print(f"{' '.join(words)[:48]}: status {usual[0]}, {requests} requests, each refused once: {told}")
for name, data in files.items():
    with open(name, "rb") as file:
        if file.read() != data:
            wrong += 1
            print(f"FAILED the image {name} changed")
print(f"{total} runs, {wrong} not as stated")
sys.exit(1 if wrong else 0)
END
