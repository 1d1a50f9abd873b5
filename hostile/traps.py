#!/usr/bin/env python3
"""Disks whose file systems put inodes where a reader may look for them wrongly, or have none that tell: `survey` over each of them has to mark all
inodes that tell, at their own sectors, and nothing else. Which these are, and where they lie, dumpe2fs, debugfs and xfs_db say.

Of an ext4 these are the inodes n and n + 1 that are in use, where 32 divides n + 1; of an XFS the inodes of all chunks, used or not, that begin a
stretch of 64 KiB.

Usage: hostile/traps.py PROGRAM [WORD..]
Needs the Debian packages e2fsprogs and xfsprogs, 1 GiB in the folder of temporary files, and, for the XFS that is grown, root and a loop device:
else that one is left out. With words only the disks in whose names all of them stand. Status 1 where a disk is not marked as stated.
"""

import os
import pathlib
import re
import subprocess
import sys
import tempfile

SECTOR = 512
MEBI = 2 ** 20
ASKED = ["levels=0", "members=2", "patterns=plain", "syndromes=none", "chunks=1", "offsets=0", "origins=0"]
FOLDERS, FILES = 40, 80


def run(*words, **more):
    """What a tool prints."""
    done = subprocess.run([str(word) for word in words], check=False, capture_output=True, text=True, **more)
    if done.returncode:
        raise SystemExit(f"{words[0]} failed: {done.stderr.strip()}")
    return done.stdout


def tree(folder):
    """Folders of files, a few thousand inodes in all."""
    for name in range(FOLDERS):
        (folder / f"{name:02}").mkdir(parents=True)
        for file in range(FILES):
            (folder / f"{name:02}" / f"{file:02}").write_text(f"{name} {file}\n")


def prototype(folder):
    """The same for mkfs.xfs."""
    (folder / "file").write_text("a file\n")
    lines = ["/", "0 0", "d--755 0 0"]
    for name in range(FOLDERS):
        lines += [f"{name:02} d--755 0 0", *(f"{file:02} ---644 0 0 {folder / 'file'}" for file in range(FILES)), "$"]
    (folder / "prototype").write_text("\n".join([*lines, "$", ""]))
    return folder / "prototype"


# ext4

def make_ext(disk, folder, mebibytes, words):
    """An ext4 of so many MiB with these words of mke2fs."""
    disk.write_bytes(b"")
    os.truncate(disk, mebibytes * MEBI)
    if not (folder / "tree").exists():
        tree(folder / "tree")
    run("mke2fs", "-q", "-F", "-t", "ext4", "-I", "256", "-N", "8192", "-E", "lazy_itable_init=1", "-d", folder / "tree", *words, disk)


def numbers(text):
    """The numbers of a list such as `12-14, 20`."""
    for part in filter(None, re.split(r",\s*", text.strip())):
        first, _, last = part.partition("-")
        yield from range(int(first), int(last or first) + 1)


def pairs_of(disk):
    """The sectors of the pairs that tell: which inodes are free dumpe2fs says, and debugfs where one lies."""
    said = run("dumpe2fs", disk)
    block, count = (int(re.search(rf"^{name}:\s+(\d+)$", said, re.M)[1]) for name in ("Block size", "Inode count"))
    free = {number for line in re.findall(r"^  Free inodes:(.*)$", said, re.M) for number in numbers(line)}
    asked = [number for number in range(31, count, 32) if not {number, number + 1} & free]
    places = run("debugfs", "-f", "-", disk, input="".join(f"imap <{number}>\n" for number in asked))
    found = re.findall(r"^Inode (\d+) is part.*\n\s*located at block (\d+), offset (0x\w+)$", places, re.M)
    assert [int(number) for number, _, _ in found] == asked, "debugfs does not say where all inodes lie"
    return {(int(at) * block + int(offset, 16)) // SECTOR for _, at, offset in found}


# XFS

def make_xfs(disk, folder, words):
    """An XFS of 400 MiB with these words of mkfs.xfs."""
    disk.write_bytes(b"")
    os.truncate(disk, 400 * MEBI)
    run("mkfs.xfs", "-q", "-f", "-p", prototype(folder), *words, disk)


def asked_of(disk, *commands):
    """What xfs_db answers."""
    return run("xfs_db", "-r", *(word for command in commands for word in ("-c", command)), disk)


def number_of(disk, name):
    return int(re.search(rf"^{name} = (\d+)$", asked_of(disk, "sb 0", f"p {name}"), re.M)[1])


def inodes_of(disk):
    """The sectors of the inodes that tell: xfs_db lists the chunks of each group, of 64 inodes, and says where an inode lies."""
    size, found = number_of(disk, "inodesize"), []
    for group in range(number_of(disk, "agcount")):
        chunks = asked_of(disk, f"agi {group}", "addr root", "p recs")
        for first in re.findall(r"\d+:\[(\d+),", chunks):
            inode = int(re.search(r"\((\d+)\)", asked_of(disk, f"convert agno {group} agino {first} inode"))[1])
            found += [number for number in range(inode, inode + 64) if number * size % 65536 == 0]
    said = asked_of(disk, *(command for number in found for command in (f"inode {number}", "daddr")))
    places = [int(place) for place in re.findall(r"current daddr is (\d+)", said)]
    assert len(places) == len(found), "xfs_db does not say where all inodes lie"
    return set(places)


def grow_xfs(disk, folder):
    """Makes an XFS twice as large, mounted, with folders in the groups that are new."""
    os.truncate(disk, 800 * MEBI)
    there = folder / "mounted"
    there.mkdir(exist_ok=True)
    run("mount", "-o", "loop", disk, there)
    try:
        run("xfs_growfs", there)
        tree(there / "grown")
    finally:
        run("umount", there)


# the disks

EXT = {
    "flex_bg with eight groups in one": (64, ["-O", "metadata_csum,64bit,flex_bg,^has_journal", "-G", "8", "-b", "1024"]),
    "no flex_bg, blocks of 1 KiB": (64, ["-O", "metadata_csum,64bit,^flex_bg,^has_journal", "-b", "1024"]),
    "blocks of 4 KiB, a seed": (512, ["-O", "metadata_csum,metadata_csum_seed,64bit,^has_journal", "-b", "4096"]),
    "blocks of 64 KiB": (256, ["-O", "metadata_csum,64bit,^has_journal,^resize_inode", "-b", "65536", "-g", "1024"]),
    "bigalloc": (512, ["-O", "metadata_csum,bigalloc,64bit,^has_journal,^resize_inode", "-b", "1024", "-C", "16384"]),
    "descriptors of 32 bytes": (64, ["-O", "metadata_csum,^64bit,^has_journal", "-b", "1024"]),
}
SILENT = {
    "uninit_bg without checksums of inodes": ["-O", "uninit_bg,^metadata_csum,^64bit,^has_journal", "-b", "1024"],
    "inodes of 128 bytes": ["-O", "metadata_csum,64bit,^has_journal", "-I", "128", "-b", "1024"],
    "meta_bg": ["-O", "metadata_csum,64bit,meta_bg,^resize_inode,^has_journal", "-b", "1024"],
}
XFS = {
    "inodes of 512 bytes": [],
    "inodes of 1,024 bytes": ["-i", "size=1024"],
    "inodes of 2,048 bytes": ["-i", "size=2048"],
    "blocks of 1 KiB": ["-b", "size=1024"],
    "blocks of 2 KiB, inodes of 1,024 bytes": ["-b", "size=2048", "-i", "size=1024"],
    "sectors of 4,096 bytes": ["-s", "size=4096"],
    "sectors of 4,096 bytes, inodes of 2,048 bytes": ["-s", "size=4096", "-i", "size=2048"],
    "an identifier of its own for inodes": None,
}


def disks(folder):
    """Each disk: its name, the kind that is looked for, and how it is made, which gives the sectors of the inodes that tell."""
    disk = folder / "disk"

    def ext(mebibytes, words):
        make_ext(disk, folder, mebibytes, words)
        return pairs_of(disk)

    def silent(words):
        make_ext(disk, folder, 64, words)
        return set()

    def grown_ext(moves):
        make_ext(disk, folder, 64, ["-O", f"metadata_csum,64bit,^has_journal{',^resize_inode' * moves}", "-b", "1024"])
        os.truncate(disk, 512 * MEBI)
        run("resize2fs", disk)
        return pairs_of(disk)

    def xfs(words):
        make_xfs(disk, folder, words or [])
        if words is None:
            run("xfs_admin", "-U", "generate", disk)
        return inodes_of(disk)

    def grown_xfs():
        make_xfs(disk, folder, ["-i", "size=1024"])
        grow_xfs(disk, folder)
        return inodes_of(disk)
    for name, (mebibytes, words) in EXT.items():
        yield f"ext4: {name}", "extinode", lambda m=mebibytes, w=words: ext(m, w)
    for name, words in SILENT.items():
        yield f"ext4: {name}", "extinode", lambda w=words: silent(w)
    yield "ext4: grown", "extinode", lambda: grown_ext(False)
    yield "ext4: grown, its tables moved", "extinode", lambda: grown_ext(True)
    for name, words in XFS.items():
        yield f"XFS: {name}", "xfs5", lambda w=words: xfs(w)
    yield "XFS: grown", "xfs5", grown_xfs


def marks(program, disk, kind):
    """The sectors that `survey` marks, and those that it says they are."""
    said = run(program, "survey", f"kinds={kind}", *ASKED, "--", disk)
    return [(int(sector), int(place)) for sector, place in re.findall(rf"^mark {kind} 0 (\d+) at:(\d+)$", said, re.M)]


def main():
    if len(sys.argv) < 2:
        raise SystemExit(__doc__)
    program, words = pathlib.Path(sys.argv[1]).resolve(), sys.argv[2:]
    failed = tried = 0
    with tempfile.TemporaryDirectory() as made:
        folder = pathlib.Path(made)
        for name, kind, make in disks(folder):
            if not all(word in name for word in words):
                continue
            if name == "XFS: grown" and os.geteuid():
                print(f"left out {name}: it needs root")
                continue
            wanted = make()
            found = marks(program, folder / "disk", kind)
            right = {sector for sector, place in found if sector == place}
            false = [pair for pair in found if pair[0] != pair[1]]
            good = right == wanted and not false
            tried, failed = tried + 1, failed + (not good)
            print(f"{'ok' if good else 'FAILED'} {name}: {len(wanted)} tell, {len(right & wanted)} are marked, {len(right - wanted)} others, "
                  f"{len(false)} elsewhere", flush=True)
    print(f"{tried - failed} of {tried} disks as stated")
    return int(failed > 0)


if __name__ == "__main__":
    sys.exit(main())
