#!/usr/bin/env python3
"""Runs the commands over sparse images of 16 TiB each, 24 at a time, with data in a few places: at the beginning, on both sides of the sectors
2^31, 2^32 and 2^33 of the volume, and at its end. Each answer is compared with one that is computed from the volume that the array was made
of. Each run has a minute.

Usage: hostile/long_images.py PROGRAM [FOLDER]
FOLDER is on a file system whose files may be so long, as tmpfs and XFS, and not ext4; /dev/shm, if it is left out. The last line says how
many runs were as they should be; status 1 where one was not.
"""

import os
import pathlib
import random
import subprocess
import sys
import tempfile
import time

BENCH = pathlib.Path(__file__).resolve().parent.parent / "bench/making"
sys.dont_write_bytecode = True
sys.path.insert(0, str(BENCH))
import disks  # noqa: E402

SECTOR, CHUNK, OFFSET, LENGTH = 512, 128, 2048, 1 << 35
ROWS = (LENGTH - OFFSET) // CHUNK
BLOCK = CHUNK * SECTOR
# The most rows that are read at an end of the images.
FEW = 40


class Runs:
    """Runs the program in a folder, and counts."""

    def __init__(self, program):
        self.program = os.path.abspath(program)
        self.done = self.failed = 0

    def as_stated(self, name, fact, more=""):
        """Counts a run."""
        self.done += 1
        self.failed += not fact
        print(f"{'ok' if fact else 'FAILED'} {name}{more}", flush=True)

    def run(self, *words, text=None, most=None):
        """Status, output and line of a run; of an output that goes on, so many bytes are taken, and then the reader leaves."""
        self.begin = time.monotonic()
        with subprocess.Popen([self.program, *words], stdin=subprocess.PIPE, stdout=subprocess.PIPE, stderr=subprocess.PIPE) as process:
            if most is None:
                out, err = process.communicate(text, timeout=60)
            else:
                process.stdin.close()
                out = process.stdout.read(most)
                process.stdout.close()
                err = process.stderr.read()
            status = process.wait(60)
        return status, out, err.decode()

    def expect(self, name, wanted, *words, text=None, most=None):
        """A run whose status, output and line are known."""
        got = self.run(*words, text=text, most=most)
        self.as_stated(name, got == wanted, f" ({time.monotonic() - self.begin:.1f} s)" if got == wanted else f": {str(got)[:400]}")
        return got


def places(volume):
    """Where the volume holds data, in sectors: the beginning is made apart."""
    return [1 << 31, 1 << 32, 1 << 33, volume // 2, volume - 3 * CHUNK * 22]


def make_volume(name, members):
    """A sparse volume of an array of level 6, with a partition table and an XFS at its beginning."""
    sectors = ROWS * CHUNK * (members - 2)
    subprocess.run([BENCH / "volume.py", name], check=True)
    noise = random.Random(members)
    with open(name, "r+b") as file:
        file.truncate(sectors * SECTOR)
        # What is not zeros lies beyond the landmarks too, so that parity tells something.
        file.seek(16384 * SECTOR)
        file.write(noise.randbytes(FEW * 22 * BLOCK - 16384 * SECTOR))
        for place in places(sectors):
            file.seek((place - 100) * SECTOR)
            file.write(noise.randbytes(min(300, sectors - place + 100) * SECTOR))
        file.seek((sectors - 1) * SECTOR)
        file.write(noise.randbytes(SECTOR))
    return sectors


def make_disks(volume, names):
    subprocess.run([sys.executable, BENCH / "sparse.py", "6", str(CHUNK), str(OFFSET), str(LENGTH), volume, *names], check=True)


def part(name, first, count):
    """Some bytes of a file."""
    with open(name, "rb") as file:
        file.seek(first)
        return file.read(count)


def place_of(sector, members, images):
    """What `map` prints of a sector of a left-symmetric array of level 6; images are in slots as they are numbered there."""
    chunk, within = divmod(sector, CHUNK)
    row, item = divmod(chunk, members - 2)
    p, q = disks.parity_slots("ls", row, members, 2)
    slot = list(disks.item_slots("ls", row, members, 2))[item]
    return f"row {row} item {item} slot {slot} image {images[slot]} sector {OFFSET + row * CHUNK + within} p {p} q {q}\nname left-symmetric\n"


def word(images, offset=OFFSET, syndrome="after-q"):
    return f"set=6:ls:{syndrome}:{CHUNK}:{offset}:" + ",".join(map(str, images))


def try_map(runs, names, images, sectors):
    """Places of sectors, and the first that is none."""
    for sector in [0, sectors - 1, *places(sectors), *(place - 1 for place in places(sectors))]:
        runs.expect(f"map sector={sector}", (0, place_of(sector, len(images), images).encode(), ""), "map", word(images), f"sector={sector}", "--", *names)
    runs.expect("map past the end", (8, b"", f"reraid: sector {sectors} of {sectors}\n"), "map", word(images), f"sector={sectors}", "--", *names)


def lost(images, *slots):
    """The words of a set without the images of some slots: which names go, and the numbers of the others."""
    gone = sorted(images[slot] for slot in slots)
    numbered = ["-" if image in gone else image - sum(it < image for it in gone) for image in images]
    return gone, numbered


def without(names, gone):
    return [name for number, name in enumerate(names) if number not in gone]


def try_volume(runs, names, images, volume):
    """The beginning of the volume, and its end by an offset that lies near the end of the images; none, one and two members lost."""
    first_row = ROWS // len(images) * len(images) - len(images)
    tail = (ROWS - first_row) * (len(images) - 2) * BLOCK
    late = OFFSET + first_row * CHUNK
    for slots in ([], [0], [5, 23], [22, 23]):
        gone, numbered = lost(images, *slots)
        left = without(names, gone)
        wanted = (12, part(volume, 0, 8 << 20), "reraid: output fault\n")
        runs.expect(f"write | head, lost {slots}", wanted, "write", word(numbered), "--", *left, most=8 << 20)
        wanted = (0, part(volume, 0, FEW * 22 * BLOCK), "")
        runs.expect(f"write end=, lost {slots}", wanted, "write", word(numbered), f"end={OFFSET + FEW * CHUNK}", "--", *left)
        wanted = (0, part(volume, first_row * 22 * BLOCK, tail), "")
        runs.expect(f"write of the end, lost {slots}", wanted, "write", word(numbered, late), "--", *left)
        for slot in slots:
            wanted = (0, part(names[images[slot]], late * SECTOR, (LENGTH - late) * SECTOR), "")
            runs.expect(f"rebuild of the end, lost {slots}, slot {slot}", wanted, "rebuild", word(numbered, late), f"slot={slot}", "--", *left)
    try_salvage(runs, names, images, volume, first_row)


def try_salvage(runs, names, images, volume, first_row):
    """Ten bad sectors on three images, in the last row but one: what of them is data is lost."""
    row, late, items = ROWS - 2, OFFSET + first_row * CHUNK, len(images) - 2
    begin = OFFSET + row * CHUNK
    bad = [3, 4, 17]
    maps = "".join(f"map {number}\n0x0 0x0 +\n0x0 {begin * SECTOR:#x} +\n{begin * SECTOR:#x} 5120 -\n{begin * SECTOR + 5120:#x} "
                   f"{(LENGTH - begin) * SECTOR - 5120:#x} +\n" for number in bad)
    order = list(disks.item_slots("ls", row, len(images), 2))
    first = (row - first_row) * items * CHUNK
    lines = [f"lost {first + item * CHUNK} 10" for item in range(items) if images[order[item]] in bad]
    sectors = (ROWS - first_row) * items * CHUNK
    lines.append(f"good {sectors - 10 * (len(lines))} of {sectors}")
    wanted = (0, ("\n".join(lines) + "\n").encode(), "")
    runs.expect("salvage form=lost", wanted, "salvage", word(images, late), "form=lost", "--", *names, text=maps.encode())
    data = bytearray(part(volume, first_row * items * BLOCK, sectors * SECTOR))
    for line in lines[:-1]:
        place = int(line.split()[1]) * SECTOR
        data[place : place + 5120] = bytes(5120)
    runs.expect("salvage", (0, bytes(data), ""), "salvage", word(images, late), "--", *names, text=maps.encode())


def cut(names, folder, sectors):
    """Copies of the beginnings of images."""
    os.makedirs(folder)
    short = [f"{folder}/{name}" for name in names]
    for name, copy in zip(names, short):
        pathlib.Path(copy).write_bytes(part(name, 0, sectors * SECTOR))
    return short


def try_search(runs, names, images):
    """A survey, a rank of the listing and a test of the first 16 MiB of each image, beside those of copies of these; images is an array of eight of 24."""
    end, window = 1 << 15, 4096
    asked = ["levels=6", "members=8", "foreign=16", "patterns=ls", "syndromes=after-q,by-data", "chunks=64,128", "offsets=0,2048", f"window={window}"]
    short = cut(names, "short", end)
    _, few, _ = runs.run("survey", *asked, "--", *short)
    wanted = few.replace(f"length {end}\n".encode(), f"length {LENGTH}\n".encode())
    runs.as_stated("the copies show landmarks", few.count(b"\nmark ") >= 20)
    _, plan, _ = runs.expect("survey end=", (0, wanted, ""), "survey", *asked, f"end={end}", "--", *names)
    whole = plan.replace(f"\nend {end}\n".encode(), f"\nend {LENGTH}\n".encode())
    wanted = runs.run("check", word(images), "--", *short, text=few)
    rank = int(wanted[1].split()[1])
    page = ["list", f"from={rank}", "span=1", "--"]
    listed = runs.run(*page, *short, text=few)
    runs.as_stated("the copies show the set", listed[1].startswith(f"{rank} {word(images)[4:]}\n".encode()), f" {listed[1].decode()[:200]!r}")
    for name, text in (("end=", plan), ("window=", whole)):
        runs.expect(f"list, {name}", listed, *page, *names, text=text)
        runs.expect(f"check, {name}", wanted, "check", word(images), "--", *names, text=text)
    runs.as_stated("check passes", wanted[1].endswith(b"pass\n") and f"unsound 0 of {window}\n".encode() in wanted[1])


def try_limits(runs, names, images):
    """Products and lists of sets over 24 images, and the longest files."""
    _, plan, _ = runs.run("survey", "levels=6", "end=4096", "offsets=2048", "window=128", "--", *names)
    line = "reraid: the product has more than 18446744073709551615 sets\n"
    runs.expect("list of 24 members", (5, b"", line), "list", "--", *names, text=plan)
    orders = ["after-q", "by-data", "by-slot"]
    few = ["-", *images[1:-1], "-"]
    twins = "".join(f"{rank} {word(few, OFFSET, order)[4:]}\n" for rank, order in enumerate(orders))
    wanted = "".join(f"{number} {word(few, OFFSET, order)[4:]}\n" for number, order in zip([0, 0, 1], orders))
    runs.expect("classes", (0, (wanted + "classes 2 of 3\n").encode(), ""), "classes", "images=24", f"end={LENGTH}", "--", text=twins.encode())
    for name in ("x", "y", "z"):
        with open(name, "wb") as file:
            file.truncate((1 << 63) - 1)
    rows = ((1 << 54) - 1) // 8
    last = rows * 16 - 1
    place = f"row {rows - 1} item 1 slot 1 image 1 sector {rows * 8 - 1} p "
    status, out, _ = runs.run("map", "set=5:parity-last:none:8:0:0,1,2", f"sector={last}", "--", "x", "y", "z")
    runs.as_stated("map of files of 8 EiB", status == 0 and out.decode().startswith(place), f" {out.decode()[:100]!r}")
    set_word = f"set=5:parity-last:none:8:{(rows - 4) * 8}:0,-,1"
    runs.expect("write of the end of files of 8 EiB", (0, bytes(4 * 8 * 2 * SECTOR), ""), "write", set_word, "--", "x", "y")


def try_mirrors(runs, names):
    """Four images in two pairs; the chunks of a pair are the same at their places."""
    noise = random.Random(4)
    late = LENGTH - FEW * CHUNK
    for pair in (names[:2], names[2:4]):
        blocks = {first: noise.randbytes(FEW * BLOCK) for first in (0, 1 << 34, late)}
        for name in pair:
            with open(name, "wb") as file:
                file.truncate(LENGTH * SECTOR)
                for first, data in blocks.items():
                    file.seek(first * SECTOR)
                    file.write(data)
    orders = ["0,1,2,3", "0,1,3,2", "1,0,2,3", "1,0,3,2", "2,3,0,1", "2,3,1,0", "3,2,0,1", "3,2,1,0"]
    status, out, _ = runs.run("mirrors", f"chunks={CHUNK}", "offsets=0", "window=4096", "--", *names[:4])
    got = [line.split(":")[-1] for line in out.decode().splitlines()[:-1]]
    runs.as_stated("mirrors", status == 0 and got == orders, f" {got}")
    ends = [part(name, late * SECTOR, FEW * BLOCK) for name in (names[0], names[2])]
    wanted = b"".join(end[row * BLOCK : (row + 1) * BLOCK] for row in range(FEW) for end in ends)
    runs.expect("mirrorwrite of the end", (0, wanted, ""), "mirrorwrite", f"set=near2:{CHUNK}:{late}:0,1,2,3", "--", *names[:4])
    runs.expect("mirrorwrite of the end, one lost", (0, wanted, ""), "mirrorwrite", f"set=near2:{CHUNK}:{late}:-,0,1,2", "--", *names[1:4])


def main(words):
    runs = Runs(words[0])
    begin = time.monotonic()
    with tempfile.TemporaryDirectory(dir=words[1] if len(words) > 1 else "/dev/shm") as folder:
        os.chdir(folder)
        names, images = [f"d{number:02}" for number in range(24)], list(range(24))
        random.Random(0).shuffle(images)
        sectors = make_volume("volume", 24)
        make_disks("volume", [names[image] for image in images])
        try_map(runs, names, images, sectors)
        try_volume(runs, names, images, "volume")
        try_limits(runs, names, images)
        make_volume("volume", 8)
        make_disks("volume", [names[image] for image in images[:8]])
        try_search(runs, names, images[:8])
        try_mirrors(runs, names)
        os.chdir("/")
    print(f"{runs.done} runs over images of 16 TiB, {runs.failed} not as they should be, {time.monotonic() - begin:.0f} s")
    return runs.failed > 0


if __name__ == "__main__":
    if len(sys.argv) not in (2, 3):
        sys.exit(__doc__)
    sys.exit(main(sys.argv[1:]))
