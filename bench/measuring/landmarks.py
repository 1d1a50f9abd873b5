#!/usr/bin/env python3
"""Counts how often the landmarks that lie by the thousand single out an array of which nothing else can: as many disks are lost as the level
survives, so parity says nothing. The file systems are used ones: files were written, deleted, overwritten, made longer and shorter over some
rounds, with the volume unmounted between. Each array has an order of the disks, a lost disk and a layout of its own, the same from run to run.

`survey` is asked with the level, the offset and the kind, at level 6 also with the order of Q, of which no landmark says anything; then `list` for
the highest LEAST with which any set passes, where that is the bound of the group with most marks, and any number of misfits may be. An array
counts where the true set passes then, and each other one puts every data chunk that is there where the true one does: of what is lost no landmark
on an image says anything, so `n-continue` with its slots turned by one, which is `ls` with P and Q exchanged, cannot be told from it.

Arrays with NTFS have a volume each, which was full in most rounds, so that its table of file records is in many pieces. Some of level 6 have lost
one disk alone. There any number of rows may be inconsistent, and one sector of each disk is tested, so parity says nothing either.

Usage: bench/measuring/landmarks.py PROGRAM [--folder DIR] [--mebibytes N] [--files N] [--disks] [WORD..]
Needs root, for loop mounts, and the Debian packages e2fsprogs, xfsprogs, btrfs-progs and ntfs-3g; for volumes of 2,048 MiB, which is what is usual,
11 GiB in the folder. In each round N files are written for each MiB, 2 where nothing is said, and a part of them is deleted again. With words only the
arrays in whose names all of them stand; with --disks they are made, and not looked at. The last line counts them; the status is 0 where all count.
"""

import argparse
import contextlib
import dataclasses
import itertools
import pathlib
import random
import shutil
import subprocess
import sys
import tempfile
import time
from collections.abc import Iterator

TOP = pathlib.Path(__file__).resolve().parents[2]
sys.path.insert(0, str(TOP / "bench/making"))
import disks  # noqa: E402

SECTOR = 512
OFFSET = 2048
MANY = 2 ** 55 - 1
MOST_SETS = 1024  # of `classes`
MAKERS = {
    "ext4": ["mke2fs", "-q", "-F", "-t", "ext4", "-O", "metadata_csum,64bit"],
    "xfs": ["mkfs.xfs", "-q", "-f"],
    "btrfs": ["mkfs.btrfs", "-q", "-f"],
    "ntfs": ["mkntfs", "-q", "-F", "-f", "-s", "512", "-p", "0", "-H", "0", "-S", "0"],
}
KINDS = {"ext4": "extinode", "xfs": "xfs5", "btrfs": "btrfstree", "ntfs": "mft"}
# Of these each array has a volume of its own, which was full in all rounds but the last.
FILLED = "ntfs"


class Failed(Exception):
    """A tool, or the program, did not do what it was asked for."""


@dataclasses.dataclass(frozen=True)
class Array:
    """An array: its level and members, the sectors of a chunk, the file system in it, how many disks are lost, and what is drawn for it."""

    level: int
    members: int
    chunk: int
    system: str
    lost: int

    def name(self) -> str:
        """What it is called in the table."""
        return f"{self.system}, level {self.level} of {self.members}, {self.lost} lost, chunks of {self.chunk // 2} KiB"

    def parity(self) -> int:
        """How many disks it survives the loss of."""
        return {5: 1, 6: 2}[self.level]

    def volume(self) -> str:
        """What its volume is called, and drawn from."""
        return self.name().replace(", ", "-").replace(" ", "-") if self.system == FILLED else self.system

    def drawn(self) -> random.Random:
        """What its order, its lost disks and its layout are drawn from."""
        return random.Random(self.name())


@dataclasses.dataclass(frozen=True)
class Made:
    """The images of an array in their order, and the word of its true set."""

    images: list[str]
    word: str


@dataclasses.dataclass(frozen=True)
class Found:
    """What the landmarks tell of an array: the marks of the group, the highest LEAST, the sets that pass with it, and of those how many
    volumes they make."""

    marks: int
    least: int
    sets: list[str]
    classes: int


CHUNKS = (128, 1024)
SYSTEMS = [system for system in MAKERS if system != FILLED]
ARRAYS = [Array(5, members, chunk, system, 1) for system in SYSTEMS for members in (4, 5, 6, 8) for chunk in CHUNKS]
ARRAYS += [Array(6, 8, chunk, system, 2) for system in SYSTEMS for chunk in CHUNKS]
ARRAYS += [Array(5, members, chunk, FILLED, 1) for members, chunk in ((4, 128), (5, 1024), (6, 128), (8, 1024))]
ARRAYS += [Array(6, members, chunk, FILLED, lost) for lost in (2, 1) for members, chunk in ((5, 128), (6, 1024), (8, 128))]


def run(words: list[str], text: str | None = None) -> str:
    """What a tool prints."""
    done = subprocess.run(words, input=text, stdin=None if text is not None else subprocess.DEVNULL, stdout=subprocess.PIPE,
                          stderr=subprocess.PIPE, text=True, check=False)
    if done.returncode:
        raise Failed(f"{' '.join(words[:6])}: status {done.returncode}, {done.stderr[:200]}")
    return done.stdout


# File systems that were used

@contextlib.contextmanager
def mounted(volume: pathlib.Path) -> Iterator[pathlib.Path]:
    """The folder at which a volume is mounted."""
    place = pathlib.Path(tempfile.mkdtemp(prefix="reraid-", dir=volume.parent))
    run(["mount", "-o", "loop", str(volume), str(place)])
    try:
        yield place
    finally:
        run(["umount", str(place)])
        place.rmdir()


def round_of_use(place: pathlib.Path, drawn: random.Random, number: int, mebibytes: int, files_each: int) -> None:
    """Writes, deletes, overwrites, lengthens and shortens files, of which so many are written for each MiB, so that the volume is in the end about
    half full."""
    noise = drawn.randbytes(1 << 22)

    def some(most: int) -> bytes:
        size = drawn.randint(1, most)
        start = drawn.randrange(len(noise) - most)
        return noise[start:start + size]
    for count in range(files_each * mebibytes):
        folder = place / f"folder{drawn.randrange(60):02}"
        folder.mkdir(exist_ok=True)
        (folder / f"letter{number}-{count}").write_bytes(some(80_000 // files_each))
    for count in range(mebibytes // 70):
        with open(place / f"film{number}-{count}", "wb") as film:
            for _ in range(drawn.randint(1, 4)):
                film.write(noise)
    files = sorted(path for path in place.rglob("*") if path.is_file())
    for path in drawn.sample(files, len(files) // 4):
        path.unlink()
    files = [path for path in files if path.exists()]
    for path in drawn.sample(files, len(files) // 6):
        way = drawn.randrange(3)
        with open(path, "r+b") as file:
            file.seek(0, 2 if way == 0 else 0)
            if way < 2:
                file.write(some(60_000))
            else:
                file.truncate(path.stat().st_size // 2)


def filled(place: pathlib.Path, drawn: random.Random, number: int, mebibytes: int, files_each: int) -> None:
    """Fills the volume with one file, deletes some others, writes notes into what they leave, and deletes the one file. So a table of files that has
    to grow grows into many pieces."""
    noise, full = drawn.randbytes(1 << 22), place / "full"
    with contextlib.suppress(OSError), open(full, "wb", buffering=0) as file:
        while file.write(noise) == len(noise):
            pass
    letters = sorted(place.rglob("letter*"))
    for path in drawn.sample(letters, len(letters) // 8):
        path.unlink()
    with contextlib.suppress(OSError):
        for count in range(files_each * mebibytes // 2):
            (place / f"folder{drawn.randrange(60):02}" / f"note{number}-{count}").write_bytes(noise[:drawn.randint(1, 4000)])
    full.unlink()


def used_volume(array: Array, folder: pathlib.Path, mebibytes: int, files_each: int) -> pathlib.Path:
    """A volume with a file system that was used, made where it is not there yet."""
    volume, rounds = folder / f"{array.volume()}.volume", 5
    if volume.exists():
        return volume
    with open(volume, "wb") as file:
        file.truncate(mebibytes << 20)
    run([*MAKERS[array.system], str(volume)])
    drawn = random.Random(array.volume())
    for number in range(rounds):
        with mounted(volume) as place:
            round_of_use(place, drawn, number, mebibytes, files_each)
            if array.system == FILLED and number + 1 < rounds:
                filled(place, drawn, number, mebibytes, files_each)
    return volume


# Arrays

def made_array(array: Array, volume: pathlib.Path, folder: pathlib.Path) -> Made:
    """The disks of an array that are not lost, with noise before their data and holes where there are zeros."""
    drawn, size, zeros = array.drawn(), array.chunk * SECTOR, bytes(array.chunk * SECTOR)
    count, left = array.members - array.parity(), array.members - array.lost
    pattern = drawn.choice(["ls", "ls", "la", "rs", "ra"])
    there = sorted(drawn.sample(range(array.members), left))
    order = drawn.sample(there, left)
    names = {slot: str(folder / f"disk{place}") for place, slot in enumerate(order)}
    with contextlib.ExitStack() as stack:
        data = stack.enter_context(open(volume, "rb"))
        files = {slot: stack.enter_context(open(name, "wb")) for slot, name in names.items()}
        for file in files.values():
            file.write(drawn.randbytes(OFFSET * SECTOR))
        for row in itertools.count():
            read = data.read(size * count)
            if not read:
                break
            read = read.ljust(size * count, b"\0")
            blocks = disks.row_of([read[at:at + size] for at in range(0, size * count, size)], row, array.members, pattern, "after-q")
            for slot, file in files.items():
                if blocks[slot] == zeros:
                    file.seek(size, 1)
                else:
                    file.write(blocks[slot])
        for file in files.values():
            file.truncate(file.tell())
    slots = ",".join(str(order.index(slot)) if slot in order else "-" for slot in range(array.members))
    head = f"{array.level}:{pattern}:{'after-q' if array.level == 6 else 'none'}:{array.chunk}:{OFFSET}"
    return Made([names[slot] for slot in order], f"{head}:{slots}")


# What the landmarks tell

def bounded(plan: str, kind: str, least: int) -> tuple[str, int]:
    """The plan with any number of misfits, in which the group of the kind that has most marks needs so many fits and no other needs any, and how
    many marks that group has."""
    head, *groups = plan.removesuffix("done\n").split("group ")
    lines = head.split("\n", 1)[1]
    counts = [group.count("mark ") if group.startswith(f"{kind}\n") else -1 for group in groups]
    if max(counts, default=0) < 1:
        raise Failed(f"the survey has no marks of {kind}")
    first = counts.index(max(counts))
    made = [group.replace("\n", f"\nbounds {MANY} {least if place == first else 0}\n", 1) for place, group in enumerate(groups)]
    return "".join(["reraid-plan 3\nmode common\n", lines, *(f"group {group}" for group in made), "done\n"]), counts[first]


def passing(program: str, plan: str, images: list[str], size: int) -> list[str]:
    """The lines of the first sets that pass."""
    printed = run([program, "list", f"size={size}", "--", *images], plan)
    return [line for line in printed.splitlines(keepends=True) if not line.startswith("next ")]


def surveyed(program: str, array: Array, made: Made) -> str:
    """The plan of a survey that is told the level, the offset and the kind, and lets rows be inconsistent if parity says anything."""
    asked = [f"levels={array.level}", f"members={array.members}", f"missing={array.lost}", f"offsets={OFFSET}", f"kinds={KINDS[array.system]}"]
    asked += ["syndromes=after-q"] if array.level == 6 else []
    asked += [f"badrows={MANY}", "window=1"] if array.lost < array.parity() else []
    return run([program, "survey", *asked, "--", *made.images])


def told(program: str, array: Array, plan: str, made: Made) -> Found:
    """What the landmarks tell, at the highest LEAST with which a set passes."""
    kind = KINDS[array.system]
    _, marks = bounded(plan, kind, 0)
    low, high = 0, marks
    while low < high:
        middle = (low + high + 1) // 2
        if passing(program, bounded(plan, kind, middle)[0], made.images, 1):
            low = middle
        else:
            high = middle - 1
    sets = passing(program, bounded(plan, kind, low)[0], made.images, MOST_SETS + 1)
    if len(sets) > MOST_SETS:
        return Found(marks, low, sets, len(sets))
    end = next(line.split()[1] for line in plan.splitlines() if line.startswith("end "))
    last = run([program, "classes", f"images={len(made.images)}", f"end={end}", "--"], "".join(sets)).splitlines()[-1]
    return Found(marks, low, sets, int(last.split()[1]))


def held(word: str) -> tuple[str, str, list[list[str]]]:
    """What landmarks may say of a set: its chunk, its offset, and on which image each data chunk lies of as many rows as it has members, after which
    the rows are as the first ones again; `-` stands for those that are lost."""
    level, pattern, _, chunk, offset, slots = word.split(":")
    images = slots.split(",")
    parity, members = disks.PARITY[level], len(images)
    return chunk, offset, [[images[slot] for slot in disks.item_slots(pattern, row, members, parity)] for row in range(members)]


def tried(program: str, array: Array, made: Made) -> bool:
    """Looks at an array, and prints its line."""
    began = time.monotonic()
    plan = surveyed(program, array, made)
    between = time.monotonic()
    found = told(program, array, plan, made)
    words = [line.split()[1] for line in found.sets]
    well = made.word in words and all(held(word) == held(made.word) for word in words)
    seconds = f"survey {between - began:.1f} s, list {time.monotonic() - between:.1f} s"
    print(f"{'ok' if well else 'NOT'} {array.name()}: {found.least} of {found.marks} marks fit, {len(found.sets)} sets of {found.classes} volumes; "
          f"{seconds}", flush=True)
    return well


def read_arguments() -> argparse.Namespace:
    """The words of the command line."""
    parser = argparse.ArgumentParser(description=__doc__, formatter_class=argparse.RawDescriptionHelpFormatter)
    parser.add_argument("program")
    parser.add_argument("words", nargs="*")
    parser.add_argument("--folder", type=pathlib.Path)
    parser.add_argument("--mebibytes", type=int, default=2048)
    parser.add_argument("--files", type=int, default=2)
    parser.add_argument("--disks", action="store_true")
    return parser.parse_intermixed_args()


def counted(given: argparse.Namespace, folder: pathlib.Path) -> int:
    """Makes arrays and looks at them, one after another; how many do not count."""
    wanted = [array for array in ARRAYS if all(word in array.name() for word in given.words)]
    wrong = 0
    for array in wanted:
        place = pathlib.Path(tempfile.mkdtemp(prefix="array-", dir=folder))
        try:
            made = made_array(array, used_volume(array, folder, given.mebibytes, given.files), place)
            if given.disks:
                print(f"made {array.name()}: {made.word}", flush=True)
            elif not tried(given.program, array, made):
                wrong += 1
        except Failed as failure:
            print(f"NOT {array.name()}: {failure}", flush=True)
            wrong += 1
        finally:
            shutil.rmtree(place)
            if array.system == FILLED:
                (folder / f"{array.volume()}.volume").unlink(missing_ok=True)
    print(f"{len(wanted) - wrong} of {len(wanted)} arrays {'are made' if given.disks else 'are singled out'}")
    return wrong


def main() -> int:
    """The status."""
    given = read_arguments()
    if given.folder:
        given.folder.mkdir(parents=True, exist_ok=True)
        return int(counted(given, given.folder) > 0)
    with tempfile.TemporaryDirectory(prefix="reraid-") as made:
        return int(counted(given, pathlib.Path(made)) > 0)


if __name__ == "__main__":
    sys.exit(main())
