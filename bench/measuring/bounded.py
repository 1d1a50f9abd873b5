#!/usr/bin/env python3
"""Times a walk that landmarks decide alone: level 5 of eight members with one lost, in every order and pattern and with nine chunks.

The plan is of version 3: one group of 4,096 marks, of which one in five lies where the true set puts it, and the others anywhere, as copies
in a journal do. It may have as many misfits as marks, and LEAST is the fits of the true set, found by halving as the highest with which
a set is listed. The images are sparse files of zeros, since no sector of them is looked at. Prints the processor's seconds of the listing
with that LEAST, and of the one with a LEAST one higher, in which nothing is listed.

Usage: bench/measuring/bounded.py [--program PATH] [--marks NUMBER] [--fits NUMBER]
"""

from __future__ import annotations

import argparse
import pathlib
import random
import resource
import subprocess
import sys
import tempfile
from dataclasses import dataclass

TOP = pathlib.Path(__file__).resolve().parents[2]
PROGRAM = TOP / "crates/reraid/out/reraid"
MEMBERS = 8
CHUNK = 128
ROWS = 4096
LOST = 3
ORDER = (5, 0, 6, 2, 4, 1, 3)
CHUNKS = "8,16,32,64,128,256,512,1024,2048"
PATTERNS = "la,ra,ls,rs,parity-first,parity-last,n-restart,n-continue"
SECTORS = ROWS * CHUNK


class Wrong(Exception):
    """What was listed is not the true set."""


@dataclass(frozen=True, order=True)
class Mark:
    """A landmark: where it stands, and how far from the start of the volume it may lie."""

    sector: int
    image: int
    distance: int

    def line(self) -> str:
        """Its line in the plan."""
        return f"mark btrfs {self.image} {self.sector} at:{self.distance}\n"


def slots() -> list[int | None]:
    """The images of the true set, slot by slot: none in the lost one."""
    held: list[int | None] = list(ORDER)
    held.insert(LOST, None)
    return held


def placed(volume_sector: int) -> tuple[int | None, int]:
    """The image and its sector at which a sector of the volume lies: left-symmetric, from sector 0 on."""
    row, item = divmod(volume_sector // CHUNK, MEMBERS - 1)
    parity = MEMBERS - 1 - row % MEMBERS
    return slots()[(parity + 1 + item) % MEMBERS], row * CHUNK + volume_sector % CHUNK


def marks_of(count: int, fits: int) -> list[Mark]:
    """So many marks, of which at least so many fit at the true set."""
    chance = random.Random(7)
    found: dict[tuple[int, int], Mark] = {}
    while len(found) < fits:
        distance = chance.randrange(ROWS * (MEMBERS - 1) * CHUNK)
        image, sector = placed(distance)
        if image is not None:
            found[sector, image] = Mark(sector, image, distance)
    while len(found) < count:
        image, sector = chance.randrange(MEMBERS - 1), chance.randrange(SECTORS)
        found.setdefault((sector, image), Mark(sector, image, chance.randrange(ROWS * (MEMBERS - 1) * CHUNK)))
    return sorted(found.values())


def plan(marks: list[Mark], least: int) -> str:
    """The plan with these marks, of which LEAST have to fit."""
    lengths = f"length {SECTORS}\n" * (MEMBERS - 1)
    head = (f"reraid-plan 3\nmode common\nimages {MEMBERS - 1}\n{lengths}end {SECTORS}\nlevels 5\nmembers {MEMBERS}\npatterns {PATTERNS}\n"
            f"syndromes none\nchunks {CHUNKS}\noffsets 0\norigins 0\nmissing 1\nforeign 0\nbadrows 0\nwindow {SECTORS}\nmisfits 0\nleast 1\n")
    return head + f"group btrfs\nbounds {len(marks)} {least}\n" + "".join(mark.line() for mark in marks) + "done\n"


def listed(program: pathlib.Path, folder: pathlib.Path, text: str) -> tuple[list[str], float]:
    """The sets that are listed, and the processor's seconds that it took."""
    before = resource.getrusage(resource.RUSAGE_CHILDREN)
    names = [str(image) for image in range(MEMBERS - 1)]
    run = subprocess.run([program, "list", "--", *names], cwd=folder, input=text, capture_output=True, text=True, check=True)
    after = resource.getrusage(resource.RUSAGE_CHILDREN)
    took = after.ru_utime + after.ru_stime - before.ru_utime - before.ru_stime
    return run.stdout.splitlines()[:-1], took


def measured(program: pathlib.Path, count: int, fits: int) -> None:
    """Makes the images and the plan, finds LEAST by halving, and prints what the listings took."""
    marks = marks_of(count, fits)
    with tempfile.TemporaryDirectory() as name:
        folder = pathlib.Path(name)
        for image in range(MEMBERS - 1):
            with open(folder / str(image), "wb") as file:
                file.truncate(SECTORS * 512)
        low, high = 0, len(marks)
        while low < high:
            middle = (low + high + 1) // 2
            low, high = (middle, high) if listed(program, folder, plan(marks, middle))[0] else (low, middle - 1)
        sets, took = listed(program, folder, plan(marks, low))
        true = ",".join("-" if image is None else str(image) for image in slots())
        if not any(line.endswith(f" 5:ls:none:{CHUNK}:0:{true}") for line in sets):
            raise Wrong(f"LEAST {low}: {sets}")
        print(f"{len(marks)} marks, {low} fit: {len(sets)} listed in {took:.3f} s of the processor")
        sets, took = listed(program, folder, plan(marks, low + 1))
        print(f"LEAST {low + 1}: {len(sets)} listed in {took:.3f} s")


def main() -> int:
    """Reads the words, and measures."""
    parser = argparse.ArgumentParser(description=__doc__.split("\n", maxsplit=1)[0] if __doc__ else "")
    parser.add_argument("--program", type=pathlib.Path, default=PROGRAM)
    parser.add_argument("--marks", type=int, default=4096)
    parser.add_argument("--fits", type=int, default=820)
    words = parser.parse_args()
    try:
        measured(words.program.resolve(), words.marks, words.fits)
    except (Wrong, OSError, subprocess.CalledProcessError) as wrong:
        print(f"bounded.py: {wrong}", file=sys.stderr)
        return 1
    return 0


if __name__ == "__main__":
    sys.exit(main())
