#!/usr/bin/env python3
"""Compares the pictures of docs/LAYOUTS.md with the layouts that disks.py makes on its own, cell by cell.

Usage: pictures.py
Of levels 0, 5 and 6 a cell is a data item of its row, P or Q; of RAID 10 it is a chunk of the volume. Prints each picture's name and
whether it agrees; status 1 where one does not.
"""

import pathlib
import random
import re
import sys

sys.path.insert(0, str(pathlib.Path(__file__).resolve().parents[2] / "bench/making"))
import disks  # noqa: E402

PAGE = pathlib.Path(__file__).resolve().parents[2] / "docs/LAYOUTS.md"
PARTS = {"Level 0": "0", "Level 5": "5", "Level 6": "6", "Delayed parity": "5", "RAID 10": "10"}
# How many copies the pictures of RAID 10 have.
COPIES = 2


def pictures():
    """The level, the pattern and the rows of each picture."""
    level, pattern, rows = None, "plain", None
    for line in PAGE.read_text().splitlines():
        heading, name = re.match(r"## (.*)", line), re.match(r"### ([a-z0-9*-]+)|`([a-z0-9-]+)`:", line)
        if heading:
            level = PARTS.get(heading[1])
        elif line == "```":
            if rows is not None:
                yield level, pattern, rows
            rows = [] if rows is None else None
        elif rows is not None:
            rows.append(line.split())
        elif name:
            pattern = name[1] or name[2]


def drawn(level, pattern, rows):
    """What disks.py has in the place of these rows."""
    members = len(rows[0])
    if level == "10":
        chunks = bytes(range(len(rows) * members // COPIES))
        return [[str(cell) for cell in row] for row in zip(*disks.mirrored(chunks, 1, members, pattern, random.Random(0)))]
    parity, made = disks.PARITY[level], []
    pattern, delay = disks.delayed(pattern)
    for row in range(len(rows)):
        turn = row // delay
        cells = dict(zip(disks.parity_slots(pattern, turn, members, parity), "PQ")) if parity else {}
        cells |= {slot: str(item) for item, slot in enumerate(disks.item_slots(pattern, turn, members, parity))}
        made.append([cells[slot] for slot in range(members)])
    return made


def main():
    agree = []
    for level, pattern, rows in pictures():
        agree.append(drawn(level, pattern, rows) == rows)
        print(f"{pattern} of {len(rows[0])}" if level == "10" else f"{level} {pattern}", "agrees" if agree[-1] else "DIFFERS")
    print(f"{sum(agree)} of {len(agree)} pictures agree")
    return not all(agree)


if __name__ == "__main__":
    sys.exit(main())
