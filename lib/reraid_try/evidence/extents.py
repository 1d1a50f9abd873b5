"""Which parts of images their file systems hold: what lies between them are holes of sparse files, which are never read."""

import os
from collections.abc import Iterable, Sequence

from ..units import MIB, SECTOR
from . import reading

# Runs of sectors, each as its first one and the one behind it.
Runs = list[tuple[int, int]]
# Runs closer than this are one, so that a file in many pieces has few of them.
NEAR = MIB // SECTOR


def joined(runs: Iterable[tuple[int, int]], near: int = 0) -> Runs:
    """Return runs in order, those as one that overlap or lie at most so many sectors apart."""
    found: Runs = []
    for first, end in sorted(runs):
        if found and first <= found[-1][1] + near:
            found[-1] = found[-1][0], max(found[-1][1], end)
        else:
            found.append((first, end))
    return found


def held(name: str, first: int, end: int) -> Runs:
    """Return the runs of sectors that an image holds from a first one to before an end; nothing is read."""
    with open(name, "rb") as file:
        runs = ((begin // SECTOR, -(-stop // SECTOR)) for begin, stop in reading.data_runs(file, first * SECTOR, end * SECTOR))
        return joined(((max(first, begin), min(end, stop)) for begin, stop in runs), NEAR)


def held_by_any(names: Sequence[str], first: int, end: int, offsets: Sequence[int] = ()) -> Runs:
    """Return the runs of rows in which some image holds data, each image moved by its offset."""
    moved = offsets or [0] * len(names)
    return joined(((begin - offset, stop - offset) for name, offset in zip(names, moved)
                   for begin, stop in held(name, first + offset, end + offset)), NEAR)


def total(runs: Iterable[tuple[int, int]]) -> int:
    """Return how many sectors the runs have."""
    return sum(end - first for first, end in runs)


def spread(runs: Sequence[tuple[int, int]], most: int) -> list[int]:
    """Return about so many sectors of runs, evenly spread over them, and the first ones of half as many runs at most."""
    count = total(runs)
    step = max(1, -(-count // most))
    found: list[int] = []
    before = 0
    for first, end in runs:
        found += range(first + -before % step, end, step)
        before += end - first
    return sorted({*found, *(first for first, _ in runs[:most // 2])})[:most + most // 2]


def is_held(file_number: int, place: int) -> bool:
    """Return whether a byte of an open file lies in no hole."""
    try:
        return os.lseek(file_number, place, os.SEEK_DATA) == place
    except OSError:
        return False
