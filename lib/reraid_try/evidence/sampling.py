"""Which rows of large images are looked at: those in which images hold data, by what their file systems say, and by single sectors that are read in
steps, finer around those that are not zeros. What is read is kept in memory, so that it is read once."""

import concurrent.futures
import dataclasses
import itertools
import os
import zlib
from collections.abc import Iterable, Sequence

from ..units import GIB, SECTOR
from . import extents, hints
from .relations import Relations, Rows

# Images in which a step between rows would be longer than those of so many bytes are sampled so.
MIN_LARGE = 4 * GIB
# The part of the rows that lie where images are known to hold data; the others are spread over all of the images.
PART_HELD = 2
# Between two rows that are looked at steps are halved so often around what is not zeros.
HALVINGS = 6
# Rows lie at these sectors of a block, in turn, so that a structure at the start of each is not all that is seen.
WITHIN = 13
ZERO = bytes(SECTOR)
# A sector that can be packed to fewer bytes is a pattern.
MAX_PATTERN = 256


@dataclasses.dataclass(frozen=True)
class Sample:
    """Rows by their numbers, in order, and the sector of each image in each of them."""

    rows: tuple[int, ...]
    sectors: tuple[tuple[bytes, ...], ...]

    def telling(self) -> "Sample":
        """Return the rows of which some image holds more than a pattern. Tables of a file system count in steps, as weights of parity do, and of
        sparse images they are much of what is held."""
        kept = [place for place, sectors in enumerate(self.sectors) if not is_pattern(sectors)]
        return Sample(tuple(self.rows[place] for place in kept), tuple(self.sectors[place] for place in kept))

    def columns(self) -> list[bytes]:
        """Return of each image its sectors, one behind the other."""
        return [b"".join(column) for column in zip(*self.sectors)]


def is_large(first: int, end: int) -> bool:
    """Return whether so many rows are those of large images."""
    return (end - first) * SECTOR > MIN_LARGE


class Reader:
    """Reads sectors of images, each once; a hole is no read. Each image is moved by its offset, and is read beside the others, as each may lie on a
    disk of its own."""

    def __init__(self, names: Sequence[str], offsets: Sequence[int] = ()) -> None:
        self.files = [open(name, "rb", buffering=0) for name in names]
        self.offsets = list(offsets) or [0] * len(names)
        self.kept: dict[int, tuple[bytes, ...]] = {}
        self.read = 0

    def close(self) -> None:
        """Closes the images."""
        for file in self.files:
            file.close()

    def fetch(self, rows: Iterable[int]) -> None:
        """Reads the sector of each image in rows that were not read yet, in their order."""
        new = sorted(set(rows) - self.kept.keys())
        if new:
            with concurrent.futures.ThreadPoolExecutor(len(self.files)) as pool:
                columns = list(pool.map(self.column, range(len(self.files)), itertools.repeat(new)))
            self.read += sum(read for _, read in columns)
            self.kept.update(zip(new, zip(*(column for column, _ in columns))))

    def column(self, place: int, rows: Sequence[int]) -> tuple[list[bytes], int]:
        """Return the sectors of an image in some rows, and how many bytes were read for them."""
        file, offset = self.files[place].fileno(), self.offsets[place]
        places = [(row + offset) * SECTOR for row in rows]
        held = [extents.is_held(file, at) for at in places]
        return [reading_at(file, at) if there else ZERO for at, there in zip(places, held)], SECTOR * sum(held)

    def row(self, number: int) -> tuple[bytes, ...]:
        """Return the sector of each image in a row."""
        self.fetch([number])
        return self.kept[number]

    def tells(self, number: int) -> bool:
        """Return whether two images hold something in a row, so that it may tie them."""
        return sum(sector != ZERO for sector in self.row(number)) > 1


def reading_at(file: int, place: int) -> bytes:
    """Return a sector of a file at a byte; zeros where it has no whole one there."""
    found = os.pread(file, SECTOR, place)
    return found if len(found) == SECTOR else ZERO


def is_pattern(sectors: Sequence[bytes]) -> bool:
    """Return whether a row is not zeros, and all that stands in it has much less in it than it is long."""
    held = [sector for sector in sectors if sector != ZERO]
    return bool(held) and all(len(zlib.compress(sector, 1)) < MAX_PATTERN for sector in held)


def evenly(first: int, end: int, most: int) -> list[int]:
    """Return so many rows from a first to before an end, and as many in steps that grow from where data usually begin, as arrays are filled from
    there."""
    step = max(1, -(-(end - first) // most))
    found = {row + number * WITHIN % min(step, 4096) for number, row in enumerate(range(first, end, step))}
    each = most // len(hints.USUAL_OFFSETS)
    ratio = max(end - first, 2) ** (1 / max(1, each))
    grown = {first + begin + int(ratio ** power) - 1 for begin in hints.USUAL_OFFSETS for power in range(each)}
    return sorted(row for row in found | grown if row < end)


def finer(reader: Reader, rows: Iterable[int], most: int) -> list[int]:
    """Return rows between those that were looked at, around such as tell something: halfway to the next ones on both sides, and again around these,
    until they are so many."""
    seen = sorted(rows)
    added: list[int] = []
    for _ in range(HALVINGS):
        reader.fetch(seen)
        tell = {row for row in seen if reader.tells(row)}
        new = {(one + other) // 2 for one, other in itertools.pairwise(seen) if other - one > 1 and (one in tell or other in tell)}
        new -= set(seen)
        if not new or len(added) >= most:
            break
        picked = sorted(new)[::-(-len(new) // (most - len(added)))]
        added += picked
        seen = sorted({*seen, *picked})
    return added


def look(names: Sequence[str], first: int, end: int, most: int, offsets: Sequence[int] = ()) -> Sample:
    """Return about so many rows of images, from a first to before an end."""
    reader = Reader(names, offsets)
    try:
        rows = evenly(first, end, most // (2 * PART_HELD))
        runs = extents.held_by_any(names, first, end, offsets)
        if 2 * extents.total(runs) < end - first:
            rows += extents.spread(runs, most // PART_HELD)
        else:
            rows += finer(reader, rows, most // PART_HELD)
        found = sorted({row for row in rows if first <= row < end})
        reader.fetch(found)
        return Sample(tuple(found), tuple(reader.row(row) for row in found))
    finally:
        reader.close()


def placed(found: Relations, sample: Sample) -> Relations:
    """Return relations of the rows of a sample, one behind the other, as those of the rows that they are, each by itself."""
    rows = (Rows(sample.rows[place], sample.rows[place], it.zero, it.ties) for it in found.rows for place in range(it.first, it.last + 1))
    return dataclasses.replace(found, rows=tuple(rows))
