"""Ties of patterns: contents that repeat cancel on any disks of any array, so a row tells nothing in which such sectors alone are tied."""

import contextlib
import dataclasses
import functools
import os
import zlib
from collections.abc import Callable, Iterable, Iterator, Mapping, Sequence

from ..units import SECTOR
from . import texts
from .relations import Relations, Rows

# A sector that can be packed to fewer bytes is a pattern.
MAX_PACKED = 256
# If fewer rows are left in which two images hold something, there is hardly anything but patterns, and all rows count.
MIN_ROWS = 64
ZERO = bytes(SECTOR)


def is_pattern(sector: bytes) -> bool:
    """Return whether a sector has much less in it than it is long."""
    return len(sector) == SECTOR and len(zlib.compress(sector, 1)) < MAX_PACKED


def repeats(sector: bytes) -> bool:
    """Return whether a sector is a short pattern over and over, and not zeros."""
    if not sector.strip(sector[:1]):
        return any(sector)
    found = texts.text_of(sector)
    return found is not None and found.again


def kept_rows(rows: Rows, step: int, is_tied_by_patterns: Callable[[Rows, int], bool]) -> Iterator[Rows]:
    """Yield the rows of a run without those in which patterns alone are tied."""
    if not rows.ties:
        yield rows
        return
    first = None
    for row in range(rows.first, rows.last + 1, step):
        if is_tied_by_patterns(rows, row):
            if first is not None:
                yield dataclasses.replace(rows, first=first, last=row - step)
            first = None
        elif first is None:
            first = row
    if first is not None:
        yield dataclasses.replace(rows, first=first, last=rows.first + (rows.last - rows.first) // step * step)


def without(found: Relations, held: Callable[[int, int], bytes], images: int) -> Relations:
    """Return relations of so many images without the rows in which patterns alone are tied; `held` gives the sector of an image in a row."""
    @functools.cache
    def repeats(image: int, row: int) -> bool:
        return is_pattern(held(image, row))

    def is_tied_by_patterns(rows: Rows, row: int) -> bool:
        return any(all(repeats(image, row) for image in tie.images) for tie in rows.ties)
    kept = tuple(it for rows in found.rows for it in kept_rows(rows, found.step, is_tied_by_patterns))
    telling = sum(rows.count(found.step) for rows in kept if images - len(rows.zero) > 1)
    return dataclasses.replace(found, rows=kept) if telling >= MIN_ROWS else found


class Sectors:
    """Single sectors of images by their numbers, each image moved by its offset. What cannot be read is nothing."""

    def __init__(self, names: Mapping[int, str], offsets: Sequence[int] = ()) -> None:
        self.files: dict[int, int] = {}
        self.offsets = dict(zip(names, offsets or [0] * len(names)))
        for number, name in names.items():
            with contextlib.suppress(OSError):
                self.files[number] = os.open(name, os.O_RDONLY)

    def close(self) -> None:
        """Closes the images."""
        for file in self.files.values():
            os.close(file)

    def held(self, image: int, row: int) -> bytes:
        """Return the sector of an image in a row; nothing if it cannot be read."""
        if image not in self.files:
            return b""
        with contextlib.suppress(OSError):
            return os.pread(self.files[image], SECTOR, (row + self.offsets[image]) * SECTOR)
        return b""

    def repeat(self, row: int, images: Iterable[int]) -> bool:
        """Return whether one of some images holds a short pattern over and over in a row."""
        return any(repeats(self.held(image, row)) for image in images)
