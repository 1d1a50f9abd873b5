"""What is drawn of each image: where it holds data, by looking at places of it or at all of it, and its digest, which takes the whole reading."""

import dataclasses
import hashlib
import os
import threading
from collections.abc import Callable, Sequence
from typing import BinaryIO

from ..errors import OutsideError, said
from ..units import MIB, SECTOR

# A strip has at most so many cells, and each cell is looked at in so many places, of so many bytes.
CELLS, LOOKS, LOOK = 256, 4, 4096
# Images that together have at most so many bytes are read wholly for their strips.
SMALL = 2048 * MIB
BLOCK = MIB


@dataclasses.dataclass(frozen=True)
class Strip:
    """Where an image holds data: how many sectors a cell has, and of each cell how many of 100 parts that were looked at are not zeros (None where it
    could not be read). `looks` is in how many places each cell was looked at, 0 where all of it was."""

    image: int
    cell: int
    filled: tuple[int | None, ...]
    looks: int


def cell_of(sectors: Sequence[int]) -> int:
    """Return how many sectors a cell has, for images of these lengths: all have one scale."""
    return max(1, -(-max(sectors, default=0) // CELLS))


def percent(filled: int, looked: int) -> int | None:
    """Return a part in hundredths, of which what is not nothing is not 0; None of nothing."""
    return None if not looked else max(100 * filled // looked, 1 if filled else 0)


class Pages:
    """Counts the pages of an image that are not zeros, cell by cell, as its blocks come by."""

    def __init__(self, sectors: int, cell: int) -> None:
        self.cell, self.count = cell * SECTOR, -(-sectors // cell)
        self.filled, self.looked = [0] * self.count, [0] * self.count

    def add(self, place: int, block: bytes) -> None:
        """A block at a byte of the image."""
        zeros = bytes(LOOK)
        empty = block.count(0) == len(block)
        for start in range(0, len(block), LOOK):
            cell = (place + start) // self.cell
            if cell < self.count:
                part = block[start:start + LOOK]
                self.looked[cell] += 1
                self.filled[cell] += not empty and part != zeros[:len(part)]

    def strip(self, image: int, looks: int) -> Strip:
        """Return the strip of what came by."""
        return Strip(image, self.cell // SECTOR, tuple(percent(some, looked) for some, looked in zip(self.filled, self.looked)), looks)


def sampled(name: str, image: int, sectors: int, cell: int) -> Strip:
    """Return the strip of an image by a few places of each cell, spread evenly."""
    pages = Pages(sectors, cell)
    with open(name, "rb") as file:
        for number in range(pages.count):
            for look in range(LOOKS):
                place = (number * pages.cell + look * pages.cell // LOOKS) // SECTOR * SECTOR
                if place < sectors * SECTOR:
                    read_into(pages, file, place, min(LOOK, sectors * SECTOR - place))
    return pages.strip(image, LOOKS)


def read_into(pages: Pages, file: BinaryIO, place: int, count: int) -> None:
    """Reads a block; one that cannot be read is left out."""
    try:
        file.seek(place)
        pages.add(place, file.read(count))
    except OSError:
        pass


def whole(name: str, image: int, sectors: int, cell: int, told: Callable[[int], bool] = lambda count: True) -> tuple[Strip, str] | None:
    """Return the strip of an image by all of it, and its SHA-256 with the bytes behind its last whole sector. `told` is told how many bytes were
    read, and says whether to go on; None where it does not."""
    pages, digest, place = Pages(sectors, cell), hashlib.sha256(), 0
    try:
        with open(name, "rb") as file:
            while block := file.read(BLOCK):
                digest.update(block)
                pages.add(place, block)
                place += len(block)
                if not told(len(block)):
                    return None
    except OSError as error:
        raise OutsideError(f"{name} cannot be read at byte {place}: {said(error)}") from error
    return pages.strip(image, 0), digest.hexdigest()


@dataclasses.dataclass(frozen=True)
class Hashed:
    """The digest of an image, with its strip; or why there is none."""

    image: int
    size: int
    sha256: str = ""
    why: str = ""
    strip: Strip | None = None


def size_of(name: str) -> int:
    """Return the bytes of an image."""
    with open(name, "rb") as file:
        return file.seek(0, os.SEEK_END)


class Hashing:
    """Takes the digests of images in the background, one after another, while other work goes on."""

    def __init__(self, images: Sequence[tuple[int, str, int]], cell: int) -> None:
        self.images, self.cell = images, cell
        self.sizes = [size_of(name) for _, name, _ in images]
        self.total = sum(self.sizes)
        self.done, self.ended = 0, threading.Event()
        self.found: list[Hashed] = []
        self.thread = threading.Thread(target=self.run, daemon=True)
        self.thread.start()

    def run(self) -> None:
        """All images, until it is told to end."""
        for (number, name, sectors), size in zip(self.images, self.sizes):
            try:
                answer = whole(name, number, sectors, self.cell, self.told)
                self.found.append(Hashed(number, size, answer[1], "", answer[0]) if answer else Hashed(number, size, why="the run was interrupted"))
            except OutsideError as error:
                self.found.append(Hashed(number, size, why=str(error)))

    def told(self, count: int) -> bool:
        """So many bytes more were read; whether to go on."""
        self.done += count
        return not self.ended.is_set()

    def wait(self, seconds: float) -> bool:
        """Waits so long, and says whether all digests are there."""
        self.thread.join(seconds)
        return not self.thread.is_alive()

    def end(self) -> None:
        """Ends it; what is not known yet stays so."""
        self.ended.set()
        self.thread.join()
