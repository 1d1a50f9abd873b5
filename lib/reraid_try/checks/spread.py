"""Whole files of a large volume, found by the tables of its file systems all over these: what lies in its first folders says little of the rest."""

import contextlib
import io
import itertools
import time
from collections.abc import Callable, Iterator, Sequence
from typing import BinaryIO, cast

from ..evidence import unread
from ..units import MIB, SECTOR
from . import extfiles, mapped, ntfsfiles, wholes, xfsfiles
from .mapped import Mapped, Read
from .wholes import KINDS, Kind, Wholes

Tables = Callable[[Read, int], Iterator[Mapped]]
# The tables of each kind of file system, as `blkid` calls it.
TABLES: dict[str, Tables] = {"ext2": extfiles.files, "ext3": extfiles.files, "ext4": extfiles.files, "xfs": xfsfiles.files, "ntfs": ntfsfiles.files}
# Of so many files of the tables the first sector is read; so many bytes of files are, of no file more than a part of these.
MAX_PROBED, MAX_READ, PART_OF_READ = 1024, 1024 * MIB, 8
# Where tables tell of no files, they are looked for in so many windows of so many bytes all over the volume, so many in each.
WINDOWS, WINDOW, MAX_OF_WINDOW = 64, 8 * MIB, 2


class Counted(unread.Unread):
    """A volume that counts the bytes that are read of it; zeros stand for those that cannot be."""

    def __init__(self, path: str) -> None:
        super().__init__(path)
        self.count = 0

    def readinto(self, buffer: "bytearray | memoryview") -> int:  # type: ignore[override]
        """Reads at the place where the file stands."""
        found = super().readinto(buffer)
        self.count += found
        return found

    @property
    def is_full(self) -> bool:
        """Return whether as much was read as may be."""
        return self.count >= MAX_READ


def reader(file: BinaryIO, length: int) -> Read:
    """Return what reads a volume of so many bytes."""
    def read(place: int, count: int) -> bytes:
        if not 0 <= place < length:
            return b""
        file.seek(place)
        return file.read(min(count, length - place))
    return read


def kind_of(head: bytes) -> Kind | None:
    """Return the kind of a file that begins so; None where it does not say itself whether it is whole."""
    return next((kind for kind in KINDS if head.startswith(kind.magic)), None)


def probed(read: Read, found: Sequence[Mapped], until: float) -> list[tuple[Mapped, Kind]]:
    """Return those of these files that say themselves whether they are whole, in the order of the volume."""
    chosen = [found[number] for number in mapped.picked(len(found), MAX_PROBED)]
    told = []
    for it in sorted(chosen, key=lambda one: one.place):
        if time.monotonic() > until:
            break
        if it.size <= MAX_READ // PART_OF_READ and (kind := kind_of(read(it.place, SECTOR))):
            told.append((it, kind))
    return told


def order(found: Sequence[tuple[Mapped, Kind]], most: int) -> list[tuple[Mapped, Kind]]:
    """Return at most so many of these files: the longest ones and such all over the volume in turn, each once."""
    longest = sorted(found, key=lambda it: -it[0].size)
    spread = [found[number] for number in mapped.picked(len(found), most)]
    both = itertools.chain.from_iterable(itertools.zip_longest(longest, spread))
    return list({it[0].place: it for it in both if it}.values())[:most]


def borders(it: Mapped, row: int, chunk: int) -> set[int]:
    """Return from which chunks of a row a file goes on into the next one in one piece."""
    return {number % (row // chunk) for extent in it.extents
            for number in range(extent.place // chunk, (extent.place + extent.length - 1) // chunk)}


def by_tables(path: str, length: int, system: tuple[str, int], rows: tuple[int, int], seconds: float) -> Wholes:
    """Return how many files are whole in a volume of so many bytes, of a file system of a kind that begins at a byte; a row of chunks and a chunk
    have so many bytes."""
    until, (row, chunk), (kind, first) = time.monotonic() + seconds, rows, system
    told, seen = Wholes(spread=True), set[int]()
    with contextlib.closing(Counted(path)) as raw, io.BufferedReader(raw) as buffered:
        read = reader(cast(BinaryIO, buffered), length)
        listed = TABLES[kind](read, first) if kind in TABLES else iter(())
        found = list(itertools.takewhile(lambda _: time.monotonic() < until and not raw.is_full, listed))
        told.more = bool(found)
        for it, sort in order(probed(read, found, until), wholes.MAX_FILES):
            if time.monotonic() < until and raw.count + it.size <= MAX_READ:
                size = sort.length(mapped.opened(read, it), 0)
                told.take(size)
                seen |= borders(it, row, chunk) if size and chunk else set()
    told.long = Wholes(joined=len(seen)) if told.found else None
    return told


def in_windows(path: str, length: int, seconds: float) -> Wholes:
    """Return how many files are whole of those that begin in windows all over a volume of so many bytes."""
    told, until = Wholes(spread=True, more=True), time.monotonic() + seconds
    with contextlib.closing(Counted(path)) as raw, io.BufferedReader(raw) as buffered:
        file = cast(BinaryIO, buffered)
        for number in range(WINDOWS):
            first = length // WINDOWS * number // SECTOR * SECTOR
            here = min(length, first + WINDOW)
            for place, kind in itertools.islice(wholes.starts(file, first, here, until), MAX_OF_WINDOW):
                if not raw.is_full:
                    told.take(kind.length(file, place))
    return told
