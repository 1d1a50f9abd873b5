"""Looks at the images before anything is searched: lengths, partition tables of their own, where they hold data, which are alike."""

import concurrent.futures
import dataclasses
import os
import stat
from collections.abc import Iterable, Sequence
from typing import Any, BinaryIO

from ..errors import OutsideError, said
from ..opening import Opened
from ..units import GIB, SECTOR, counted
from . import heads, maps, reading, tables
from .heads import Head
from .maps import Map
from .tables import Table

# What is looked at in each image for heads of file systems: a little more than the greatest usual offset.
HEAD = 270336 * SECTOR
# So many sectors, spread over two images, tell that they are not the same. Of large images so many sectors, and so many first bytes, tell that they
# are.
SAMPLES, MORE_SAMPLES, MAX_COMPARED = 64, 1024, 2 * GIB


@dataclasses.dataclass(frozen=True)
class Image:
    """An image as it was seen: its name and number, its sectors and the bytes behind them, the table that it begins with, its first and last
    sector that is not zeros, the image that it is the same as, its map, the heads on it, the container in which it is, where it is in one, and the
    map of the texts that stand in it in place of what could not be read, where it has none beside it."""

    name: str
    number: int
    sectors: int
    rest: int = 0
    table: Table = Table()
    first: int | None = None
    last: int | None = None
    like: int | None = None
    map: Map | None = None
    heads: tuple[Head, ...] = ()
    opened: Opened | None = None
    fill: Map | None = None

    @property
    def unread(self) -> Map | None:
        """The map of what was not read of it; None where all was, as far as is known."""
        return self.map or self.fill

    @property
    def called(self) -> str:
        """The name by which people know it: that of its container, where it is in one."""
        return self.opened.name if self.opened else self.name

    def line(self) -> str:
        """Return it as one line of text."""
        parts = [f"image {self.number} {self.called}: {self.sectors} sectors"]
        if self.rest:
            parts[0] += f" and {counted(self.rest, 'byte')} after the last whole sector, which {'is' if self.rest == 1 else 'are'} ignored"
        last = "on" if self.last is None else f"to {self.last}"
        parts.append("nothing but zeros" if self.first is None else f"non-zero from sector {self.first} {last}")
        if self.table.kind:
            whose = "its own" if self.table.own else "at its start a"
            partitions = " ".join(f"{it.first}+{it.count}" for it in self.table.partitions) or "no partition"
            parts.append(f"{whose} {self.table.kind} with {partitions}")
        if self.like is not None:
            parts.append(f"the same as image {self.like}")
        if self.map:
            parts.append(f"mapfile {self.map.name}")
        return ", ".join(parts)

    def fields(self) -> dict[str, Any]:
        """What programs are told of it."""
        partitions = [dataclasses.asdict(it) for it in self.table.partitions]
        container = self.opened.container.kind if self.opened else None
        return {"name": self.called, "container": container, "number": self.number, "sectors": self.sectors, "rest": self.rest,
                "table": self.table.kind, "own": self.table.own, "partitions": partitions, "first": self.first, "last": self.last,
                "like": self.like, "map": self.map.name if self.map else None, "map_sha256": self.map.sha256 if self.map else None}


def unread_by(images: Iterable[Image]) -> str:
    """By what sectors count as unread of images of which some do, as it is said."""
    there = {image.map is not None for image in images if image.unread} or {True}
    return " and ".join(["the maps"] * (True in there) + ["the texts that count as unread"] * (False in there))


def filled(names: Sequence[str], first: int, last: int) -> bytearray:
    """For each of these sectors 1 where some image is not zero there, and 0 else."""
    flags, zeros = bytearray(), bytes(SECTOR)
    try:
        files = [open(name, "rb") for name in names]
        for place in range(first * SECTOR, last * SECTOR, reading.STEP):
            merged, count = 0, min(reading.STEP, last * SECTOR - place)
            for file in files:
                if not reading.is_hole(file, place, place + count):
                    file.seek(place)
                    merged |= int.from_bytes(file.read(count), "little")
            block = merged.to_bytes(count, "little") if merged else b""
            flags += bytes(block[start:start + SECTOR] != zeros for start in range(0, count, SECTOR)) if merged else bytes(count // SECTOR)
        for file in files:
            file.close()
    except OSError as error:
        raise OutsideError(f"an image cannot be read: {said(error)}") from error
    return flags


def filled_of(name: str, first: int, last: int) -> bytes:
    """For each of these sectors 1 where an image is not zero there, and 0 else."""
    flags, zeros, full = bytearray(last - first), bytes(SECTOR), bytes(reading.STEP)
    with open(name, "rb") as file:
        for place, block in reading.blocks(file, first * SECTOR, last * SECTOR):
            if block != full[:len(block)]:
                begin = place // SECTOR - first
                held = bytes(block[start:start + SECTOR] != zeros for start in range(0, len(block), SECTOR))
                flags[begin:begin + len(held)] = held
    return bytes(flags)


def samples(file: BinaryIO, length: int, count: int = SAMPLES) -> list[bytes]:
    """So many sectors of an image, spread over it."""
    taken = []
    for k in range(count):
        file.seek(length // SECTOR * k // count * SECTOR)
        taken.append(file.read(SECTOR))
    return taken


def look(name: str, number: int, first_bytes: int, opened: Opened | None = None) -> Image:
    """What is seen of an image, with no more read than its first bytes and its last ones."""
    called = opened.name if opened else name
    try:
        with open(name, "rb") as file:
            return dataclasses.replace(look_into(file, name, called, number, first_bytes), opened=opened)
    except OSError as error:
        advice = "copy it with ddrescue: its mapfile lists what is unreadable"
        raise OutsideError(f"image {number} {called} cannot be read: {said(error)} ({advice})") from error


def map_beside(name: str) -> str | None:
    """Return the map beside an image, or beside the file that a link leads to; None if there is none."""
    names = (f"{begin}.map" for it in (name, os.path.realpath(name)) for begin in (it, os.path.splitext(it)[0]))
    return next((name for name in names if os.path.isfile(name)), None)


def look_into(file: BinaryIO, name: str, called: str, number: int, first_bytes: int) -> Image:
    """What is seen of an image that is open; its map is beside what it is called."""
    size = file.seek(0, os.SEEK_END)
    sectors = size // SECTOR
    length = sectors * SECTOR
    if not sectors:
        raise OutsideError(f"image {number} {called} has {counted(size, 'byte')}, less than a sector of {SECTOR}: leave it out")

    def read(place: int, count: int) -> bytes:
        file.seek(place)
        return file.read(count)
    first, last = bounds(file, length, first_bytes)
    beside = map_beside(called)
    return Image(name, number, sectors, size - length, tables.read_table(read, sectors), first, last, None, maps.read_map(beside) if beside else None,
                 heads.find_heads(file, number, min(length, HEAD)))


def bounds(file: BinaryIO, length: int, first_bytes: int) -> tuple[int | None, int | None]:
    """Return the first and the last sector of an image that are not zeros. So many first and last bytes of a long one are looked at, and then what
    lies between them: a disk of an array may hold all its data there."""
    first = reading.first_data(file, min(length, first_bytes))
    last = reading.last_data(file, max(0, length - first_bytes), length)
    if length > 2 * first_bytes:
        first = reading.first_behind(file, first_bytes, length - first_bytes) if first is None else first
        last = reading.last_data(file, first_bytes, length - first_bytes) if last is None else last
    if last is None and first is not None:
        last = reading.last_data(file, 0, min(length, first_bytes))
    return first, last


def held(image: Image) -> int:
    """Return how many bytes of an image its file system holds; all of a block device, and of a file whose file system does not tell."""
    seen = os.stat(image.name)
    return seen.st_blocks * SECTOR if stat.S_ISREG(seen.st_mode) and seen.st_blocks else image.sectors * SECTOR


def equal(one: Image, other: Image, bound: int) -> bool:
    """Two images hold the same in their first bytes, of large ones in fewer and in sectors all over them, and are as long."""
    if one.sectors != other.sectors or one.first != other.first or one.last != other.last or one.first is None:
        return False
    length = one.sectors * SECTOR
    with open(one.name, "rb") as left, open(other.name, "rb") as right:
        if samples(left, length) != samples(right, length):
            return False
        if bound > MAX_COMPARED and length > MAX_COMPARED:
            if samples(left, length, MORE_SAMPLES) != samples(right, length, MORE_SAMPLES):
                return False
            bound = MAX_COMPARED
        for place in range(0, min(bound, length), reading.STEP):
            if reading.is_hole(left, place, place + reading.STEP) and reading.is_hole(right, place, place + reading.STEP):
                continue
            left.seek(place)
            right.seek(place)
            count = min(reading.STEP, length - place)
            if left.read(count) != right.read(count):
                return False
    return True


def look_at_all(names: Sequence[str], first_bytes: int, opened: Sequence[Opened] = ()) -> tuple[Image, ...]:
    """What is seen of all images, in their order; some of them are opened containers."""
    seen: list[Image] = []
    containers = {it.path: it for it in opened}
    with concurrent.futures.ThreadPoolExecutor(max(1, len(names))) as pool:
        found = list(pool.map(lambda number: look(names[number], number, first_bytes, containers.get(names[number])), range(len(names))))
    for image in found:
        try:
            like = next((it.number for it in seen if equal(it, image, first_bytes)), None)
        except OSError as error:
            raise OutsideError(f"image {image.number} {image.called} cannot be read: {said(error)}") from error
        seen.append(dataclasses.replace(image, like=like))
    return tuple(seen)
