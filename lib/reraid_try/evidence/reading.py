"""Reading images and volumes: by the runs that a file system holds, a block at a time."""

import concurrent.futures
import errno
import os
import stat
from collections.abc import Callable, Iterator, Sequence
from typing import BinaryIO, TypeVar

from ..units import MIB, SECTOR

One = TypeVar("One")
STEP = MIB
# So many bytes are read from the end back until something is not zeros, and then so many single sectors; as many bytes from a place on, and then so
# many single sectors.
MAX_BACK, STEPS, STEPS_ON = 64 * MIB, 256, 1024


def data_runs(file: BinaryIO, first: int, last: int) -> Iterator[tuple[int, int]]:
    """The runs of bytes from first to last that the file system holds; all, where it does not tell."""
    while first < last:
        try:
            begin = os.lseek(file.fileno(), first, os.SEEK_DATA)
            end = os.lseek(file.fileno(), begin, os.SEEK_HOLE)
        except OSError as error:
            if error.errno != errno.ENXIO:
                yield first, last
            return
        if begin >= last:
            return
        yield begin, min(end, last)
        first = end


def is_hole(file: BinaryIO, first: int, last: int) -> bool:
    """Return whether the file system holds nothing from a byte to before another one."""
    return next(data_runs(file, first, last), None) is None


def blocks(file: BinaryIO, first: int, last: int, step: int = STEP) -> Iterator[tuple[int, bytes]]:
    """The bytes from first to last that are held, a block at a time, each with its place."""
    for begin, end in data_runs(file, first, last):
        for place in range(begin, end, step):
            file.seek(place)
            yield place, file.read(min(step, end - place))


def first_data(file: BinaryIO, last: int) -> int | None:
    """The first sector that is not zeros, before a byte."""
    for place, block in blocks(file, 0, last):
        rest = block.lstrip(b"\0")
        if rest:
            return (place + len(block) - len(rest)) // SECTOR
    return None


def first_behind(file: BinaryIO, first: int, length: int) -> int | None:
    """The first sector that is not zeros, from a byte on. Where many bytes behind it are zeros it is the first of single sectors that are looked at
    in steps behind these."""
    read = 0
    for begin, end in data_runs(file, first, length):
        for place in range(begin, end, STEP):
            if read >= MAX_BACK:
                return first_of_steps(file, place, length)
            file.seek(place)
            block = file.read(min(STEP, end - place))
            rest = block.lstrip(b"\0")
            read += len(block)
            if rest:
                return (place + len(block) - len(rest)) // SECTOR
    return None


def first_of_steps(file: BinaryIO, first: int, last: int) -> int | None:
    """The first sector that is not zeros of some that lie evenly over what the file system holds between two bytes."""
    runs = [(begin // SECTOR, end // SECTOR) for begin, end in data_runs(file, first, last)]
    step = max(1, sum(end - begin for begin, end in runs) // STEPS_ON)
    for begin, end in runs:
        for sector in range(begin, end, step):
            file.seek(sector * SECTOR)
            if file.read(SECTOR).strip(b"\0"):
                return sector
    return None


def last_data(file: BinaryIO, first: int, length: int) -> int | None:
    """The last sector that is not zeros, from a byte on. Where many bytes before the end are zeros it is the last of single sectors that are looked
    at in steps before these."""
    read = 0
    for begin, end in reversed(list(data_runs(file, first, length))):
        for place in range(end - (end - begin - 1) % STEP - 1, begin - 1, -STEP):
            if read >= MAX_BACK:
                return last_of_steps(file, first, place)
            file.seek(place)
            block = file.read(min(STEP, end - place)).rstrip(b"\0")
            read += STEP
            if block:
                return (place + len(block) - 1) // SECTOR
    return None


def last_of_steps(file: BinaryIO, first: int, last: int) -> int | None:
    """The last sector that is not zeros of some that lie evenly between two bytes."""
    step = max(1, (last - first) // SECTOR // STEPS)
    for sector in range(last // SECTOR - 1, first // SECTOR - 1, -step):
        file.seek(sector * SECTOR)
        if file.read(SECTOR).strip(b"\0"):
            return sector
    return None


def strided(block: bytes, byte: int, value: int) -> list[int]:
    """The sectors of a block whose byte at a place has a value."""
    column, found = block[byte::SECTOR], []
    place = column.find(value)
    while place >= 0:
        found.append(place)
        place = column.find(value, place + 1)
    return found


def disk_of(name: str) -> tuple[bool, int]:
    """Return what is the same of images on one disk: the device of their file system, or the device that they are."""
    seen = os.stat(name)
    return (True, seen.st_rdev) if stat.S_ISBLK(seen.st_mode) else (False, seen.st_dev)


def by_disk(names: Sequence[str], read: Callable[[int], One]) -> list[One]:
    """Return what is read of images, by their places: on different disks side by side, and on one disk one after the other."""
    disks: dict[tuple[bool, int], list[int]] = {}
    for place, name in enumerate(names):
        disks.setdefault(disk_of(name), []).append(place)
    found: dict[int, One] = {}

    def read_all(places: Sequence[int]) -> None:
        found.update({place: read(place) for place in places})
    with concurrent.futures.ThreadPoolExecutor(max(1, len(disks))) as pool:
        list(pool.map(read_all, disks.values()))
    return [found[place] for place in range(len(names))]
