"""Tables of file systems that lie behind what is surveyed of large images. What was surveyed tells where in the volume they are, and that tells
within a chunk where on each image, whatever the layout is: landmarks by the thousand come from there."""

import dataclasses
import struct
from collections.abc import Callable, Iterator, Sequence

from ..calls.plans import Plan
from ..checks import extfiles, xfsfiles
from ..checks.mapped import Read, picked
from ..units import SECTOR
from . import compact, extents

# Chunks have so many sectors at most, and so many sectors of tables are read of each image behind where they begin.
MAX_CHUNK, TABLE = 2048, 2048
# So many sectors around each landmark that was seen are read again, of so many landmarks at most.
AROUND, MAX_AGAIN = 16, 2048
# So many tables are looked at, at most.
MAX_TABLES = 64
# Sectors from the start of an ext to its first superblock.
EXT_SUPER = 2
# The bits of the flags of a group of an ext, and how far apart its two bitmaps are. The program locates inodes of groups whose descriptors lie in so
# many bytes behind a superblock.
GROUP_FLAGS, MAX_APART, LOCATED = 7, 4096, 128 * SECTOR


@dataclasses.dataclass(frozen=True)
class Start:
    """Where a file system begins: its kind as plans have it, the image by its place, and the sector."""

    kind: str
    image: int
    sector: int


@dataclasses.dataclass(frozen=True)
class Asked:
    """What is asked: the names of the images, how many sectors all have, from where on nothing is surveyed, how many data disks there may be, and the
    heads of file systems that were seen on the images."""

    names: tuple[str, ...]
    end: int
    near: int
    data: tuple[int, ...]
    heads: tuple[Start, ...] = ()


def starts(plan: Plan, heads: Sequence[Start]) -> Iterator[Start]:
    """Yield where the file systems begin whose first superblock a survey saw, or that are known by their heads; of some close to each other one."""
    seen: list[Start] = []
    for it in heads:
        if it.kind in TELLERS and not any(abs(it.sector - other.sector) <= MAX_CHUNK for other in seen):
            seen.append(it)
            yield it
    for group in plan.groups:
        first = min((mark for mark in group.marks if mark.kind == "super"), key=lambda mark: (mark.nearest, mark.sector), default=None)
        if group.kind in TELLERS and first and first.nearest <= EXT_SUPER:
            yield Start(group.kind, first.image, first.sector - first.nearest)


def reader(name: str) -> Read:
    """Return what reads bytes of an image."""
    def read(place: int, count: int) -> bytes:
        with open(name, "rb") as file:
            file.seek(place)
            return file.read(count)
    return read


def xfs_tables(asked: Asked, start: Start) -> tuple[list[int], list[tuple[int, int]]]:
    """Return the bytes at which allocation groups of an XFS begin, counted from its own start, and what of the images tells of them: nothing more."""
    it = xfsfiles.shape(reader(asked.names[start.image]), start.sector * SECTOR)
    return [number * it.blocks * it.block for number in range(1, it.groups)] if it else [], []


def ext_tables(asked: Asked, start: Start) -> tuple[list[int], list[tuple[int, int]]]:
    """Return the bytes at which tables of inodes of an ext begin in which some are used and that the program locates, counted from its own start, and
    the runs of sectors of the images that hold the descriptors of its groups."""
    it = extfiles.Tables(reader(asked.names[start.image]), start.sector * SECTOR)
    if not it.good:
        return [], []
    first, length = (it.start + 1) * it.block, min(it.groups * it.descriptor, LOCATED)
    runs = [run_of(start.sector, first, length, data) for data in asked.data]
    found = {table for name in asked.names for begin, end in runs
             for table in used_tables(it, reader(name)(max(0, begin) * SECTOR, (end - max(0, begin)) * SECTOR))}
    return sorted(found), runs


def used_tables(it: extfiles.Tables, data: bytes) -> Iterator[int]:
    """Yield the bytes, from the start of an ext, of tables of inodes that descriptors of groups name, of such in which inodes are used."""
    blocks = it.groups << 20
    for at in range(0, len(data) - it.descriptor + 1, it.descriptor):
        bitmap, inodes, table = struct.unpack_from("<III", data, at)
        if not table or not bitmap or not inodes:
            continue
        free, folders, flags = struct.unpack_from("<HHH", data, at + 14)
        if it.wide and it.descriptor >= 64:
            bitmap, inodes, table = (low + (high << 32) for low, high in zip((bitmap, inodes, table), struct.unpack_from("<III", data, at + 32)))
        used = it.inodes - free
        if flags <= GROUP_FLAGS and 0 < used <= it.inodes and folders <= used and abs(bitmap - inodes) <= MAX_APART and table < blocks:
            yield table * it.block


TELLERS: dict[str, Callable[[Asked, Start], tuple[list[int], list[tuple[int, int]]]]] = {"xfs": xfs_tables, "ext": ext_tables}


def run_of(start: int, place: int, length: int, data: int) -> tuple[int, int]:
    """Return the sectors of each image that hold some bytes of a file system, counted from its own start, which lies at a sector of some image, with
    so many data disks: a chunk more on both sides."""
    first = start + place // data // SECTOR
    return first - MAX_CHUNK, first + length // data // SECTOR + MAX_CHUNK


def far_runs(asked: Asked, start: Start, places: Sequence[int], most: int) -> list[tuple[int, int]]:
    """Return the runs of sectors of so many tables at most, all over the images behind what is surveyed, in which some image holds something."""
    runs = sorted({run_of(start.sector, place, TABLE * SECTOR * data, data) for place in places for data in asked.data})
    behind = [(first, min(end, asked.end)) for first, end in runs if asked.near <= first and end <= asked.end + MAX_CHUNK]
    held = [(first, end) for first, end in behind if extents.held_by_any(asked.names, first, end)]
    return [held[number] for number in picked(len(held), most)]


def again(plan: Plan, end: int) -> list[tuple[int, int]]:
    """Return runs of sectors around the landmarks of a survey, so that they are seen beside others."""
    places = sorted({mark.sector for mark in plan.marks()})
    return [(max(0, places[number] - AROUND), min(end, places[number] + AROUND)) for number in picked(len(places), MAX_AGAIN)]


def runs(plan: Plan, asked: Asked) -> tuple[tuple[int, int], ...]:
    """Return what is surveyed for the far tables of the file systems of a plan: these, and what was seen before; nothing if there are none. All of it
    fits into memory."""
    each = (TABLE + 2 * MAX_CHUNK) * SECTOR * len(asked.names)
    most = max(2, min(MAX_TABLES, compact.MAX_BYTES // each))
    found, beside = list[tuple[int, int]](), list[tuple[int, int]]()
    told = list(starts(plan, asked.heads))
    for start in told:
        places, more = TELLERS[start.kind](asked, start)
        found += far_runs(asked, start, places, max(2, most // len(told)))
        beside += more
    if not found:
        return ()
    beside = [(max(0, first), min(end, asked.near)) for first, end in beside if first < asked.near]
    return tuple(extents.joined([*found, *beside, *again(plan, asked.near)]))
