"""Files of an NTFS by its master file table, all over it."""

import struct
from collections.abc import Iterator

from ..units import KIB, SECTOR
from .mapped import Extent, Mapped, Read, picked

# So many places of the table are looked at, and so many bytes at each.
MAX_PLACES, STEP = 128, 64 * KIB
MIN_BYTES = 4 * KIB
IN_USE, IS_FOLDER, DATA, END = 1, 2, 0x80, 0xFFFFFFFF


def whole(record: bytes) -> bytes | None:
    """Return a record with the ends of its sectors put back; None where it is none, or torn."""
    if record[:4] != b"FILE":
        return None
    at, count = struct.unpack_from("<HH", record, 4)
    if at + 2 * count > len(record) or (count - 1) * SECTOR > len(record) or count < 2:
        return None
    found = bytearray(record)
    for number in range(1, count):
        end = number * SECTOR
        if found[end - 2:end] != record[at:at + 2]:
            return None
        found[end - 2:end] = record[at + 2 * number:at + 2 * number + 2]
    return bytes(found)


def runs(data: bytes, cluster: int, first: int) -> tuple[Extent, ...]:
    """Return the extents of a list of runs, of a file system that begins at a byte; none where some are in no cluster."""
    found: list[Extent] = []
    at = place = here = 0
    while here < len(data) and data[here]:
        size, width = data[here] & 15, data[here] >> 4
        if not size or not width or here + 1 + size + width > len(data):
            return ()
        length = int.from_bytes(data[here + 1:here + 1 + size], "little")
        place += int.from_bytes(data[here + 1 + size:here + 1 + size + width], "little", signed=True)
        if place < 0:
            return ()
        found.append(Extent(at * cluster, first + place * cluster, length * cluster))
        at, here = at + length, here + 1 + size + width
    return tuple(found)


def data_of(record: bytes, cluster: int, first: int) -> Mapped | None:
    """Return what the unnamed data of a record lie in; None where they stand in it, or are packed or encrypted."""
    here, = struct.unpack_from("<H", record, 20)
    while here + 64 <= len(record):
        kind, length = struct.unpack_from("<II", record, here)
        if kind == END or length < 16:
            return None
        if kind == DATA and record[here + 9] == 0:
            flags, = struct.unpack_from("<H", record, here + 12)
            if not record[here + 8] or flags:
                return None
            begin, = struct.unpack_from("<H", record, here + 32)
            size, = struct.unpack_from("<Q", record, here + 48)
            found = runs(record[here + begin:here + length], cluster, first)
            return Mapped(size, found) if found else None
        here += length
    return None


def files(read: Read, first: int) -> Iterator[Mapped]:
    """Yield files of an NTFS that begins at a byte, by records all over its table."""
    head = read(first, SECTOR)
    if len(head) < SECTOR or head[3:11] != b"NTFS    ":
        return
    cluster = struct.unpack_from("<H", head, 11)[0] * head[13]
    size = struct.unpack_from("<b", head, 64)[0]
    length = 1 << -size if size < 0 else size * cluster
    if not 512 <= length <= 65536 or not cluster:
        return
    own = whole(read(first + struct.unpack_from("<Q", head, 48)[0] * cluster, length))
    table = data_of(own, cluster, first) if own else None
    blocks = [(extent.place + at, min(STEP, extent.length - at)) for extent in (table.extents if table else ())
              for at in range(0, extent.length, STEP)]
    for number in picked(len(blocks), MAX_PLACES):
        data = read(*blocks[number])
        for at in range(0, len(data) - length + 1, length):
            record = whole(data[at:at + length])
            flags = struct.unpack_from("<H", record, 22)[0] if record else 0
            if record and flags & IN_USE and not flags & IS_FOLDER:
                found = data_of(record, cluster, first)
                if found and found.size >= MIN_BYTES:
                    yield found
