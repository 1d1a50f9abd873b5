"""Partition tables: the MBR, and the GPT with its sums."""

import dataclasses
import itertools
import struct
import uuid
import zlib
from collections.abc import Callable, Iterator

from ..units import ALL, LARGE_BLOCK, SECTOR

Read = Callable[[int, int], bytes]
# An MBR: its four entries of sixteen bytes, and what it ends with.
FIRST_ENTRY, ENTRY, SIGNATURE = 446, 16, b"\x55\xaa"
PROTECTIVE, ACTIVE = 0xEE, 0x80
# The types of extended partitions, which hold logical ones in a chain of tables, of which so many are read.
EXTENDED, MAX_LOGICAL = ("05", "0f", "85"), 60
# The type of an EFI system partition, in an MBR and in a GPT: C12A7328-F81F-11D2-BA4B-00A0C93EC93B.
MBR_EFI, GPT_EFI = "ef", uuid.UUID("c12a7328-f81f-11d2-ba4b-00a0c93ec93b").bytes_le
# More sectors than an MBR can tell of.
MAX_MBR = 1 << 32
# A GPT: the sizes of its header, and the entries that are read.
MIN_HEADER, MIN_ENTRY, MAX_ENTRIES = 92, 128, 128


@dataclasses.dataclass(frozen=True)
class Partition:
    """A partition: its first sector, how many it has, and its type: two digits of an MBR, `efi` for an EFI system partition of a GPT, else `gpt`."""

    first: int
    count: int
    kind: str

    @property
    def is_efi(self) -> bool:
        """It is an EFI system partition, from which a machine starts: of one disk by itself, or of copies."""
        return self.kind in ("efi", MBR_EFI)


@dataclasses.dataclass(frozen=True)
class Table:
    """What stands at the start of a disk or a volume: what kind of table, whether it says that this has so many sectors, and the partitions, logical
    ones in place of the extended one that holds them."""

    kind: str | None = None
    own: bool = False
    partitions: tuple[Partition, ...] = ()


def read_mbr(sector: bytes, room: int = MAX_MBR) -> tuple[Partition, ...]:
    """The partitions of an MBR, none where the sector is none. `room` is how many sectors there may be."""
    if len(sector) < SECTOR or sector[510:512] != SIGNATURE or sector[3:7] == b"NTFS":
        return ()
    found = []
    for place in range(FIRST_ENTRY, FIRST_ENTRY + 4 * ENTRY, ENTRY):
        active, kind, first, count = struct.unpack("<B3xB3xII", sector[place:place + ENTRY])
        if kind == 0 and first == 0 and count == 0:
            continue
        if active not in (0, ACTIVE) or kind == 0 or first == 0 or count == 0 or first + count > room:
            return ()
        found.append(Partition(first, count, f"{kind:02x}"))
    return tuple(found)


def logical(read: Read, extended: Partition) -> Iterator[Partition]:
    """The logical partitions of an extended one. Each table of its chain has two entries that count: a partition, counted from the table, and the
    next table, counted from the first one; a chain that turns back ends there."""
    at, end = extended.first, extended.first + extended.count
    for _ in range(MAX_LOGICAL):
        sector = read(at * SECTOR, SECTOR)
        if len(sector) < SECTOR or sector[510:512] != SIGNATURE:
            return
        kind, first, count, then, following = struct.unpack_from("<4xB3xII4xB3xI", sector, FIRST_ENTRY)
        if kind and first and count and at + first + count <= end:
            yield Partition(at + first, count, f"{kind:02x}")
        following += extended.first
        if f"{then:02x}" not in EXTENDED or not at < following < end:
            return
        at = following


def is_protective(partition: Partition) -> bool:
    """It is what an MBR has before a GPT."""
    return partition.kind == f"{PROTECTIVE:02x}"


def read_gpt(read: Read, block: int) -> tuple[int, tuple[Partition, ...]] | None:
    """The table of a volume whose blocks have so many bytes: its other copy's block, in sectors, and the partitions; None where there is none."""
    head = read(block, SECTOR)
    if len(head) < SECTOR or head[:8] != b"EFI PART":
        return None
    size: int = struct.unpack_from("<I", head, 12)[0]
    if not MIN_HEADER <= size <= SECTOR or zlib.crc32(head[:16] + bytes(4) + head[20:size]) != struct.unpack_from("<I", head, 16)[0]:
        return None
    other: int = struct.unpack_from("<Q", head, 32)[0]
    place, count, width = struct.unpack_from("<QII", head, 72)
    found = []
    table = read(place * block, min(count, MAX_ENTRIES) * width) if MIN_ENTRY <= width <= block and place * block < ALL else b""
    for start in range(0, len(table) - MIN_ENTRY + 1, max(width, MIN_ENTRY)):
        first, last = struct.unpack_from("<QQ", table, start + 32)
        if any(table[start:start + 16]) and first <= last:
            kind = "efi" if table[start:start + 16] == GPT_EFI else "gpt"
            found.append(Partition(first * block // SECTOR, (last - first + 1) * block // SECTOR, kind))
    return other * block // SECTOR, tuple(found)


def read_table(read: Read, sectors: int) -> Table:
    """The partition table at the start of what `read` reads, which has so many sectors."""
    for block in (SECTOR, LARGE_BLOCK):
        if found := read_gpt(read, block):
            other, partitions = found
            ratio = block // SECTOR
            return Table(f"GPT of {block} bytes", other // ratio == sectors // ratio - 1, partitions)
    partitions = read_mbr(read(0, SECTOR))
    if partitions and not is_protective(partitions[0]):
        there = (tuple(logical(read, it)) or (it,) if it.kind in EXTENDED else (it,) for it in partitions)
        return Table("MBR", all(it.first + it.count <= sectors for it in partitions), tuple(itertools.chain.from_iterable(there)))
    return Table()
