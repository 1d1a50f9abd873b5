"""Files of an XFS by the trees of inodes of its allocation groups."""

import dataclasses
import struct
from collections.abc import Iterator

from ..units import KIB
from .mapped import Extent, Mapped, Read, picked

SUPER_BYTES = 512
# So many allocation groups are looked at, so many leaves of the tree of each, and so many chunks of 64 inodes of these.
MAX_GROUPS, MAX_LEAVES, MAX_CHUNKS = 64, 8, 24
CHUNK = 64
MIN_BYTES = 4 * KIB
IN_EXTENTS, REGULAR, KINDS = 2, 0x8000, 0xF000
# Of an inode of version 3: that the number of its extents has 64 bits.
WIDE_COUNT = 1 << 4


@dataclasses.dataclass(frozen=True)
class Shape:
    """The numbers of an XFS that begins at a byte of a volume: bytes of a block, a sector and an inode, blocks of a group, groups, the bits of an
    inode within its block and of a block within its group, the number of the root, the identifier, and whether it is of version 5."""

    first: int
    block: int
    sector: int
    inode: int
    blocks: int
    groups: int
    inode_bits: int
    block_bits: int
    root: int
    identifier: bytes
    is_fifth: bool

    def group(self, number: int) -> int:
        """Return the byte at which a group begins."""
        return self.first + number * self.blocks * self.block

    def place(self, number: int) -> int:
        """Return the byte at which a block lies, by its number in the file system."""
        return self.group(number >> self.block_bits) + (number & (1 << self.block_bits) - 1) * self.block

    def inode_place(self, group: int, number: int) -> int:
        """Return the byte at which an inode lies, by its number in a group."""
        return self.group(group) + (number >> self.inode_bits) * self.block + (number & (1 << self.inode_bits) - 1) * self.inode


def shape(read: Read, first: int) -> Shape | None:
    """Return the numbers of an XFS that begins at a byte; None where none does."""
    head = read(first, SUPER_BYTES)
    if len(head) < SUPER_BYTES or head[:4] != b"XFSB":
        return None
    block, = struct.unpack_from(">I", head, 4)
    root, = struct.unpack_from(">Q", head, 56)
    blocks, groups = struct.unpack_from(">II", head, 84)
    version, sector, inode = struct.unpack_from(">HHH", head, 100)
    inode_bits, block_bits = head[123], head[124]
    good = 512 <= block <= 65536 and 512 <= sector <= block and 256 <= inode <= 2048 and inode_bits <= 8
    if not good or not groups or not 0 < blocks <= 1 << block_bits < 1 << 32:
        return None
    return Shape(first, block, sector, inode, blocks, groups, inode_bits, block_bits, root, head[32:48], version & 15 == 5)


class Tables:
    """The trees of inodes of an XFS."""

    def __init__(self, read: Read, it: Shape) -> None:
        self.read, self.it = read, it
        self.head = 56 if it.is_fifth else 16

    def files(self) -> Iterator[Mapped]:
        """Yield files of allocation groups all over the file system."""
        for group in picked(self.it.groups, MAX_GROUPS):
            chunks = self.chunks(group)
            for number in picked(len(chunks), MAX_CHUNKS):
                data = self.read(self.it.inode_place(group, chunks[number]), CHUNK * self.it.inode)
                for at in range(0, len(data) - self.it.inode + 1, self.it.inode):
                    if found := self.file(data[at:at + self.it.inode]):
                        yield found

    def chunks(self, group: int) -> list[int]:
        """Return the numbers, in a group, of the first inodes of its chunks, of some leaves of its tree."""
        head = self.read(self.it.group(group) + 2 * self.it.sector, 32)
        if len(head) < 32 or head[:4] != b"XAGI" or struct.unpack_from(">I", head, 8)[0] != group:
            return []
        root, level = struct.unpack_from(">II", head, 20)
        blocks = [root]
        for height in range(min(level, 6) - 1, 0, -1):
            below = [one for block in blocks for one in self.below(group, block, height)]
            blocks = [below[number] for number in picked(len(below), MAX_LEAVES)]
        return [one for block in blocks for one in self.records(group, block)]

    def node(self, group: int, block: int, height: int) -> tuple[bytes, int]:
        """Return a node of the tree of a group and how many records it has; none where it is no such node."""
        data = self.read(self.it.group(group) + block * self.it.block, self.it.block) if block < self.it.blocks else b""
        if len(data) < self.it.block or data[:4] not in (b"IAB3", b"IABT"):
            return b"", 0
        level, count = struct.unpack_from(">HH", data, 4)
        return (data, count) if level == height else (b"", 0)

    def below(self, group: int, block: int, height: int) -> list[int]:
        """Return the blocks below a node."""
        data, count = self.node(group, block, height)
        most = (self.it.block - self.head) // 8
        return [struct.unpack_from(">I", data, self.head + 4 * (most + number))[0] for number in range(min(count, most))]

    def records(self, group: int, block: int) -> list[int]:
        """Return the numbers of the first inodes of the chunks of a leaf."""
        data, count = self.node(group, block, 0)
        most = (self.it.block - self.head) // 16
        return [struct.unpack_from(">I", data, self.head + 16 * number)[0] for number in range(min(count, most))]

    def file(self, inode: bytes) -> Mapped | None:
        """Return the file of an inode; None where it is none, or its extents do not stand in it."""
        mode, version, form = struct.unpack_from(">HBB", inode, 2)
        size, = struct.unpack_from(">Q", inode, 56)
        if inode[:2] != b"IN" or mode & KINDS != REGULAR or form != IN_EXTENTS or size < MIN_BYTES:
            return None
        count, = struct.unpack_from(">I", inode, 76)
        core = 176 if version == 3 else 100
        if version == 3 and struct.unpack_from(">Q", inode, 120)[0] & WIDE_COUNT:
            count, = struct.unpack_from(">Q", inode, 24)
        if not 0 < count <= (len(inode) - core) // 16:
            return None
        found = [self.extent(int.from_bytes(inode[core + 16 * number:core + 16 * number + 16])) for number in range(count)]
        kept = tuple(extent for extent in found if extent)
        return Mapped(size, kept) if len(kept) == count and kept[0].at == 0 else None

    def extent(self, record: int) -> Extent | None:
        """Return the extent of a record of 128 bits; None where it is not written yet, or lies nowhere."""
        length, block, at = record & (1 << 21) - 1, record >> 21 & (1 << 52) - 1, record >> 73 & (1 << 54) - 1
        if record >> 127 or block >> self.it.block_bits >= self.it.groups:
            return None
        return Extent(at * self.it.block, self.it.place(block), length * self.it.block)


def files(read: Read, first: int) -> Iterator[Mapped]:
    """Yield files of an XFS that begins at a byte, of allocation groups all over it."""
    it = shape(read, first)
    return Tables(read, it).files() if it else iter(())
