"""Files of an ext4 by its descriptors of groups and its tables of inodes, over all its groups."""

import struct
from collections.abc import Iterator, Sequence

from ..units import KIB, MIB
from .mapped import Extent, Mapped, Read, picked

SUPER, SUPER_BYTES = 1024, 1024
MAGIC, EXTENTS_MAGIC = 0xEF53, 0xF30A
# Features: groups of descriptors that lie elsewhere, blocks of 64 bits, and sums by which unused parts of tables are known.
META_BG, WIDE, SUMS = 0x10, 0x80, 0x410
# Of an inode: that its blocks are in extents; that it is encrypted, or lies in the inode itself.
HAS_EXTENTS, UNREADABLE = 0x80000, 0x10000800
REGULAR, KINDS = 0x8000, 0xF000
NO_INODES = 1
# So many groups are looked at, so many parts of the table of each, of so many bytes, and so many bytes of descriptors. An extent of more blocks is
# not written yet.
MAX_GROUPS, MAX_PARTS, PART, MAX_DESCRIPTORS, MAX_BLOCKS = 64, 16, 32 * KIB, 64 * MIB, 32768
# Shorter files tell little.
MIN_BYTES = 4 * KIB
MAX_DEPTH, MAX_LEAVES = 3, 16


class Tables:
    """The tables of an ext4 that begins at a byte of a volume."""

    def __init__(self, read: Read, first: int) -> None:
        self.read, self.first = read, first
        head = read(first + SUPER, SUPER_BYTES)
        self.good = len(head) == SUPER_BYTES and struct.unpack_from("<H", head, 56)[0] == MAGIC
        if not self.good:
            return
        self.start, code = struct.unpack_from("<II", head, 20)
        blocks, = struct.unpack_from("<I", head, 4)
        per_group, = struct.unpack_from("<I", head, 32)
        self.inodes, = struct.unpack_from("<I", head, 40)
        features, writing = struct.unpack_from("<II", head, 96)
        self.block, self.size = KIB << min(code, 6), struct.unpack_from("<H", head, 88)[0] or 128
        self.wide = bool(features & WIDE)
        blocks += struct.unpack_from("<I", head, 336)[0] << 32 if self.wide else 0
        self.descriptor = max(32, struct.unpack_from("<H", head, 254)[0]) if self.wide else 32
        self.sums = bool(writing & SUMS)
        self.good = per_group > 0 and self.inodes > 0 and not features & META_BG and self.size in (128, 256, 512, 1024)
        self.groups = -(-(blocks - self.start) // per_group) if self.good else 0

    def used(self) -> list[tuple[int, int]]:
        """Return of each group that has files the byte of its table of inodes, and how many of these may be in use."""
        count = min(self.groups, MAX_DESCRIPTORS // self.descriptor)
        data = self.read(self.first + (self.start + 1) * self.block, count * self.descriptor)
        found = []
        for at in range(0, len(data) - self.descriptor + 1, self.descriptor):
            table, = struct.unpack_from("<I", data, at + 8)
            free, _, flags = struct.unpack_from("<HHH", data, at + 14)
            unused, = struct.unpack_from("<H", data, at + 28)
            if self.wide and self.descriptor >= 64:
                table += struct.unpack_from("<I", data, at + 40)[0] << 32
                free += struct.unpack_from("<H", data, at + 46)[0] << 16
                unused += struct.unpack_from("<H", data, at + 50)[0] << 16
            there = self.inodes - (unused if self.sums else 0)
            if table and free < self.inodes and there > 0 and not (self.sums and flags & NO_INODES):
                found.append((self.first + table * self.block, there))
        return found

    def inode(self, number: int) -> bytes:
        """Return an inode of the first group; nothing where it has no table."""
        data = self.read(self.first + (self.start + 1) * self.block, self.descriptor)
        if len(data) < self.descriptor:
            return b""
        table, = struct.unpack_from("<I", data, 8)
        table += struct.unpack_from("<I", data, 40)[0] << 32 if self.wide and self.descriptor >= 64 else 0
        return self.read(self.first + table * self.block + (number - 1) * self.size, self.size)

    def files(self) -> Iterator[Mapped]:
        """Yield files of groups all over the file system."""
        used = self.used() if self.good else []
        for number in picked(len(used), MAX_GROUPS):
            table, count = used[number]
            for part in picked(-(-count * self.size // PART), MAX_PARTS):
                data = self.read(table + part * PART, min(PART, count * self.size - part * PART))
                for at in range(0, len(data) - self.size + 1, self.size):
                    if found := self.file(data[at:at + self.size]):
                        yield found

    def file(self, inode: bytes) -> Mapped | None:
        """Return the file of an inode; None where it is none, or its extents are not all there."""
        mode, = struct.unpack_from("<H", inode, 0)
        links, = struct.unpack_from("<H", inode, 26)
        deleted, = struct.unpack_from("<I", inode, 20)
        flags, = struct.unpack_from("<I", inode, 32)
        size = struct.unpack_from("<I", inode, 4)[0] + (struct.unpack_from("<I", inode, 108)[0] << 32)
        if mode & KINDS != REGULAR or not links or deleted or not flags & HAS_EXTENTS or flags & UNREADABLE or size < MIN_BYTES:
            return None
        found = self.extents(inode[40:100], MAX_DEPTH)
        return Mapped(size, tuple(found)) if found and found[0].at == 0 else None

    def extents(self, node: bytes, depth: int) -> Sequence[Extent] | None:
        """Return the extents of a node of a tree of them; None where it is none, or has some that are not written."""
        magic, count, _, height = struct.unpack_from("<HHHH", node, 0)
        if magic != EXTENTS_MAGIC or height > depth or 12 * (count + 1) > len(node) or height and count > MAX_LEAVES:
            return None
        found: list[Extent] = []
        for at in range(12, 12 * (count + 1), 12):
            if height:
                low, high = struct.unpack_from("<IH", node, at + 4)
                inner = self.extents(self.read(self.first + (low + (high << 32)) * self.block, self.block).ljust(12, b"\0"), height - 1)
                if inner is None:
                    return None
                found += inner
            else:
                logical, length, high, low = struct.unpack_from("<IHHI", node, at)
                if length > MAX_BLOCKS:
                    return None
                found.append(Extent(logical * self.block, self.first + (low + (high << 32)) * self.block, length * self.block))
        return found


def files(read: Read, first: int) -> Iterator[Mapped]:
    """Yield files of an ext4 that begins at a byte, of groups all over it."""
    return Tables(read, first).files()
