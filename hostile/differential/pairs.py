"""Inodes of ext4 beside each other in a sector, and where descriptors behind copies of superblocks tell that they lie. They are written from the
kernel's pages on ext4 (Inode Table, Group Descriptors, Super Block, Checksums), with the limits that the definitions of the landmarks name.
"""

import functools
import struct
from typing import NamedTuple

from inodes import ALL_ONES, register_after
from texts import FAR, SECTOR

INODE = 256
FOLLOWING = 256 * SECTOR  # the bytes from a copy on that are read
TABLE_SECTORS = 128  # the sectors of descriptors that are looked at
META_BG, WIDE, CSUM_SEED, METADATA_CSUM = 0x10, 0x80, 0x2000, 0x400


def covered(inode):
    """What the checksum of an inode covers behind its number."""
    return inode[100:104] + inode[:124] + bytes(2) + inode[126:130] + bytes(2) + inode[132:]


@functools.cache
def columns():
    """What each bit of a number changes in the checksum."""
    rest = bytes(INODE + 4)
    return [register_after(0, struct.pack("<I", 1 << bit) + rest) for bit in range(32)]


@functools.cache
def solved():
    """For each bit of a checksum the bits of the number that change it alone."""
    rows = [(column, 1 << bit) for bit, column in enumerate(columns())]
    for bit in range(32):
        pivot = next(k for k in range(bit, 32) if rows[k][0] >> bit & 1)
        rows[bit], rows[pivot] = rows[pivot], rows[bit]
        rows = [(row[0] ^ rows[bit][0], row[1] ^ rows[bit][1]) if k != bit and row[0] >> bit & 1 else row for k, row in enumerate(rows)]
    return [number for _, number in rows]


def told(inode):
    """The number with which the checksum of an inode is right where it begins with a register of 0."""
    low, extra, high = struct.unpack_from("<H2xHH", inode, 124)
    if not 4 <= extra <= 128 or extra % 4:
        return None
    wanted, number = (low | high << 16) ^ register_after(0, bytes(4) + covered(inode)), 0
    for bit in range(32):
        number ^= solved()[bit] if wanted >> bit & 1 else 0
    return number


class Pair(NamedTuple):
    """What two inodes beside each other tell with a seed of 0."""
    first: int
    second: int


def pair(sector):
    """The two inodes of a sector, if in some file system the second has the next number, a multiple of 32."""
    first = told(sector[:INODE])
    second = None if first is None else told(sector[INODE:])
    if second is None:
        return None
    differing = first ^ second
    return Pair(first, second) if differing >= 63 and differing & differing + 1 == 0 else None


class Tables(NamedTuple):
    """What a copy of a superblock says of where inodes lie, with the sectors from it on."""
    identifier: bytes
    seed: int
    inodes: int
    block: int
    group_inodes: int
    size: int  # of a descriptor
    following: bytes

    def has(self, group):
        return group * self.group_inodes < self.inodes

    def is_whole(self, group, descriptor):
        """A descriptor is that of the group."""
        checked = struct.pack("<I", group) + descriptor[:30] + bytes(2) + descriptor[32:]
        return register_after(self.seed, checked) & 0xFFFF == struct.unpack_from("<H", descriptor, 30)[0] and self.table(descriptor) < 2 ** 47

    def table(self, descriptor):
        """The block with which the group's inodes begin."""
        high = struct.unpack_from("<I", descriptor, 40)[0] if self.size == 64 else 0
        return struct.unpack_from("<I", descriptor, 8)[0] | high << 32

    def place(self, found):
        """The sector of the file system with these two inodes, if they are of it and the descriptors of their sector are whole."""
        number = found.first ^ self.seed
        if number % 2 == 0 or number >= self.inodes or found.second ^ self.seed != number + 1:
            return None
        group, index = divmod(number - 1, self.group_inodes)
        row, place = divmod(group, SECTOR // self.size)
        if row >= TABLE_SECTORS:
            return None
        sector = self.following[self.block + row * SECTOR:][:SECTOR]
        descriptors = [sector[k * self.size:(k + 1) * self.size] for k in range(SECTOR // self.size)]
        if not all(self.is_whole(group - place + k, it) for k, it in enumerate(descriptors) if self.has(group - place + k)):
            return None
        return self.table(descriptors[place]) * (self.block // SECTOR) + index // 2


def tables(following):
    """What the copy says that these bytes begin with, if they are all there and it is whole."""
    if len(following) != FOLLOWING:
        return None
    first = following[:1024]
    inodes, power, group_inodes = (struct.unpack_from("<I", first, at)[0] for at in (0, 24, 40))
    magic, size, wide = (struct.unpack_from("<H", first, at)[0] for at in (56, 88, 254))
    revision, incompatible, read_only = (struct.unpack_from("<I", first, at)[0] for at in (76, 96, 100))
    descriptor = wide if incompatible & WIDE else 32
    if magic != 0xEF53 or power > 6 or group_inodes < 8 or group_inodes % 8 or revision != 1 or size != INODE:
        return None
    if not read_only & METADATA_CSUM or first[373] != 1 or incompatible & META_BG or descriptor not in (32, 64):
        return None
    if register_after(ALL_ONES, first[:1020]) != struct.unpack_from("<I", first, 1020)[0]:
        return None
    seed = struct.unpack_from("<I", first, 624)[0] if incompatible & CSUM_SEED else register_after(ALL_ONES, first[104:120])
    return Tables(first[104:120], seed, inodes, 1024 << power, group_inodes, descriptor, following)


def placed(copies, found):
    """The identifier and the place that the first of some copies tells of two inodes."""
    told_by = ((it.identifier, it.place(found)) for it in copies)
    return next(((identifier, place) for identifier, place in told_by if place is not None and place < FAR), None)
