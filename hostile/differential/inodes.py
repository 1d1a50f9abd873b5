"""Sectors of file systems that say where they lie, and the fields that place them: inodes of XFS. They are written from "XFS Algorithms &
Data Structures" (Superblocks, Inode Core, Inode Numbers), with the limits that the definitions of the landmarks name.
"""

import struct
from typing import NamedTuple

from texts import SECTOR

POLYNOMIAL = 0x82F63B78  # of CRC-32C (Castagnoli), its bits turned round
ALL_ONES = 2 ** 32 - 1
STRETCH = 65536  # of the bytes that begin at a multiple of so many in a table of inodes, the first inode counts


def remainder_of(byte):
    for _ in range(8):
        byte = byte >> 1 ^ (POLYNOMIAL if byte & 1 else 0)
    return byte


REMAINDERS = [remainder_of(byte) for byte in range(256)]


def register_after(register, data):
    """The register of CRC-32C after more bytes."""
    for byte in data:
        register = register >> 8 ^ REMAINDERS[(register ^ byte) & 255]
    return register


# XFS of version 5

LARGEST = 2048  # bytes of an inode


class XfsInode(NamedTuple):
    """What the first sector of an inode says: its number, the identifier of its file system, and whether the inode has this sector alone."""
    number: int
    uuid: bytes
    is_small: bool

    def size(self, run):
        """How many bytes it has, by the bytes that were read from its sector on, if it is one."""
        if self.is_small:
            return SECTOR
        return next((size for size in (1024, LARGEST) if len(run) == LARGEST and is_whole(run[:size])), None)


class XfsPlaces(NamedTuple):
    """What a superblock says of where inodes lie."""
    uuid: bytes
    block: int
    group_blocks: int
    groups: int
    size: int
    inode_bits: int
    block_bits: int

    def sector(self, number):
        """The sector of the file system at which an inode begins, if there is a place for it."""
        block, inode = divmod(number, 2 ** self.inode_bits)
        group, block = divmod(block, 2 ** self.block_bits)
        if group >= self.groups or block >= self.group_blocks:
            return None
        return ((group * self.group_blocks + block) * self.block + inode * self.size) // SECTOR


def has_checksum(block, at):
    """Whether the checksum at a place is that of all these bytes, with itself as zeros."""
    told, = struct.unpack_from("<I", block, at)
    return register_after(ALL_ONES, block[:at] + bytes(4) + block[at + 4:]) ^ ALL_ONES == told


def is_whole(inode):
    """Whether an inode's checksum is that of all these bytes."""
    return has_checksum(inode, 100)


def xfs_inode(sector):
    """The inode that begins with a sector, or may begin with it: of its stretch it is the first, or may be."""
    if sector[:2] != b"IN" or sector[4] != 3:
        return None
    number, = struct.unpack_from(">Q", sector, 152)
    found = XfsInode(number, sector[160:176], is_whole(sector))
    return found if number * (SECTOR if found.is_small else LARGEST) % STRETCH == 0 else None


def xfs_places(sector):
    """What a superblock of version 5 says of its inodes. Its checksum, of one sector of its file system, is only looked at if that is all of
    this one."""
    version, size = struct.unpack_from(">H2xH", sector, 100)
    block, group_blocks, groups, incompatible = (struct.unpack_from(">I", sector, at)[0] for at in (4, 84, 88, 216))
    if sector[:4] != b"XFSB" or version & 15 != 5 or size not in (512, 1024, LARGEST):
        return None
    if struct.unpack_from(">H", sector, 102)[0] == SECTOR and not has_checksum(sector, 224):
        return None
    found = XfsPlaces(sector[248:264] if incompatible & 4 else sector[32:48], block, group_blocks, groups, size, sector[123], sector[124])
    if found.inode_bits > 7 or size << found.inode_bits != block or not 0 < group_blocks <= 2 ** min(31, found.block_bits):
        return None
    return found if found.block_bits <= 31 and groups and group_blocks * groups < 2 ** 48 else None
