"""Heads: what disks, volumes and partitions begin with, by bytes that are known."""

import dataclasses
import struct
from collections.abc import Callable
from typing import BinaryIO

from ..units import SECTOR
from . import bcache, reading, tables

# So many bytes tell what something begins with, and so many sectors.
HEAD_BYTES = 264 * SECTOR
# The first superblock of ext: where it stands, in sectors and in bytes, and how large a block is at most, as the power of two of 1,024 bytes.
EXT_SECTORS, EXT_PLACE, MAX_EXT_BLOCK = 2, 1024, 6
# So many heads are found on one image.
MAX_HEADS = 64


def always(_: bytes) -> bool:
    """Nothing more is asked."""
    return True


def is_ext(sector: bytes) -> bool:
    """It is the superblock of an ext's first group, with a sensible block size."""
    if len(sector) < SECTOR or sector[56:58] != b"\x53\xef" or sector[90:92] != b"\0\0":
        return False
    code, per_group = struct.unpack_from("<I", sector, 24)[0], struct.unpack_from("<I", sector, 32)[0]
    return bool(code <= MAX_EXT_BLOCK and 0 < per_group <= 8 * (1024 << code) and struct.unpack_from("<I", sector, 4)[0] > 0)


def is_first_ext(head: bytes) -> bool:
    """An ext begins here."""
    return is_ext(head[EXT_PLACE:EXT_PLACE + SECTOR])


def is_fat(head: bytes) -> bool:
    """A FAT begins here: whole sectors, clusters of a power of two, and two tables at most."""
    size, cluster, tables_there = struct.unpack_from("<HB2xB", head, 11)
    return size in (512, 1024, 2048, 4096) and cluster > 0 and cluster & (cluster - 1) == 0 and tables_there in (1, 2)


@dataclasses.dataclass(frozen=True)
class Signature:
    """What something begins with: its type as `blkid` has it, the bytes at a place, and what else must hold of its first bytes."""

    kind: str
    place: int
    magic: bytes
    holds: Callable[[bytes], bool] = always

    def is_on(self, head: bytes) -> bool:
        """These bytes begin so."""
        return head[self.place:self.place + len(self.magic)] == self.magic and self.holds(head)


SIGNATURES = (
    Signature("crypto_LUKS", 0, b"LUKS\xba\xbe"),
    Signature("BitLocker", 3, b"-FVE-FS-"),
    Signature("xfs", 0, b"XFSB"),
    Signature("ntfs", 3, b"NTFS    "),
    Signature("exfat", 3, b"EXFAT   "),
    Signature("ext4", EXT_PLACE + 56, b"\x53\xef", is_first_ext),
    Signature("btrfs", 65536 + 64, b"_BHRfS_M"),
    Signature("jfs", 32768, b"JFS1"),
    Signature("reiserfs", 65536 + 52, b"ReIsEr"),
    *(Signature("LVM2_member", place, b"LABELONE") for place in range(0, 4 * SECTOR, SECTOR)),
    Signature("vfat", 82, b"FAT32   ", is_fat),
    Signature("vfat", 54, b"FAT16   ", is_fat),
    Signature(bcache.KIND, bcache.PLACE * SECTOR + bcache.MAGIC_PLACE, bcache.MAGIC),
)


def sniff(head: bytes) -> str | None:
    """What these bytes are the head of; None where that is nothing known."""
    for signature in SIGNATURES:
        if signature.is_on(head):
            return signature.kind
    return tables.read_table(lambda place, count: head[place:place + count], len(head) // SECTOR).kind


# What an NTFS with clusters of 128 KiB to 2 MiB is called, and the codes of these: no landmark but file records knows its boot sector.
LARGE_NTFS, LARGE_CLUSTERS = "ntfs", range(244, 249)


def is_large_ntfs(sector: bytes) -> bool:
    """Return whether this is the boot sector of an NTFS with such clusters."""
    return len(sector) == SECTOR and sector[3:11] == b"NTFS    " and sector[510:] == tables.SIGNATURE and sector[13] in LARGE_CLUSTERS


@dataclasses.dataclass(frozen=True)
class Head:
    """A sector of an image that looks like the head of something: what it is, its image, the sector at which that begins."""

    kind: str
    image: int
    sector: int


# The heads that are looked for wherever they stand on an image: what each is called, the byte and its value by which a sector is taken up, how far
# behind its start it stands, in sectors, and what the sector has to be.
SOUGHT: tuple[tuple[str, int, int, int, Callable[[bytes], bool]], ...] = (
    ("mbr", SECTOR - 1, 0xAA, 0, lambda sector: bool(tables.read_mbr(sector))),
    ("ext", 57, 0xEF, EXT_SECTORS, is_ext),
    ("luks", 0, 0x4C, 0, SIGNATURES[0].is_on),
    ("bitlocker", 3, 0x2D, 0, SIGNATURES[1].is_on),
    (LARGE_NTFS, 3, ord("N"), 0, is_large_ntfs),
    (bcache.KIND, bcache.MAGIC_PLACE, bcache.MAGIC[0], bcache.PLACE, bcache.is_superblock),
)
# Those that say where a volume begins without saying anything of a level.
ENCRYPTED = ("luks", "bitlocker")


def find_heads(file: BinaryIO, number: int, last: int) -> tuple[Head, ...]:
    """The sectors before a byte that look like the head of a volume, in the order of the blocks of the image."""
    found: list[Head] = []
    for place, block in reading.blocks(file, 0, last):
        for kind, byte, value, behind, holds in SOUGHT:
            for sector in reading.strided(block, byte, value):
                first = place // SECTOR + sector - behind
                if first >= 0 and holds(block[sector * SECTOR:(sector + 1) * SECTOR]):
                    found.append(Head(kind, number, first))
        if len(found) > MAX_HEADS:
            break
    return tuple(found)
