"""The superblock of bcache on what it caches: a volume whose contents begin some sectors behind its start.

Source: `struct cache_sb` in the Linux kernel's include/uapi/linux/bcache.h."""

import struct

from ..units import SECTOR

KIND = "bcache"
# The sector of the superblock, and its magic with the byte in that sector at which this stands.
PLACE, MAGIC_PLACE = 8, 24
MAGIC = bytes.fromhex("c68573f64e1a45ca8265f57f48ba6d81")
# The versions of what is cached: the first has its data at a fixed sector, the others say at which.
FIXED, TOLD, DATA_PLACE, DATA = 1, (4, 6), 184, 16


def data_of(sector: bytes) -> int | None:
    """How many sectors behind the start of a volume its contents begin, by its superblock; None where that is none, or of a cache."""
    if len(sector) < SECTOR or sector[MAGIC_PLACE:MAGIC_PLACE + len(MAGIC)] != MAGIC:
        return None
    place, version = struct.unpack_from("<QQ", sector, 8)
    if place != PLACE or version != FIXED and version not in TOLD:
        return None
    told: int = struct.unpack_from("<Q", sector, DATA_PLACE)[0]
    return told if version in TOLD else DATA


def is_superblock(sector: bytes) -> bool:
    """It is the superblock of something that is cached."""
    return data_of(sector) is not None
