"""Disks that a file system joins by itself, with its own RAID: btrfs over several devices, and ZFS.

Sources: "On-disk Format" of the documentation of btrfs (`struct btrfs_super_block`); "ZFS On-Disk Specification", chapter 1, of the labels of a
virtual device and the pairs of names and values in them."""

import dataclasses
import struct
import uuid
from collections.abc import Iterator, Sequence

from ..units import KIB, SECTOR
from .images import Image

# The superblock of btrfs: where it lies, its magic and where that stands, its identifier, how many devices there are, and the number of this one.
BTRFS, BTRFS_MAGIC, MAGIC_PLACE, IDENTIFIER, DEVICES, DEVICE = 64 * KIB, b"_BHRfS_M", 64, 32, 0x88, 0xC9
# The labels of ZFS: how many there are, how long each is, and which bytes of it hold pairs of names and values.
LABELS, LABEL, PAIRS, PAIRS_BYTES = 4, 256 * KIB, 16 * KIB, 112 * KIB
# What stands in the pairs of each label, and what stands before the name of the pool: how long the name of the pair is, that name, and its type.
IN_PAIRS, BEFORE_NAME = (b"pool_guid", b"vdev_tree"), b"\0\0\0\4name\0\0\0\x09\0\0\0\1"
MAX_NAME = 256


@dataclasses.dataclass(frozen=True)
class Device:
    """A disk of a pool: its image, the sector at which it begins there, the identifier or name of the pool, its own number, and how many devices the
    pool has; 0 if that is not told."""

    image: int
    first: int
    pool: str
    number: int = 0
    devices: int = 0


def places(image: Image) -> list[int]:
    """Return the sectors at which a device may begin: the start of the image, and of each partition of its own table."""
    return [0, *(it.first for it in image.table.partitions if image.table.own)]


def read_at(name: str, first: int, count: int) -> bytes:
    """Read bytes of an image; fewer at its end."""
    with open(name, "rb") as file:
        file.seek(first)
        return file.read(count)


def btrfs_device(image: Image) -> Device | None:
    """Return the device of a btrfs of several devices that an image is; None for other images."""
    for first in places(image):
        head = read_at(image.name, first * SECTOR + BTRFS, 2 * SECTOR)
        if head[MAGIC_PLACE:MAGIC_PLACE + len(BTRFS_MAGIC)] == BTRFS_MAGIC and len(head) == 2 * SECTOR:
            devices, = struct.unpack_from("<Q", head, DEVICES)
            number, = struct.unpack_from("<Q", head, DEVICE)
            return Device(image.number, first, str(uuid.UUID(bytes=head[IDENTIFIER:IDENTIFIER + 16])), number, devices) if devices > 1 else None
    return None


def labels(image: Image, first: int) -> Iterator[bytes]:
    """Yield the pairs of the four places of labels of a device that begins at a sector."""
    end = next((it.first + it.count for it in image.table.partitions if it.first == first and first), image.sectors)
    last = first * SECTOR + (end - first) * SECTOR // LABEL * LABEL
    for place in (first * SECTOR, first * SECTOR + LABEL, last - 2 * LABEL, last - LABEL):
        if place >= first * SECTOR:
            yield read_at(image.name, place + PAIRS, PAIRS_BYTES)


def name_of(pairs: bytes) -> str:
    """Return the name of the pool that the pairs of a label tell."""
    place = pairs.find(BEFORE_NAME)
    if place < 0:
        return ""
    place += len(BEFORE_NAME)
    length = int.from_bytes(pairs[place:place + 4], "big")
    return pairs[place + 4:place + 4 + min(length, MAX_NAME)].decode("utf-8", "replace")


def is_label(pairs: bytes) -> bool:
    """Return whether pairs are those of a label."""
    return all(word in pairs for word in IN_PAIRS)


def has_all_labels(image: Image, device: Device) -> bool:
    """Return whether all four labels of a device of ZFS are there. What writes an array over it writes over some of them."""
    found = list(labels(image, device.first))
    return len(found) == LABELS and all(map(is_label, found))


def zfs_device(image: Image) -> Device | None:
    """Return the device of a ZFS pool that an image is; None for other images."""
    for first in places(image):
        for pairs in labels(image, first):
            if is_label(pairs):
                return Device(image.number, first, name_of(pairs))
    return None


def pool_of(found: Sequence[Device | None]) -> list[Device]:
    """Return the devices of one pool, if each of some images is another device of it; none else."""
    there = [it for it in found if it]
    several = len(there) == len(found) > 0 and len({it.pool for it in there}) == 1
    numbered = [it.number for it in there if it.number]
    return there if several and len(set(numbered)) == len(numbered) else []
