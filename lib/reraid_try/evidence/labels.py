"""Physical volumes of LVM2 that images have in one piece, as a partition by itself has one, or each copy of a RAID 1."""

import struct
from collections.abc import Collection, Iterator, Sequence

from ..checks import lvm
from ..checks.lvm import Physical
from ..units import SECTOR
from .hints import MORE_OFFSETS, USUAL_OFFSETS, read_at
from .images import Image

# Where a label says in which sector of its physical volume it stands, and how many bytes that has.
SECTOR_PLACE, LENGTH_PLACE = 8, 64


def parts(image: Image) -> list[tuple[int, int]]:
    """The parts of an image that may hold a physical volume, each as its first sector and the one behind it: its partitions, or else all of it."""
    return [(it.first, it.first + it.count) for it in image.table.partitions] if image.table.own else [(0, image.sectors)]


def of_part(image: Image, first: int, end: int) -> Iterator[Physical]:
    """The physical volumes whose labels stand in a part of an image where data usually begin, and that end in it."""
    for place in sorted({first + usual for usual in (*USUAL_OFFSETS, *MORE_OFFSETS) if first + usual < end}):
        head = read_at(image.name, place, lvm.LABEL_SECTORS * SECTOR)
        label, identifier = head.find(lvm.LABEL), lvm.identifier(head)
        if identifier and label + LENGTH_PLACE + 8 <= len(head):
            before, length = (struct.unpack_from("<Q", head, label + it)[0] for it in (SECTOR_PLACE, LENGTH_PLACE))
            begin = place * SECTOR + label - before * SECTOR
            if first * SECTOR <= begin and 0 < length <= end * SECTOR - begin:
                yield Physical(identifier, image.number, image.name, begin, length)


def physical(images: Sequence[Image], wanted: Collection[str]) -> list[Physical]:
    """The physical volumes of these identifiers that images have in one piece, of each the first."""
    found: dict[str, Physical] = {}
    for it in (it for image in images for part in parts(image) for it in of_part(image, *part)) if wanted else ():
        if it.identifier in wanted:
            found.setdefault(it.identifier, it)
    return list(found.values())
