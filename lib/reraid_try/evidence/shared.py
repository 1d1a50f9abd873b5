"""Partitions that several disks have at one place, as those of a NAS do: each place may hold an array of its own."""

import collections
import dataclasses
from collections.abc import Iterable, Sequence

from ..errors import OutsideError, said
from ..units import SECTOR, counted
from .images import Image
from .tables import Partition

# So many blocks of so many bytes, spread over a partition, tell whether it is the same on all images; so many of a hundred of them have to be.
SAMPLES, BLOCK, MOSTLY = 256, 4096, 90
MIN_IMAGES = 2


@dataclasses.dataclass(frozen=True)
class Place:
    """A place that partitions of several images have in common: its first sector, how many sectors the shortest of them has, the images, and whether
    these hold nearly the same there, as copies do, or nothing but zeros. `efi` says that all are EFI system partitions by their type."""

    first: int
    count: int
    images: tuple[int, ...]
    copied: bool = False
    empty: bool = False
    efi: bool = False

    @property
    def end(self) -> int:
        """The sector behind it."""
        return self.first + self.count

    def offsets(self, usual: Sequence[int]) -> tuple[int, ...]:
        """The image sectors at which data may begin in it, by where they usually begin on a disk or partition."""
        return tuple(self.first + it for it in usual if it < self.count)

    @property
    def tells(self) -> bool:
        """It may hold an array that is more than copies."""
        return not self.copied and not self.empty and not self.efi

    def line(self) -> str:
        """Return it as one line of text."""
        if self.empty:
            what = "zeros in all sampled sectors"
        elif self.copied:
            what = "the same on each: copies"
        else:
            what = "EFI system partitions, not the same on each" if self.efi else "not the same on each: perhaps an array of its own"
        return f"the partition of {self.count} sectors from sector {self.first} on, on {counted(len(self.images), 'image')}: {what}"


def places(disks: Sequence[Image]) -> list[Place]:
    """The places that own tables of at least two images have in common, where most of the images have such a table; the largest first. An image that
    is the same as another one counts once."""
    found: dict[int, list[tuple[int, Partition]]] = collections.defaultdict(list)
    tabled = [disk for disk in disks if disk.table.own and disk.table.partitions and disk.like is None]
    if len(tabled) < MIN_IMAGES or 2 * len(tabled) <= sum(disk.like is None for disk in disks):
        return []
    for disk in tabled:
        for partition in disk.table.partitions:
            found[partition.first].append((disk.number, partition))
    common = [Place(first, min(it.count for _, it in on), tuple(number for number, _ in on), efi=all(it.is_efi for _, it in on))
              for first, on in found.items()]
    common = [place for place in common if len(place.images) >= MIN_IMAGES]
    return sorted(common, key=lambda it: (-it.count * len(it.images), it.first))


def compared(names: Sequence[str], place: Place) -> Place:
    """The place with what its images hold there, by samples; `names` are the files of its images."""
    same = told = 0
    step = max(1, place.count * SECTOR // BLOCK // SAMPLES) * BLOCK
    files = [open(name, "rb") for name in names]
    try:
        for at in range(place.first * SECTOR, place.end * SECTOR, step):
            blocks = set()
            for file in files:
                file.seek(at)
                blocks.add(file.read(min(BLOCK, place.end * SECTOR - at)))
            if any(block.strip(b"\0") for block in blocks):
                told += 1
                same += len(blocks) == 1
    finally:
        for file in files:
            file.close()
    return dataclasses.replace(place, empty=told == 0, copied=told > 0 and 100 * same >= MOSTLY * told)


def looked_at(disks: Sequence[Image]) -> list[Place]:
    """The places in common, each with what its images hold there; the largest first."""
    names = {disk.number: disk.name for disk in disks}
    try:
        return [compared([names[number] for number in place.images], place) for place in places(disks)]
    except OSError as error:
        raise OutsideError(f"an image cannot be read: {said(error)}") from error


def searched(found: Iterable[Place]) -> list[Place]:
    """The places that are searched, in order: those that hold more than copies; where there is none the largest that is not empty, whose copies are
    all that there is."""
    there = [place for place in found if not place.empty]
    return [place for place in there if place.tells] or there[:1]


def of_partition(place: Place, disks: Sequence[Image]) -> list[Image]:
    """Return the images that may be of the partition alone, or from its start on, beside those of whole disks: they have no table, are as long as the
    partition at least, and shorter than a whole disk."""
    whole = min(disk.sectors for disk in disks if disk.number in place.images)
    there = [disk for disk in disks if disk.first is not None and disk.like is None and disk.number not in place.images]
    return [disk for disk in there if not disk.table.own and place.count <= disk.sectors < whole]
