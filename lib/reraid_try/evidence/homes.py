"""File systems that an image may hold by itself: their heads, and how long these say that they are."""

import dataclasses
import hashlib
import struct
from collections.abc import Iterable, Iterator, Sequence

from ..checks.lvm import LABEL, LABEL_SECTORS
from ..checks.systems import LENGTH_BYTES, SYSTEMS, system_of
from ..units import SECTOR
from . import heads
from .hints import USUAL_OFFSETS
from .images import Image
from .pools import places, read_at

LVM = "LVM2_member"
# Where a label of LVM2 has the bytes of its disk.
LVM_SIZE = 64
# A file system that covers half of its image is what the image is for.
HALF = 2
# So many partitions are looked at.
MAX_PARTITIONS = 16


@dataclasses.dataclass(frozen=True)
class Home:
    """The head of a file system, or of a physical volume of LVM2: its image, its kind, the sector at which it begins, how many sectors it says that
    it has, 0 if that is not told, and the checksum of its first bytes. Of a copy of a superblock, which stands elsewhere in the file system, `first`
    is the sector of the copy."""

    image: Image
    kind: str
    first: int
    sectors: int
    head: str
    is_copy: bool = False

    @property
    def fits(self) -> bool:
        """It ends within the image, and covers half of what follows its start."""
        room = self.image.sectors - self.first
        return 0 < self.sectors <= room <= HALF * self.sectors

    @property
    def place(self) -> tuple[str, int, int, str]:
        """What two copies of it have in common."""
        return self.kind, self.first, self.sectors, self.head


def length_of(kind: str, head: bytes) -> int:
    """Return the sectors that a head says that its file system has; 0 if it does not tell."""
    if kind == LVM:
        label = head.find(LABEL, 0, LABEL_SECTORS * SECTOR)
        return int(struct.unpack_from("<Q", head, label + LVM_SIZE)[0]) // SECTOR if label >= 0 else 0
    return system_of(kind).length_of(head) // SECTOR


def home_at(image: Image, first: int) -> Home | None:
    """Return the file system that begins at a sector of an image; None if none does."""
    head = read_at(image.name, first * SECTOR, max(LENGTH_BYTES, heads.HEAD_BYTES))
    kind = heads.sniff(head)
    if kind not in SYSTEMS:
        return None
    return Home(image, kind, first, length_of(kind, head), hashlib.sha256(head[:LENGTH_BYTES]).hexdigest())


def homes(image: Image) -> Iterator[Home]:
    """Yield the file systems that begin where disks, partitions and members usually do."""
    usual = [place for place in USUAL_OFFSETS if place < image.sectors]
    for first in dict.fromkeys([*places(image)[:MAX_PARTITIONS], *usual]):
        if found := home_at(image, first):
            yield found


def own_home(image: Image) -> Home | None:
    """Return the largest file system that an image may hold by itself; None if it holds none that covers half of it."""
    found = sorted((it for it in homes(image) if it.fits), key=lambda it: -it.sectors)
    return found[0] if found else None


def copies(images: Iterable[Image], supers: Iterable[tuple[int, int]]) -> Iterator[Home]:
    """Yield what superblocks say that landmarks tell of, each by its image and sector."""
    there = {image.number: image for image in images}
    found = (home_at(there[number], sector) for number, sector in supers if number in there)
    yield from (dataclasses.replace(home, is_copy=True) for home in found if home)


def too_long(images: Sequence[Image], supers: Iterable[tuple[int, int]] = ()) -> Home | None:
    """Return a file system that is longer than all images together, at the length of the longest, if no head says that one fits; None else. Then more
    disks are missing than any level bears. `supers` are the images and sectors of superblocks that landmarks tell of."""
    most = len(images) * max((image.sectors for image in images), default=0)
    found = [home for home in (*all_homes(images), *copies(images, supers)) if home.sectors]
    return max(found, key=lambda it: it.sectors) if found and all(it.sectors > most for it in found) else None


def all_homes(images: Iterable[Image]) -> Iterator[Home]:
    """Yield the file systems whose heads stand on images."""
    for image in images:
        seen = list(homes(image))
        yield from seen
        places_seen = {it.first for it in seen}
        for head in image.heads:
            if head.sector not in places_seen and head.kind == "ext" and (found := home_at(image, head.sector)):
                yield found
