"""How much is read of the images, and how long that takes at the pace of hard disks: said before it is read, and counted at the end."""

import dataclasses
from collections.abc import Sequence

from ..calls.meter import MAX_AFTER
from ..units import ALL, GIB, MIB, SECTOR
from . import extents, sampling
from .images import Image

# The bytes a second of a hard disk.
PACE = 150_000_000
HOUR, MINUTE = 3600, 60


@dataclasses.dataclass(frozen=True)
class Amount:
    """What the first pass reads: the bytes of each image, without holes of sparse files."""

    held: tuple[int, ...]

    @property
    def apart(self) -> float:
        """Return the seconds that it takes where each image is on a disk of its own."""
        return max(self.held, default=0) / PACE

    @property
    def together(self) -> float:
        """Return the seconds that it takes where one disk holds all images."""
        return sum(self.held) / PACE

    def text(self) -> str:
        """Return what is said of it."""
        return (f", {sum(self.held) // MIB} MiB without holes. Reading that once at {PACE // 1_000_000} MB/s takes {lasting(self.apart)} if each "
                f"image is on its own disk, {lasting(self.together)} if one disk holds all")


def first_pass(images: Sequence[Image], first: int) -> Amount | None:
    """Return what is read of so many first bytes of images; None where none of them is large."""
    if not any(sampling.is_large(0, min(image.sectors, first // SECTOR)) for image in images):
        return None
    return Amount(tuple(SECTOR * extents.total(extents.held(image.name, 0, min(image.sectors, first // SECTOR))) for image in images))


def bound(first: int) -> str:
    """Return what is said before large images are read of where all steps end, of which the first pass reads so many bytes of each; nothing if it
    reads all."""
    return "" if first == ALL else f". After {(first + MAX_AFTER) / GIB:.3g} GiB of each image no step begins, if a layout has a rating"


def lasting(seconds: float) -> str:
    """Return a time for people."""
    if seconds < 2 * MINUTE:
        return f"{seconds:.0f} s"
    return f"{seconds / MINUTE:.0f} min" if seconds < 2 * HOUR else f"{seconds / HOUR:.1f} h"


def in_all(read: int, images: int, rated: int | None = None) -> str:
    """Return what is said at the end of how much was read, and after how many seconds the first layout was rated, if one was."""
    since = "" if rated is None else f". The first rated layout was found after {lasting(rated)}"
    return f"all commands together read at most {read / GIB:.1f} GiB, {read / max(1, images) / GIB:.1f} GiB of each image on average{since}"
