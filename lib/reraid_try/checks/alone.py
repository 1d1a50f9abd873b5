"""Looks at an image as a disk by itself: whether it holds a file system of its own."""

from ..calls.commands import Answer, Runner
from ..calls.meter import Meter
from ..evidence.images import Image
from ..units import GIB, SECTOR
from .checkers import Checkers
from .systems import System
from .verdicts import Verdict
from .volumes import Region, Room, Volume

# Seconds by which a checker of one image is limited, as of a step: it may take ten times as long.
SECONDS = 2
# The most bytes of a file system that is copied for its checker, which takes no place within a file.
MAX_COPIED = GIB
# A file that is whole and as long as this is longer than the chunks of most arrays.
LONG = 1 << 20


class Alone(Checkers):
    """Looks at images by themselves, in a short time."""

    def __init__(self, commands: Runner, room: Room, most: int) -> None:
        super().__init__(commands, room, SECONDS, most)

    def ask(self, system: System, volume: Volume, region: Region, length: int, meter: Meter | None) -> Answer | None:
        """What the checker of a region says; None if the region would have to be copied and is long."""
        placed = system.at or region.length == volume.length
        return super().ask(system, volume, region, length, meter) if placed or length <= MAX_COPIED else None

    def verdict(self, image: Image, first: int) -> Verdict:
        """Return what is in an image by itself, with what begins at a sector."""
        return self.look(Volume(image.name, image.sectors * SECTOR), (first,), LONG, LONG)


def is_sound(verdict: Verdict) -> bool:
    """An image holds a file system of its own: its checker reports no errors, or most files are whole and one of them is long."""
    return not verdict.refuted and not verdict.empty and bool(verdict.inner) and (verdict.clean or verdict.summed or verdict.whole)
