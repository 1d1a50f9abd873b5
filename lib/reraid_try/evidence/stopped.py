"""Images whose imaging may have stopped: they end where most other images hold data still, or before the end of a partition that their own table
names. All that lies behind their end is missing of them, while the other images have it."""

from collections.abc import Sequence
from typing import BinaryIO

from ..errors import OutsideError, said
from ..units import SECTOR
from . import unread
from .images import Image

# So many places behind the end of an image are looked at on each longer one, and one in so many of them has to hold something.
SAMPLES, HELD = 64, 8


def is_held(file: BinaryIO, first: int, end: int) -> bool:
    """Return whether an image holds data, and not only a table or metadata, from a sector to before another one."""
    step = max(1, (end - first) // SAMPLES)
    filled = looked = 0
    for sector in range(first, end, step):
        file.seek(sector * SECTOR)
        looked, filled = looked + 1, filled + any(file.read(SECTOR))
    return looked > 0 and HELD * filled >= looked


def holds_behind(image: Image, sector: int, end: int) -> bool:
    """Return whether an image holds data behind a sector, before an end. An image that cannot be read raises `OutsideError`."""
    last = min(image.sectors, end)
    if last <= sector:
        return False
    try:
        with unread.opened(image.name) as file:
            return is_held(file, sector, last)
    except OSError as error:
        raise OutsideError(f"an image cannot be read: {said(error)}") from error


def found(images: Sequence[Image], end: int) -> list[Image]:
    """Return those of some images behind whose end more than half of the others hold data, before an end. Disks that are only shorter than others are
    none: of an array no disk holds data behind the end of its shortest one."""
    stopped = []
    for image in images:
        others = [it for it in images if it.number != image.number]
        longer = [it for it in others if it.sectors > image.sectors]
        if 2 * len(longer) > len(others) and 2 * sum(holds_behind(it, image.sectors, end) for it in longer) > len(others):
            stopped.append(image)
    return stopped
