"""Images that look random all over, as encrypted volumes do."""

import zlib

from ..units import SECTOR
from .images import Image

# Blocks that are looked at, spread over an image, the bytes of each, and how many of a hundred have to be random.
SAMPLES, BLOCK, MOSTLY = 256, 8 * SECTOR, 97


def is_packed(block: bytes) -> bool:
    """A block does not shrink by packing."""
    return len(zlib.compress(block, 1)) >= len(block)


def is_random(image: Image) -> bool:
    """Nearly all blocks of an image that are not zeros look random."""
    told = random = 0
    step = max(1, image.sectors * SECTOR // BLOCK // SAMPLES) * BLOCK
    with open(image.name, "rb") as file:
        for place in range(0, image.sectors * SECTOR, step):
            file.seek(place)
            block = file.read(BLOCK)
            if block.strip(b"\0"):
                told += 1
                random += is_packed(block)
    return told > 0 and 100 * random >= MOSTLY * told
