"""Whether most of what images hold stands on another image too, a distance further on, as the copies of RAID 10 in layouts far and offset do. Files
that are stored twice have such distances as well, but they are a small part of what is there."""

from collections.abc import Mapping, Sequence
from typing import BinaryIO

from ..units import SECTOR

# Sectors of each image that are looked at, and how many of all must not be zeros so that they tell something. One in so many has a copy at least, if
# copies are lost too.
SAMPLES, MIN, PART = 256, 16, 3


def read_at(file: BinaryIO, sector: int) -> bytes:
    """Read a sector; nothing before the start of a file."""
    if sector < 0:
        return b""
    file.seek(sector * SECTOR)
    return file.read(SECTOR)


def is_plain(sector: bytes) -> bool:
    """A sector is one byte over and over, as zeros are: that it stands elsewhere too tells nothing."""
    return sector.count(sector[:1]) == len(sector)


def has_copy(files: Mapping[int, BinaryIO], image: int, place: int, distance: int, sector: bytes) -> bool:
    """A sector of an image stands on another image too, so far behind its place or before it."""
    return any(read_at(file, other) == sector for number, file in files.items() if number != image
               for other in (place + distance, place - distance))


def lie_apart(names: Sequence[str], distance: int, first: int, last: int) -> bool:
    """More than a third of the sectors of these images have a copy so many sectors apart. An image that cannot be read raises `OSError`."""
    files = {number: open(name, "rb") for number, name in enumerate(names)}
    told = copied = 0
    try:
        for image, file in files.items():
            for place in range(first, last, max(1, (last - first) // SAMPLES)):
                sector = read_at(file, place)
                if sector and not is_plain(sector):
                    told += 1
                    copied += has_copy(files, image, place, distance, sector)
    finally:
        for file in files.values():
            file.close()
    return told >= MIN and PART * copied > told
