"""Files as the tables of a file system map them: their length and the pieces of the volume in which they lie."""

import dataclasses
import io
from collections.abc import Callable, Iterator
from typing import BinaryIO, cast

# Reads so many bytes of a volume from one on: fewer at its end, zeros where it cannot be read.
Read = Callable[[int, int], bytes]


@dataclasses.dataclass(frozen=True)
class Extent:
    """A piece of a file: its byte in the file, its byte in the volume, and its bytes."""

    at: int
    place: int
    length: int


@dataclasses.dataclass(frozen=True)
class Mapped:
    """A file: its bytes, and its extents in order."""

    size: int
    extents: tuple[Extent, ...]

    @property
    def place(self) -> int:
        """Return the byte of the volume at which it begins."""
        return self.extents[0].place


class View(io.RawIOBase):
    """A mapped file, as one that is read; zeros stand where nothing is mapped."""

    def __init__(self, read: Read, it: Mapped) -> None:
        self.read_at, self.it, self.here = read, it, 0

    def readable(self) -> bool:
        return True

    def seekable(self) -> bool:
        return True

    def seek(self, offset: int, whence: int = io.SEEK_SET) -> int:
        base = {io.SEEK_SET: 0, io.SEEK_CUR: self.here, io.SEEK_END: self.it.size}[whence]
        self.here = base + offset
        return self.here

    def tell(self) -> int:
        return self.here

    def readinto(self, buffer: "bytearray | memoryview") -> int:  # type: ignore[override]
        """Reads on from where it stands, up to the end of an extent, or of what lies before the next one."""
        count = max(0, min(len(buffer), self.it.size - self.here))
        if count:
            data = self.part(self.here, count)
            buffer[:len(data)] = data
            self.here += len(data)
            return len(data)
        return 0

    def part(self, first: int, count: int) -> bytes:
        """Return at most so many bytes from one on, at least one."""
        for extent in self.it.extents:
            if extent.at <= first < extent.at + extent.length:
                count = min(count, extent.at + extent.length - first)
                return self.read_at(extent.place + first - extent.at, count).ljust(count, b"\0")
        following = min((extent.at for extent in self.it.extents if extent.at > first), default=first + count)
        return bytes(min(count, following - first))


def opened(read: Read, it: Mapped) -> BinaryIO:
    """Return a mapped file for reading."""
    return cast(BinaryIO, io.BufferedReader(View(read, it), 1 << 16))


def picked(count: int, most: int) -> Iterator[int]:
    """Yield at most so many of the numbers below a count, evenly spread, the first and the last among them."""
    if count <= most:
        yield from range(count)
    else:
        yield from (number * (count - 1) // (most - 1) for number in range(most))
