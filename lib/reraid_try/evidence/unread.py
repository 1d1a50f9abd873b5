"""Files of which some sectors cannot be read, such as a damaged volume that is mounted."""

import errno
import io
import os
from typing import BinaryIO, cast

from ..units import SECTOR


class Unread(io.RawIOBase):
    """A file in which zeros stand for sectors that cannot be read."""

    def __init__(self, path: str) -> None:
        self.file = open(path, "rb", buffering=0)
        self.place = 0

    def readable(self) -> bool:
        return True

    def seekable(self) -> bool:
        return True

    def fileno(self) -> int:
        return self.file.fileno()

    def seek(self, offset: int, whence: int = os.SEEK_SET) -> int:
        self.place = self.file.seek(offset, whence)
        return self.place

    def tell(self) -> int:
        return self.place

    def close(self) -> None:
        self.file.close()
        super().close()

    def readinto(self, buffer: "bytearray | memoryview") -> int:  # type: ignore[override]
        """Reads at the place where the file stands: at once, or where that fails sector by sector."""
        try:
            data = os.pread(self.fileno(), len(buffer), self.place)
        except OSError as error:
            if error.errno != errno.EIO:
                raise
            data = self.by_sectors(len(buffer))
        buffer[:len(data)] = data
        self.place += len(data)
        return len(data)

    def by_sectors(self, count: int) -> bytes:
        """So many bytes, or as many as there are, with zeros for those of sectors that cannot be read."""
        end = min(self.place + count, os.fstat(self.fileno()).st_size)
        found, place = bytearray(), self.place
        while place < end:
            size = min(end, place // SECTOR * SECTOR + SECTOR) - place
            try:
                found += os.pread(self.fileno(), size, place).ljust(size, b"\0")
            except OSError as error:
                if error.errno != errno.EIO:
                    raise
                found += bytes(size)
            place += size
        return bytes(found)


def opened(path: str) -> BinaryIO:
    """A file for reading, in which zeros stand for sectors that cannot be read."""
    return cast(BinaryIO, io.BufferedReader(Unread(path)))
