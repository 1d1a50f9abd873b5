"""Parts of images, kept in memory one behind the other, which the program reads as images: of large or sparse images it is asked about so little of
each, wherever that lies. The parts are the same of all images, so that rows stay rows."""

import bisect
import contextlib
import dataclasses
import itertools
import os
from collections.abc import Callable, Iterator, Sequence

from ..calls.plans import Group, Mark, Plan
from ..units import MIB, SECTOR
from . import reading

# So many bytes of all images may be kept in memory.
MAX_BYTES = 384 * MIB
# Behind each part so many sectors of zeros stand, so that what begins at its end does not go on in the next one.
GAP = 256


@dataclasses.dataclass(frozen=True)
class Parts:
    """The parts, each as its first sector and the one behind it, in order and apart."""

    runs: tuple[tuple[int, int], ...]

    @property
    def starts(self) -> list[int]:
        """Return where each part begins among the kept sectors, and behind the last one where another would."""
        return [0, *itertools.accumulate(end - first + GAP for first, end in self.runs)]

    @property
    def count(self) -> int:
        """Return how many sectors are kept of each image."""
        return self.starts[-1]

    def sector(self, kept: int) -> int:
        """Return the sector of an image that is kept at a place."""
        starts = self.starts
        number = min(bisect.bisect_right(starts, kept) - 1, len(self.runs) - 1)
        return self.runs[number][0] + kept - starts[number]

    def plan(self, found: Plan, end: int) -> Plan:
        """Return what a survey of the parts says as a plan of the images that they are of."""
        def again(mark: Mark) -> Mark:
            return dataclasses.replace(mark, sector=self.sector(mark.sector))

        def group(it: Group) -> Group:
            return dataclasses.replace(it, marks=tuple(map(again, it.marks)))
        return dataclasses.replace(found, end=end, groups=tuple(map(group, found.groups)))


def new_file(stack: contextlib.ExitStack) -> tuple[int, str]:
    """Return a file in memory that is gone at the end, and the name by which other processes open it."""
    file = os.memfd_create("reraid-try", os.MFD_CLOEXEC)
    stack.callback(os.close, file)
    return file, f"/proc/{os.getpid()}/fd/{file}"


def copy(name: str, parts: Parts, file: int) -> int:
    """Copies the parts of an image into a file, without its holes; the file is as long as the image. Return how many bytes were read."""
    read = 0
    with open(name, "rb") as image:
        length = image.seek(0, os.SEEK_END)
        for (first, end), start in zip(parts.runs, parts.starts):
            for place, block in reading.blocks(image, first * SECTOR, min(end * SECTOR, length)):
                os.pwrite(file, block, (start - first) * SECTOR + place)
                read += len(block)
    os.ftruncate(file, max(length, parts.count * SECTOR))
    return read


@contextlib.contextmanager
def kept(names: Sequence[str], parts: Parts, count: Callable[[int, int], None] = lambda image, read: None) -> Iterator[list[str]]:
    """Gives the names of files in memory that hold these parts of images; `count` is told how many bytes were read of each image, by its place."""
    with contextlib.ExitStack() as stack:
        files = [new_file(stack) for _ in names]
        for number, (name, (file, _)) in enumerate(zip(names, files)):
            count(number, copy(name, parts, file))
        yield [path for _, path in files]


@contextlib.contextmanager
def columns(held: Sequence[bytes]) -> Iterator[list[str]]:
    """Gives the names of files in memory that hold some bytes each."""
    with contextlib.ExitStack() as stack:
        files = [new_file(stack) for _ in held]
        for (file, _), data in zip(files, held):
            os.pwrite(file, data, 0)
        yield [path for _, path in files]
