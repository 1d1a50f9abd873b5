"""How much processes read, by what the kernel counts of each, and a bound on it: a checker may read a wrong volume of terabytes for days."""

import contextlib
import dataclasses
import os
import threading
from collections.abc import Callable, Sequence

from ..units import GIB

# What one command may read of each image on average through what serves a volume, what all may after the first pass, and one in any case.
MAX_OF_IMAGE, MAX_AFTER, MIN_OF_IMAGE = 4 * GIB, 8 * GIB, GIB // 4
# Seconds between two looks at what was read.
NEXT_LOOK = 0.1


def read_by(process: int) -> int:
    """Return how many bytes a process has read; 0 where that is not told."""
    try:
        with open(f"/proc/{process}/io", encoding="ascii") as file:
            return int(file.readline().split()[1])
    except (OSError, ValueError, IndexError):
        return 0


def children_of(process: int) -> Sequence[int]:
    """Return the processes that one started, as far as they are there."""
    with contextlib.suppress(OSError, ValueError), open(f"/proc/{process}/task/{process}/children", encoding="ascii") as file:
        return [int(number) for number in file.read().split()]
    return ()


def family_of(process: int) -> list[int]:
    """Return the processes that one started, with those that these started."""
    return [one for child in children_of(process) for one in (child, *family_of(child))]


def served_by(process: int) -> int:
    """Return how many bytes the server behind a mount has read of its images, by the process that holds the mount."""
    return sum(map(read_by, family_of(process)))


def read_in_all() -> int:
    """Return how many bytes this process and those that it waited for have read."""
    return read_by(os.getpid())


@dataclasses.dataclass
class HandedOn:
    """The bytes that servers of volumes handed on, and that were counted again of those who read them."""

    count: int = 0
    lock: threading.Lock = dataclasses.field(default_factory=threading.Lock)

    def add(self, process: int) -> None:
        """Counts what a server handed on, which is about to end: it reads each byte once more than its images, and so does who asked for it."""
        found = read_by(process) + served_by(process)
        with self.lock:
            self.count += found


HANDED_ON = HandedOn()


def read_of_images() -> int:
    """Return how many bytes of images were read at most, without those that are counted again as they are handed on."""
    return max(0, read_in_all() - HANDED_ON.count)


def is_spent(images: int, first: int) -> bool:
    """Return whether so many large images were read as far as all commands may read them, of which the first pass reads so many bytes of each."""
    return read_of_images() >= images * (first + MAX_AFTER)


def left_for(images: int, first: int | None) -> int:
    """Return how many bytes a command may read of so many images, of which the first pass reads so many bytes of each; None if these are not
    large, so that all commands together have no bound."""
    left = images * (MAX_OF_IMAGE if first is None else first + MAX_AFTER) - (0 if first is None else read_of_images())
    return max(images * MIN_OF_IMAGE, min(images * MAX_OF_IMAGE, left))


class Meter:
    """A bound on what is read from its start on: `count` says how much was read so far."""

    def __init__(self, count: Callable[[], int], most: int) -> None:
        self.count, self.most, self.before = count, most, count()

    @property
    def is_over(self) -> bool:
        """Return whether more was read than may be."""
        return self.count() - self.before > self.most
