"""Compares the bytes of volumes that files do not tell apart."""

import contextlib
from collections.abc import Callable, Iterator, Sequence
from typing import BinaryIO

from ..evidence import unread
from ..units import KIB
from . import rivals
from .candidates import Candidate
from .members import named
from .tests import Tests
from .verdicts import Score
from .volumes import Source

# Blocks of two volumes that are compared, spread over both, and the bytes of each; and the most different volumes that one is compared with.
BLOCKS, BLOCK, MAX_DIFFERENT = 4096, 4 * KIB, 8
Contradict = Callable[[Candidate, Candidate], bool]


def compared(one: BinaryIO, other: BinaryIO, length: int) -> bool:
    """Two volumes hold the same bytes, as far as so many blocks of both tell."""
    step = max(BLOCK, length // BLOCKS // BLOCK * BLOCK)
    for place in range(0, length, step):
        one.seek(place)
        other.seek(place)
        if one.read(BLOCK) != other.read(BLOCK):
            return False
    return True


def source_of(tests: Tests, it: Candidate) -> Source:
    """Return what the volume of a candidate is made of."""
    members = named(it.word, tests.images)
    return Source(members.word, members.names, it.end or members.end, members.maps)


@contextlib.contextmanager
def mounted(tests: Tests, it: Candidate) -> Iterator[BinaryIO | None]:
    """Mount the volume of a candidate; None if it cannot be mounted."""
    if not tests.room.mounts:
        yield None
        return
    with tests.room.volume(source_of(tests, it), 0, tests.options.seconds) as volume:
        if volume is None or not volume.mounted:
            yield None
            return
        with unread.opened(volume.path) as file:
            yield file


def same_bytes(tests: Tests, one: Candidate, other: Candidate) -> bool:
    """Two candidates have the same bytes in their volumes; a volume that cannot be mounted differs from all others."""
    same = False
    with mounted(tests, one) as left, mounted(tests, other) as right:
        if left and right:
            same = compared(left, right, min(left.seek(0, 2), right.seek(0, 2)))
    return same


def settle(tests: Tests, tested: Sequence[Candidate], contradict: Contradict) -> None:
    """Number the volumes of the candidates with the highest score that contradict each other and that files do not tell apart."""
    different: list[Candidate] = []
    for it in (it for it in tested if it.score is Score.WHOLE):
        near = [one for one in different if rivals.are_highest(it, one) and contradict(it, one) and rivals.is_open(it, one)]
        if it.volume is None and len(different) < MAX_DIFFERENT:
            alike = next((one for one in near if same_bytes(tests, it, one)), None)
            it.volume = alike.volume if alike else 1 + max((one.volume or 0 for one in tested), default=0)
        if it.volume not in {one.volume for one in different}:
            different.append(it)
