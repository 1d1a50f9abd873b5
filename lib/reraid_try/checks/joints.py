"""Long files at the borders of chunks: where whole ones go on from one chunk to the next, and where others break.

In the right volume a file may break anywhere, since it was deleted, overwritten or lies in pieces. In a wrong one files break at the same borders of
each period of the layout, and no whole file crosses these borders. Two volumes of the same images are compared by the same files, which are known by
their first sectors."""

import dataclasses
import hashlib
import itertools
import time
from collections.abc import Iterator, Mapping, Sequence
from typing import BinaryIO, cast

from ..calls.sets import FIXED_P, LAST_Q, Word
from ..evidence import unread
from ..units import KIB, SECTOR
from . import wholes

# The most starts of files that are looked at, and the most files that are read.
MAX_STARTS, MAX_READ = 1 << 14, 512
# Bytes that a file is read at once, and bytes of wrong data that a decoder may take for right ones before it notices: 1 in 60 files takes more.
FINE, UNNOTICED = 4 * KIB, 32 * KIB
# Kinds of files whose decoders notice wrong data at once.
PROMPT = ("gzip", "zip")
# One file may break where no other goes on for so many whole long files: at a border that few files reach.
FEW_TORN = 20
# One volume is better than another if more than so many times as many files are whole in it alone.
CLEARLY = 2


def period_of(word: Word) -> int:
    """Return after how many chunks of the volume the layout of a set repeats."""
    members = len(word.slots)
    if word.copying or word.level == "0":
        return members
    rows = 1 if word.rotation in FIXED_P else (members - word.rotation.endswith(LAST_Q)) * word.delay
    return rows * int(word.data)


@dataclasses.dataclass
class Joints:
    """What long files say of the order of the chunks. `whole` counts the whole files that go on from one chunk to the next, `torn` those that break
    where no whole file goes on. `heads` has the bytes of each file by the checksum of its first sector, 0 if it is broken."""

    whole: int = 0
    torn: int = 0
    heads: dict[str, int] = dataclasses.field(default_factory=dict)

    @property
    def speak_against(self) -> bool:
        """Too many files break where no whole one goes on."""
        return self.torn > self.whole // FEW_TORN

    def text(self) -> str:
        """Say why the long files speak against the volume."""
        return (f"{self.torn} files break at borders of chunks across which no intact file continues; {self.whole} intact files continue across "
                "others")


class Watched:
    """A file that is read in small pieces. `last` is the byte behind the last one that was read."""

    def __init__(self, file: BinaryIO) -> None:
        self.file, self.last = file, 0

    def seek(self, place: int) -> int:
        """Go to a byte."""
        return self.file.seek(place)

    def read(self, count: int) -> bytes:
        """Read so many bytes, or the first of a long piece."""
        data = self.file.read(min(count, FINE) if count == wholes.BLOCK else count)
        self.last = self.file.tell()
        return data


@dataclasses.dataclass(frozen=True)
class Start:
    """The start of a file: its first byte, its kind, the byte at which the next file starts, and the checksum of its first sector."""

    place: int
    kind: wholes.Kind
    end: int
    head: str


@dataclasses.dataclass(frozen=True)
class Grid:
    """The bytes of a chunk, and after how many chunks the layout repeats."""

    chunk: int
    period: int

    def crossed(self, first: int, last: int) -> range:
        """Return the borders between the chunks of two bytes, each by the number of the chunk before it."""
        return range(first // self.chunk, last // self.chunk)

    def joints(self, first: int, last: int) -> set[int]:
        """Return the borders between two bytes by their places in a period."""
        return {number % self.period for number in itertools.islice(self.crossed(first, last), self.period)}


def starts_of(file: BinaryIO, last: int, grid: Grid, until: float) -> list[Start]:
    """Return the files that may go on in the next chunk, in the order of their checksums, which is the same in all volumes that have them."""
    found = list(itertools.islice(wholes.starts(file, 0, last, until), MAX_STARTS))
    ends = [*(place for place, _ in found[1:]), last]
    return sorted(heads_of(file, found, ends, grid), key=lambda it: it.head)[:MAX_READ]


def heads_of(file: BinaryIO, found: Sequence[tuple[int, wholes.Kind]], ends: Sequence[int], grid: Grid) -> Iterator[Start]:
    """Yield the starts behind which a chunk ends before the next file starts."""
    for (place, kind), end in zip(found, ends):
        if grid.crossed(place, end - 1):
            file.seek(place)
            yield Start(place, kind, end, hashlib.sha256(file.read(SECTOR)).hexdigest()[:32])


def broken_in(file: Watched, it: Start) -> tuple[int, int]:
    """Return between which bytes a broken file that was just read goes wrong."""
    if it.kind.name in PROMPT:
        return max(it.place, file.last - UNNOTICED), max(it.place, file.last - 1)
    return it.place, it.end - 1


def look(path: str, last: int, grid: Grid, seconds: float) -> Joints:
    """Read the long files of the first bytes of a volume, as many as the time allows."""
    told, passed, broken = Joints(), set[int](), list[set[int]]()
    now = time.monotonic()
    with unread.opened(path) as file:
        watched = Watched(file)
        for it in starts_of(file, last, grid, now + seconds / 2):
            if time.monotonic() > now + seconds:
                break
            size = it.kind.length(cast(BinaryIO, watched), it.place)
            if size:
                passed |= grid.joints(it.place, it.place + size - 1)
                told.whole += bool(grid.crossed(it.place, it.place + size - 1))
            elif size is not None:
                broken.append(grid.joints(*broken_in(watched, it)))
            if size is not None:
                told.heads[it.head] = max(told.heads.get(it.head, 0), size)
    told.torn = sum(bool(joints) and not joints & passed for joints in broken)
    return told


def only_whole(one: Mapping[str, int], other: Mapping[str, int]) -> int:
    """Return how many files are whole in one volume and broken in another."""
    return sum(bool(size) and other.get(head) == 0 for head, size in one.items())


@dataclasses.dataclass(frozen=True)
class Duel:
    """Two volumes of the same images: how many files are whole in the first alone, and in the second alone."""

    first: int
    second: int

    @property
    def second_wins(self) -> bool:
        """The second volume is clearly better."""
        return self.second > CLEARLY * self.first

    @property
    def first_wins(self) -> bool:
        """The first volume is clearly better."""
        return self.first > CLEARLY * self.second


def duel(one: Joints | None, other: Joints | None) -> Duel:
    """Compare two volumes by the files that both have."""
    if one is None or other is None:
        return Duel(0, 0)
    return Duel(only_whole(one.heads, other.heads), only_whole(other.heads, one.heads))
