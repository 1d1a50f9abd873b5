"""Short texts that sectors of an image are: one text over and over, or once before zeros, as BAD SECTOR or the bytes de ad be ef, and such a text
with a number that counts the sectors."""

import collections
import dataclasses
import functools
import re
from collections.abc import Iterable, Iterator, Sequence
from typing import BinaryIO

from ..units import MIB, SECTOR
from . import reading
from .maps import READ, Map

# A text has so many bytes at most. By so many first bytes of a sector it is seen whether these come again; once it stands with so many at least.
SHORT, BEGIN, MIN_BYTES = 64, 8, 4
ZEROS, NO_BEGIN = bytes(SECTOR - SHORT), bytes(BEGIN)
# Texts are looked for in each of so many sectors, in the first bytes of an image, and in so many blocks of so many bytes spread over the rest of what
# is read; in all of that those that are to be told of.
EVERY, FIRST_BYTES, SPREAD, BLOCK = 8, 256 * MIB, 1024, 128 * SECTOR
# A text counts that fills so many sectors, and so many texts of an image do.
MIN, MAX_TEXTS = 2, 8
# From one sector to the next a number may count sectors or bytes, or what is larger than a sector; of so many sectors one may do otherwise.
STEPS, FEW_OTHER = (0, 1, SECTOR), 10
NUMBER = re.compile(rb"[0-9A-Fa-f]*[0-9][0-9A-Fa-f]*")
WORD = re.compile(rb"[A-Za-z]{3}")
PRINTABLE = re.compile(rb"[\t\n\r -~]+")
UNREAD = "-"


@dataclasses.dataclass(frozen=True)
class Text:
    """What a sector is: a short text, over and over or once before zeros."""

    data: bytes
    again: bool = True

    @functools.cached_property
    def number(self) -> bytes:
        """The first number in it; nothing where it has none, is but a number, or is no text for people."""
        found = NUMBER.search(self.data) if PRINTABLE.fullmatch(self.data) and any(NUMBER.split(self.data)) else None
        return found[0] if found else b""

    @property
    def needle(self) -> bytes:
        """What stands in each sector that is like it."""
        return max(NUMBER.split(self.data), key=len) if self.number else self.data

    @functools.cached_property
    def like(self) -> "Text":
        """What it is but for the numbers in it, or for the byte at which it begins where it is there over and over."""
        if self.number:
            return Text(NUMBER.sub(b"0", self.data), self.again)
        return Text(min(self.data[k:] + self.data[:k] for k in range(len(self.data))), True) if self.again else self

    def follows(self, other: "Text") -> bool:
        """Its number, decimal or hexadecimal, counts on from another's."""
        bases = (10, 16) if (self.number + other.number).isdigit() else (16,)
        return bool(self.number) and any(int(self.number, base) - int(other.number, base) in STEPS for base in bases)

    @property
    def has_words(self) -> bool:
        """It is a text for people."""
        return bool(PRINTABLE.fullmatch(self.data) and WORD.search(self.data))

    def quoted(self) -> str:
        """How it is said."""
        told = f'"{self.data.decode("ascii").encode("unicode_escape").decode("ascii")}"' if PRINTABLE.fullmatch(self.data) else self.data.hex(" ")
        return told + (" over and over" if self.again else " before zeros")


@functools.lru_cache(maxsize=1024)
def text_of(sector: bytes) -> Text | None:
    """The short text that a sector is; None where it is none, or one byte alone."""
    period = sector.find(sector[:SECTOR - SHORT], 1)
    if period > 1 and sector == (sector[:period] * (SECTOR // period + 1))[:SECTOR]:
        return Text(sector[:period])
    once = sector.rstrip(b"\0")
    return Text(once, False) if period < 0 and MIN_BYTES <= len(once) <= SHORT and Text(once).has_words else None


def texts(block: bytes) -> Iterator[Text]:
    """The short texts that some sectors of a block are, of which it looks at a part."""
    for at in range(0, len(block) - SECTOR + 1, EVERY * SECTOR):
        begin = block[at:at + BEGIN]
        if begin != NO_BEGIN and (block.find(begin, at + 1, at + SHORT + BEGIN) > 0 or block.startswith(ZEROS, at + SHORT)):
            if found := text_of(block[at:at + SECTOR]):
                yield found


def like(block: bytes, wanted: Text) -> Iterator[tuple[int, Text]]:
    """The sectors of a block that are like a text, by their places in it."""
    at = block.find(wanted.needle)
    while at >= 0:
        first = place = at // SECTOR
        sector = block[place * SECTOR:(place + 1) * SECTOR]
        found = text_of(sector)
        while found and found.like == wanted and (place == first or block.startswith(sector, place * SECTOR)):
            yield place, found
            place += 1
        at = block.find(wanted.needle, max(place, first + 1) * SECTOR)


@dataclasses.dataclass
class Held:
    """A text that fills sectors of an image: as it stands in the first of these and in the last, the runs of these as first sector and the one
    behind, how many of these follow another one, and how many of them with the next number. `varies` says that its numbers are not all the same."""

    text: Text
    last: Text
    runs: list[tuple[int, int]] = dataclasses.field(default_factory=list)
    behind: int = 0
    counted: int = 0
    varies: bool = False

    def add(self, sector: int, text: Text) -> None:
        """One more sector, behind all that it has."""
        if self.runs and self.runs[-1][1] == sector:
            self.runs[-1] = self.runs[-1][0], sector + 1
            self.behind += 1
            self.counted += text.follows(self.last)
        else:
            self.runs.append((sector, sector + 1))
        self.varies |= text.number != self.text.number
        self.last = text

    @property
    def sectors(self) -> int:
        """How many sectors it fills."""
        return sum(stop - first for first, stop in self.runs)

    @property
    def is_one(self) -> bool:
        """It is one text, or its numbers count on from sector to sector."""
        return not self.varies or self.behind > 0 and FEW_OTHER * (self.behind - self.counted) <= self.behind

    def joined(self, other: "Held") -> "Held":
        """The same with the sectors of another one, none of which it has."""
        return dataclasses.replace(self, runs=sorted(self.runs + other.runs))

    def gaps(self, end: int) -> Map:
        """The map of an image of so many sectors in which just these were not read."""
        borders = [0, *(sector for run in self.runs for sector in run), end]
        blocks = [(first * SECTOR, (stop - first) * SECTOR, UNREAD if number % 2 else READ)
                  for number, (first, stop) in enumerate(zip(borders, borders[1:])) if stop > first]
        made = Map("", "", tuple(blocks))
        return dataclasses.replace(made, text=made.plain)


class Texts:
    """The texts that fill sectors of an image, each with what is like it."""

    def __init__(self) -> None:
        self.found: dict[Text, Held] = {}

    def add(self, place: int, block: bytes, wanted: Iterable[Text]) -> None:
        """Those of a block at a byte, which are like these."""
        for it in wanted:
            for sector, text in like(block, it):
                self.found.setdefault(it, Held(text, text)).add(place // SECTOR + sector, text)

    def sorted(self, gaps: Sequence[range]) -> list[Held]:
        """Those that fill several sectors in none of these gaps, that with the most first."""
        kept = [dataclasses.replace(it, runs=list(outside(it.runs, gaps))) for it in self.found.values() if it.is_one]
        return sorted((it for it in kept if it.sectors >= MIN), key=lambda it: -it.sectors)[:MAX_TEXTS]


def seen(file: BinaryIO, length: int) -> Texts:
    """The texts that fill sectors where it is looked at first in so many bytes of an image."""
    found = Texts()
    for first, last in parts_of(length):
        for place, block in reading.blocks(file, first, last):
            counts = collections.Counter(text.like for text in texts(block))
            # Short files without a number in them are many.
            found.add(place, block, [it for it, count in counts.items() if it.again or it.number or count > 1])
    return found


def all_like(file: BinaryIO, length: int, wanted: Sequence[Text]) -> Texts:
    """The sectors in so many bytes of an image that are like these texts."""
    found = Texts()
    for place, block in reading.blocks(file, 0, length if wanted else 0):
        found.add(place, block, wanted)
    return found


def parts_of(length: int) -> list[tuple[int, int]]:
    """The bytes that are looked at first of so many: the first ones, and blocks spread over the rest."""
    first = min(length, FIRST_BYTES)
    step = max(BLOCK, (length - first) // SPREAD // BLOCK * BLOCK)
    return [(0, first), *((place, min(length, place + BLOCK)) for place in range(first, length, step))]


def outside(runs: Iterable[tuple[int, int]], gaps: Sequence[range]) -> Iterator[tuple[int, int]]:
    """What of these runs lies in none of some gaps, which are in order."""
    for first, stop in runs:
        for gap in gaps:
            if first < gap.stop and gap.start < stop:
                if first < gap.start:
                    yield first, gap.start
                first = gap.stop
        if first < stop:
            yield first, stop
