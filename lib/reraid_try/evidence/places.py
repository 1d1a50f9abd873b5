"""Where parity lies, by rows of which a part is zeros: an image whose sector is zeros holds no parity of data that are not, and where all that is not
zeros is tied, the parity that ties it is there and not on a lost disk. So each such row says on which images P (and Q) may lie, at whatever level and
however many disks are lost; the rows together mostly tell the order of the disks, which way parity moves, and the chunk.

Where a map calls a sector unread its zeros say nothing. Nor do any where fewer disks are lost than the level bears, and yet not all that is not zeros
is tied: each image is a sum of the others there, or one of them is old or was not read, and it is not known which."""

import bisect
import dataclasses
import functools
from collections.abc import Callable, Iterable, Iterator, Mapping, Sequence
from fractions import Fraction

from ..calls.sets import LEVELS, Word, made, staying
from .image_groups import LEVEL_5, ties_among
from .relations import Relations

CHUNKS = (8, 16, 32, 64, 128, 256, 512, 1024, 2048)
# So many rows have to say something; a placement is held for possible where one in so many of them speaks against it at most, since equal data
# cancel, and where hardly more do than against the best: one in so many more.
MIN_ROWS, FEW_AGAINST, FEW_MORE = 24, 8, 50
# Of so many placements the order of the disks is worked out, and so many orders are told; of more disks none is.
MAX_WORKED, MAX_TOLD, MAX_MEMBERS = 96, 64, 12
# So many rows are looked at, spread over the images.
MAX_ROWS = 16384


# Whether one of some images, by their numbers, holds a short pattern over and over in a row.
Repeats = Callable[[int, Iterable[int]], bool]


@dataclasses.dataclass(frozen=True)
class Turn:
    """How parity moves: the slots of P, and of Q, in a row of so many members, and the patterns of which that holds, each with an order of Q. `fixed`
    says that parity does not move, so that it tells nothing of the order of the data."""

    patterns: tuple[tuple[str, str], ...]
    parity: Callable[[int, int], tuple[int, ...]]
    fixed: bool = False


def left(row: int, members: int) -> int:
    """P that moves from the last slot towards the first."""
    return members - 1 - row % members


def with_next(slot: int, members: int, step: int = 1) -> tuple[int, int]:
    """P, and Q on a slot beside it."""
    return slot, (slot + step) % members


NONE = "none"
TURNS_5 = (
    Turn((("ls", NONE), ("la", NONE)), lambda row, members: (left(row, members),)),
    Turn((("rs", NONE), ("ra", NONE)), lambda row, members: (row % members,)),
    Turn((("parity-last", NONE),), lambda row, members: (members - 1,), True),
    Turn((("parity-first", NONE),), lambda row, members: (0,), True),
)
TURNS_6 = (
    # With ls and rs the order by-data is after-q.
    Turn((("ls", "after-q"), ("la", "after-q"), ("la", "by-data")), lambda row, members: with_next(left(row, members), members)),
    Turn((("rs", "after-q"), ("ra", "after-q"), ("ra", "by-slot"), ("ra", "by-data")), lambda row, members: with_next(row % members, members)),
    Turn((("n-restart", "by-slot"),), lambda row, members: with_next(left(row + 1, members), members)),
    Turn((("n-continue", "by-slot"),), lambda row, members: with_next(left(row, members), members, -1)),
    Turn((("ls-6", "after-q"), ("la-6", "after-q")), lambda row, members: (left(row, members - 1), members - 1)),
    Turn((("rs-6", "after-q"), ("ra-6", "after-q")), lambda row, members: (row % (members - 1), members - 1)),
    Turn((("parity-last", "after-q"),), lambda row, members: (members - 2, members - 1), True),
    Turn((("parity-first", "after-q"),), lambda row, members: (0, 1), True),
    Turn((("parity-first-6", "after-q"),), lambda row, members: (0, members - 1), True),
)


@dataclasses.dataclass(frozen=True)
class Seen:
    """Rows that say something, by one sector and how many they are: the images that are zeros there, and whether all others are tied."""

    sector: int
    count: int
    zero: frozenset[int]
    tied: bool


@dataclasses.dataclass(frozen=True)
class Costs:
    """What speaks against images in slots: of each slot by image how many rows, and how many against its being empty; of how many rows in all."""

    against: tuple[tuple[int, ...], ...]
    empty: tuple[int, ...]
    rows: int

    def of(self, slots: Sequence[int | None]) -> int:
        """How many rows speak against slots, which name the places of images."""
        return sum(self.empty[slot] if image is None else self.against[slot][image] for slot, image in enumerate(slots))

    @property
    def least(self) -> int:
        """Fewer rows speak against no order: of each slot those against the image that goes best, or against none where slots are empty."""
        best = [min(against) for against in self.against]
        gains = sorted((one - empty for one, empty in zip(best, self.empty)), reverse=True)[:len(self.against) - len(self.against[0])]
        return sum(best) - sum(gain for gain in gains if gain > 0)


@dataclasses.dataclass(frozen=True)
class Placement:
    """A turn with a chunk and an offset, the images by slot, and how many rows speak against that, of how many."""

    turn: Turn
    chunk: int
    offset: int
    slots: tuple[int | None, ...]
    against: int
    rows: int

    def words(self, level: str, numbers: Mapping[int, int], offsets: tuple[int, ...] = (), delay: int = 1) -> Iterator[str]:
        """The sets of it, with other numbers for the images, and with offsets of their own where there are some. With a delay parity stays for so
        many rows of chunks that are as much shorter."""
        slots = tuple(None if image is None else numbers[image] for image in self.slots)
        for pattern, order in self.turn.patterns:
            yield made(level, staying(pattern, delay), order, self.chunk // delay, offsets or (self.offset,), slots).text


def joined(gaps: Iterable[range]) -> list[range]:
    """Runs of rows as such that do not touch, in order."""
    found: list[range] = []
    for gap in sorted(gaps, key=lambda it: it.start):
        if found and found[-1].stop >= gap.start:
            gap = range(found[-1].start, max(found.pop().stop, gap.stop))
        found.append(gap)
    return found


def is_in(gaps: Sequence[range], row: int) -> bool:
    """A row is in one of these runs, which are in order."""
    place = bisect.bisect_right(gaps, row, key=lambda gap: gap.start)
    return place > 0 and row in gaps[place - 1]


def never(_row: int, _images: Iterable[int]) -> bool:
    """Return that no data repeat in any row, if the images are not looked at."""
    return False


def seen_in(relations: Relations, images: frozenset[int], spare: int, unread: Sequence[range], parity: int, repeats: Repeats) -> Iterator[Seen]:
    """The rows that say something of these images: some are zeros there and others are not. `spare` is how many disks more may be lost, `unread` has
    runs of rows in which some image was not read, in order. Rows whose data repeat say nothing, as in files of one pattern: such data cancel. Rows
    with more ties than the level has `parity` are such, and those of which `repeats` says so."""
    for rows in relations.rows:
        zero, there = images & rows.zero, images - rows.zero
        ties = ties_among(rows, images)
        tied = frozenset[int]().union(*(tie.images for tie in ties))
        if zero and there and (tied == there or not spare) and len(ties) <= parity:
            for sector in range(rows.first, rows.last + 1, relations.step):
                if not is_in(unread, sector) and not repeats(sector, there):
                    yield Seen(sector, 1, zero, tied == there)


class Places:
    """Where parity may lie on images, by their numbers, of an array of a level with so many members. `unread` has runs of rows in which some image
    was not read, `repeats` says in which rows data repeat."""

    def __init__(self, relations: Relations, images: Sequence[int], level: str, members: int, unread: Iterable[range] = (),
                 repeats: Repeats = never) -> None:
        self.images, self.level, self.members = tuple(images), level, members
        spare = max(0, LEVELS[level].parity - (members - len(self.images)))
        self.seen = tuple(seen_in(relations, frozenset(images), spare, joined(unread), LEVELS[level].parity, repeats))
        self.turns = TURNS_5 if level == LEVEL_5 else TURNS_6

    @property
    def told(self) -> bool:
        """Enough rows say something."""
        return len(self.seen) >= MIN_ROWS and self.members <= MAX_MEMBERS

    @functools.cache
    def costs(self, turn: Turn, chunk: int, offset: int) -> Costs:
        """What speaks against images in slots, by all rows."""
        places = {image: place for place, image in enumerate(self.images)}
        against, empty, total = [[0] * len(self.images) for _ in range(self.members)], [0] * self.members, 0
        for seen in self.seen:
            if seen.sector < offset:
                continue
            total += seen.count
            for slot in turn.parity((seen.sector - offset) // chunk, self.members):
                for image in seen.zero:
                    against[slot][places[image]] += seen.count
                # At level 6 one of the two may tie the rest alone.
                if seen.tied and self.level == LEVEL_5:
                    empty[slot] += seen.count
        return Costs(tuple(map(tuple, against)), tuple(empty), total)

    def turn_of(self, pattern: str) -> Turn | None:
        """How parity of a pattern moves; None where that is not known here."""
        return next((turn for turn in self.turns if any(pattern == name for name, _ in turn.patterns)), None)

    def against(self, word: Word) -> Fraction | None:
        """Which part of the rows speaks against a set; None where too little is known of it, as where it leaves out one of the images, which may
        hold what ties the others."""
        turn = self.turn_of(word.rotation)
        alike = (word.level, len(word.slots)) == (self.level, self.members) and set(word.images) == set(self.images)
        if turn is None or word.is_each or not self.told or not alike:
            return None
        costs = self.costs(turn, word.chunk * word.delay, word.offset)
        if costs.rows < MIN_ROWS:
            return None
        return Fraction(costs.of([None if image is None else self.images.index(image) for image in word.slots]), costs.rows)

    def allowed(self, words: Sequence[Word]) -> list[bool]:
        """Of each of these sets, whether few rows speak against it, and hardly more than against the best of them, or too little is known."""
        parts = [self.against(word) for word in words]
        least = min((part for part in parts if part is not None), default=Fraction(0))
        return [part is None or FEW_AGAINST * part <= 1 and FEW_MORE * (part - least) <= 1 for part in parts]

    def best(self, offsets: Iterable[int], chunks: Sequence[int] = CHUNKS) -> list[Placement]:
        """The placements against which fewest rows speak, few of all, of patterns whose parity moves; none where too few rows say something."""
        if not self.told:
            return []
        found = [(costs.least, turn, chunk, offset) for offset in offsets for turn in self.turns if not turn.fixed for chunk in chunks
                 if (costs := self.costs(turn, chunk, offset)).rows >= MIN_ROWS and FEW_AGAINST * costs.least <= costs.rows]
        worked = [self.worked(turn, chunk, offset) for _, turn, chunk, offset in sorted(found, key=lambda it: it[0])[:MAX_WORKED]]
        good = sorted((it for it in worked if FEW_AGAINST * it.against <= it.rows), key=lambda it: it.against)
        return [it for it in good if FEW_MORE * (it.against - good[0].against) <= it.rows][:MAX_TOLD]

    def worked(self, turn: Turn, chunk: int, offset: int) -> Placement:
        """The order of the images against which fewest rows speak."""
        costs, count = self.costs(turn, chunk, offset), len(self.images)

        @functools.cache
        def order(slot: int, used: int) -> tuple[int, tuple[int | None, ...]]:
            """The fewest rows against the slots from one on, and what stands in these, where some images are used."""
            if slot == self.members:
                return 0, ()
            ways = []
            if slot - used.bit_count() < self.members - count:
                rest, slots = order(slot + 1, used)
                ways.append((rest + costs.empty[slot], (None, *slots)))
            for image in range(count):
                if not used >> image & 1:
                    rest, slots = order(slot + 1, used | 1 << image)
                    ways.append((rest + costs.against[slot][image], (image, *slots)))
            return min(ways, key=lambda it: it[0])
        least, places = order(0, 0)
        slots = tuple(None if place is None else self.images[place] for place in places)
        return Placement(turn, chunk, offset, slots, least, costs.rows)
