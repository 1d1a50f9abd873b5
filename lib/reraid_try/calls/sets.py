"""Set words, taken apart, and the levels."""

import dataclasses
import functools
import math
import re
from collections.abc import Sequence

# How the copies of RAID 10 lie.
NEAR, FAR, OFFSET = "near", "far", "offset"
COPYING, MAX_COPIES = re.compile(r"(near|far|offset)([2-4])"), 4


@dataclasses.dataclass(frozen=True)
class Copying:
    """A layout of RAID 10: how the copies of a chunk lie, and how many there are."""

    kind: str
    copies: int

    @property
    def text(self) -> str:
        """The layout as a set word has it."""
        return f"{self.kind}{self.copies}"

    def together(self, members: int) -> int:
        """Return how many slots in a row hold the same, of so many members; 1 where none does."""
        return math.gcd(self.copies, members) if self.kind == NEAR else 1

    def is_striped(self, members: int) -> bool:
        """Of so many members the volume is that of a RAID 0 of one of each so many, so that the copies do not tell the chunk."""
        return self.together(members) == self.copies


NEAR_2 = Copying(NEAR, 2)


def read_copying(text: str) -> Copying | None:
    """Return a layout of RAID 10; None where it is another word."""
    match = COPYING.fullmatch(text)
    return Copying(match[1], int(match[2])) if match else None


@dataclasses.dataclass(frozen=True)
class Level:
    """A level of parity: how many disks it may lose, which is how many chunks of a row are parity, and how many members it has at least."""

    parity: int
    least: int


LEVELS = {"0": Level(0, 2), "5": Level(1, 3), "6": Level(2, 4)}
# Patterns whose Q stands on the last slot, behind those of level 5.
LAST_Q = "-6"
# What stands between a pattern and for how many rows parity stays before it moves on, where that is more than one.
STAYS = "*"
# The patterns whose data are numbered from the slot behind Q on, so that these two orders of Q are one.
SYMMETRIC, BY_DATA, AFTER_Q = ("ls", "rs"), "by-data", "after-q"
# The slot that has all parity at level 5, and all Q at level 6, for the patterns that have such a one.
FIXED_P = {"parity-first": 0, "parity-last": -1}
FIXED_Q = {"parity-first": 1, "parity-last": -1}


@dataclasses.dataclass(frozen=True)
class Word:
    """A set word, taken apart. `pattern` has for how many rows parity stays, where that is more than one; `slots` has None where a slot is empty; of
    RAID 10 pattern and order are empty."""

    text: str
    level: str
    pattern: str
    order: str
    chunk: int
    offsets: tuple[int, ...]
    slots: tuple[int | None, ...]

    @functools.cached_property
    def copying(self) -> Copying | None:
        """Return the layout of a RAID 10; None of others."""
        return read_copying(self.level)

    @property
    def rotation(self) -> str:
        """Return its pattern, whatever rows parity stays for."""
        return self.pattern.partition(STAYS)[0]

    @property
    def delay(self) -> int:
        """For how many rows of chunks parity stays before it moves on."""
        return int(self.pattern.partition(STAYS)[2] or 1)

    @property
    def is_mirrored(self) -> bool:
        """It is a RAID 10."""
        return self.copying is not None

    @property
    def together(self) -> int:
        """Return how many slots in a row hold the same."""
        return self.copying.together(len(self.slots)) if self.copying else 1

    @property
    def needs_end(self) -> bool:
        """Return whether the distance of its copies depends on where the members end."""
        return self.copying is not None and self.copying.kind == FAR

    @property
    def lost(self) -> int:
        """Return how many slots are empty."""
        return self.slots.count(None)

    @property
    def spare(self) -> int:
        """Return how many disks more it may lose and parity still has their bytes."""
        return 0 if self.is_mirrored else LEVELS[self.level].parity - self.lost

    @property
    def data(self) -> float:
        """Return how many data chunks a row has; those of RAID 10 by its copies, where it may be no whole number."""
        members = len(self.slots)
        return members / self.copying.copies if self.copying else members - LEVELS[self.level].parity

    @property
    def row(self) -> int:
        """Return the sectors of a row of data chunks."""
        return int(self.data * self.chunk)

    @property
    def offset(self) -> int:
        """Return the sector at which the data of the members begin; the greatest, where each has one of its own."""
        return max(self.offsets)

    @property
    def is_each(self) -> bool:
        """Each image has an offset of its own."""
        return len(self.offsets) > 1

    @property
    def simplicity(self) -> tuple[int, str, int]:
        """Return what sets of one volume are sorted by: the fewest members first, then the lower level, then parity that moves on sooner."""
        return len(self.slots), self.level, self.delay

    @property
    def images(self) -> tuple[int, ...]:
        """Return the images that it names, by slot."""
        return tuple(slot for slot in self.slots if slot is not None)

    def sectors(self, end: int) -> int:
        """Return the sectors of its volume, of members that end there."""
        rows, members = max(0, end - self.offset) // self.chunk, len(self.slots)
        if not self.copying:
            return int(rows * self.data) * self.chunk
        copies = self.copying.copies
        return (rows * members // copies if self.copying.kind == NEAR else rows // copies * members) * self.chunk

    def having(self, slots: tuple[int | None, ...]) -> "Word":
        """Return the set with other slots."""
        return read_word(":".join([self.text.rsplit(":", 1)[0], slots_text(slots)]))

    def without(self, images: frozenset[int]) -> "Word":
        """Return the set without these images, whose slots are empty then."""
        return self.having(tuple(None if slot in images else slot for slot in self.slots))

    def over(self, images: Sequence[int]) -> "Word":
        """Return the same set where these images alone are named, in this order: it has all of its own among them."""
        numbers = {image: place for place, image in enumerate(images)}
        offsets = tuple(self.offsets[image] for image in images) if self.is_each else self.offsets
        slots = tuple(None if slot is None else numbers[slot] for slot in self.slots)
        return read_word(":".join([*self.text.split(":")[:-2], "+".join(map(str, offsets)), slots_text(slots)]))

    def folded(self) -> "Word":
        """Return the same set with one offset, where the list of its offsets is one number repeated."""
        if len(self.offsets) < 2 or len(set(self.offsets)) > 1:
            return self
        parts = self.text.split(":")
        return read_word(":".join([*parts[:-2], str(self.offset), parts[-1]]))


def staying(rotation: str, delay: int) -> str:
    """Return a pattern whose parity stays for so many rows."""
    return f"{rotation}{STAYS}{delay}" if delay > 1 else rotation


def without_slot(word: Word, slot: int, level: str, pattern: str) -> Word | None:
    """Return the set of a lower level without one slot, which is empty; None where the slot is not, or that level has more members."""
    slots = word.slots[:slot] + word.slots[slot:][1:]
    if word.slots[slot] is not None or len(slots) < LEVELS[level].least or slots.count(None) > LEVELS[level].parity:
        return None
    return made(level, pattern, "none", word.chunk, word.offsets, slots)


def lower(word: Word) -> Word | None:
    """Return the set of the next lower level that has the same volume whatever the images hold: a RAID 5 in place of a RAID 6 whose Q stood on one
    disk that is missing, a RAID 0 in place of a RAID 5 whose parity did; None for most."""
    if word.level == "6" and word.rotation.endswith(LAST_Q):
        return without_slot(word, len(word.slots) - 1, "5", staying(word.rotation.removesuffix(LAST_Q), word.delay))
    if word.level == "6" and word.pattern in FIXED_Q:
        return without_slot(word, FIXED_Q[word.pattern] % len(word.slots), "5", word.pattern)
    if word.level == "5" and word.pattern in FIXED_P:
        return without_slot(word, FIXED_P[word.pattern] % len(word.slots), "0", "plain")
    return None


def simplest(word: Word) -> Word:
    """Return the set of the lowest level, with the fewest members, that has the same volume whatever the images hold; of two orders of Q that weigh
    the same disks alike the first."""
    while (found := lower(word)) is not None:
        word = found
    if word.level == "6" and word.rotation in SYMMETRIC and word.order == BY_DATA:
        return made(word.level, word.pattern, AFTER_Q, word.chunk, word.offsets, word.slots)
    return word


def slots_text(slots: tuple[int | None, ...]) -> str:
    """Slots as a set word has them."""
    return ",".join("-" if slot is None else str(slot) for slot in slots)


def read_word(text: str) -> Word:
    """Return a set word of a listing, taken apart."""
    parts = text.split(":")
    slots = tuple(None if slot == "-" else int(slot) for slot in parts[-1].split(","))
    pattern, order = ("", "") if read_copying(parts[0]) else (parts[1], parts[2])
    return Word(text, parts[0], pattern, order, int(parts[-3]), tuple(int(offset) for offset in parts[-2].split("+")), slots)


def made(level: str, pattern: str, order: str, chunk: int, offsets: tuple[int, ...], slots: tuple[int | None, ...]) -> Word:
    """Return a set word of its parts."""
    return read_word(":".join([level, pattern, order, str(chunk), "+".join(map(str, offsets)), slots_text(slots)]))


def mirrored(copying: Copying, chunk: int, offset: int, slots: tuple[int | None, ...]) -> Word:
    """Return the set word of a RAID 10."""
    return read_word(f"{copying.text}:{chunk}:{offset}:{slots_text(slots)}")
