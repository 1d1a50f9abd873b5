"""Which candidates give the same volume as another one, or one that begins inside another's, and which contradict each other."""

import collections
import dataclasses
from collections.abc import Hashable, Mapping, Sequence

from ..calls.sets import LAST_Q, STAYS, Word, simplest
from ..evidence.images import Image
from ..policy.plans import MIN_BAD, MAX_BAD
from ..units import SECTOR, counted
from . import rivals
from .candidates import Candidate, Inside
from .damage import is_sounder
from .verdicts import Score

# By how many slots the order of the disks is turned from one row to the next.
TURNS = {"ls": -1, "rs": 1}
FIXED = ("plain", "parity-first", "parity-last")
BY_SLOT = "by-slot"
PLAIN = ("0", "plain", "none")
# Why a set has no rating beside another one.
CONTENT = "another layout of these images, which contradicts it, has long intact files"
BROKEN = "another layout of these images, which contradicts it, has intact files, and this one has none"
UNSOUND = "parity is consistent in far fewer rows than with another layout of these images, which has long intact files too"
UNTOLD = "another layout of these images, which contradicts it, is supported as well: at most one of them is right"


@dataclasses.dataclass(frozen=True)
class Key:
    """What a volume is told by: the layout (of RAID 10 but one word), the chunk, the offsets and the slots, with one number for images that hold the
    same."""

    layout: tuple[str, ...]
    chunk: int
    offsets: tuple[int, ...]
    slots: tuple[int | None, ...]

    @property
    def family(self) -> Hashable:
        """What the sets have in common of which one may begin inside another: the layout, the chunk, the images, and one offset for all."""
        return self.layout, self.chunk, len(self.offsets) == 1 or self.offsets, tuple(sorted(map(str, self.slots)))


def in_order(tested: Sequence[Candidate], images: Sequence[Image]) -> list[Candidate]:
    """The candidates as they are printed: those with the most to say for them first, of one volume the simplest; each with the number of the first
    one that has the same volume, and of one in which its volume begins. Those have no rating beside which another one has more for itself."""
    same = same_images(images)
    # Once is for all: such a one has a lower score then.
    for it in tested:
        it.unsettled = ""
    rated = [it for it in tested if it.score >= Score.CHECKED]
    spoken = [next((told for one in rated if (told := rivalled(it, one, same))), "") for it in rated]
    for it, told in zip(rated, spoken):
        it.rivalled = told
    whole = [it for it in rated if it.score is Score.WHOLE]
    unsettled = [next((told for one in whole if one is not it and contradict(it, one, same) and (told := rivals.unsettled(it, one))), "")
                 for it in whole]
    for it, told in zip(whole, unsettled):
        it.unsettled = told
    order = sorted(tested, key=lambda it: it.place)
    keys = [key(it.word, same) for it in order]
    firsts: dict[Key, int] = {}
    families: dict[Hashable, list[int]] = collections.defaultdict(list)
    for number, one in enumerate(keys):
        families[one.family].append(number)
    for number, it in enumerate(order):
        first = firsts.setdefault(keys[number], number)
        it.same = first if first != number else None
        behind = ((outer, rows_behind(keys[number], keys[outer])) for outer in families[keys[number].family])
        it.inside = next((Inside(outer, rows) for outer, rows in behind if rows), None)
    return order


def key(word: Word, same: Mapping[int, int]) -> Key:
    """A set by what tells its volume: the simplest one of the same volume, and RAID 10 of copies side by side as the RAID 0 that it is."""
    word = simplest(word)
    slots = tuple(None if slot is None else same.get(slot, slot) for slot in word.slots)
    if not word.copying:
        return Key((word.level, word.pattern, word.order), word.chunk, word.offsets, slots)
    groups = [sorted(slots[k:k + word.together], key=lambda slot: (slot is None, slot)) for k in range(0, len(slots), word.together)]
    if word.copying.is_striped(len(slots)):
        return Key(PLAIN, word.chunk, word.offsets, tuple(group[0] for group in groups))
    return Key((word.level,), word.chunk, word.offsets, tuple(slot for group in groups for slot in group))


def rows_behind(inner: Key, outer: Key) -> int:
    """How many rows of chunks the volume of a set begins behind that of another one of its family; 0 where it does not."""
    rows, rest = divmod(inner.offsets[0] - outer.offsets[0], inner.chunk)
    if len(inner.layout) == 1 or rest or rows < 1:
        return 0
    _, pattern, order = inner.layout
    pattern, _, delay = pattern.partition(STAYS)
    # Where parity stays for several rows it is where it would be so many times as early.
    moves, rest = divmod(rows, int(delay or 1))
    # Q by slot weighs the disks in another way where their order is turned.
    turns = TURNS if order != BY_SLOT else {}
    count = len(inner.slots)
    if rest or pattern not in FIXED and pattern not in turns and moves % (count - pattern.endswith(LAST_Q)):
        return 0
    turn = turns.get(pattern, 0) * moves % count
    return rows if inner.slots == outer.slots[turn:] + outer.slots[:turn] else 0


def rivalled(it: Candidate, other: Candidate, same: Mapping[int, int]) -> str:
    """How a candidate with a rating is contradicted by another one that has more for itself; nothing where it is not."""
    rows = rows_before(it, other, same)
    if rows:
        return f"what is found in it begins after its first {rows} stripes, at the start of the volume of another layout"
    if other.whole is it and is_sounder(other, it):
        without = other.step.relaxed[-1]
        return f"{counted(it.unsound or 0, 'inconsistent row')}, and none {without}, which is old, damaged or from another array there"
    if other.whole is it and other.score >= it.score and other.found.files.whole > it.found.files.whole:
        return f"{counted(it.unsound or 0, 'inconsistent row')}, and fewer files are intact than {other.step.relaxed[-1]}"
    if rivals.are_highest(it, other) and (told := rivals.beaten(it, other)) and (contradict(it, other, same) or lesser(it, other, same)):
        return told
    broken = it.score is Score.CHECKED and it.found.files.found > 0 and not it.found.files.longest_of_all and other.found.files.longest_of_all > 0
    if it is other or not (broken or other.score is Score.WHOLE or has_as_much(other, it)) or not contradict(it, other, same):
        return ""
    if other.score is not Score.WHOLE:
        return BROKEN if broken else UNTOLD
    if it.score is Score.CHECKED:
        return CONTENT
    bad = (it.unsound or 0) - (other.unsound or 0)
    return UNSOUND if bad > max(MIN_BAD, it.scope.evidence.filled // MAX_BAD) else ""


def has_as_much(one: Candidate, other: Candidate) -> bool:
    """Of two sets of which a checker alone is content the one has as many whole files, and as many marks that fit, as the other."""
    if one.score is not Score.CHECKED or other.score is not Score.CHECKED:
        return False
    return one.found.files.whole >= other.found.files.whole and one.fits >= other.fits


def rows_before(it: Candidate, other: Candidate, same: Mapping[int, int]) -> int:
    """How many rows of chunks a candidate has before the volume of another one, which begins with something known, and with as much for itself, where
    nothing is known in these rows; 0 where that is not so."""
    inner, outer = key(other.word, same), key(it.word, same)
    rows = rows_behind(inner, outer) if inner.family == outer.family else 0
    begins = it.found.begins
    known = begins is not None and begins < rows * it.word.row * SECTOR
    return 0 if known or other.found.begins != 0 or other.score < it.score else rows


def contradict(one: Candidate, other: Candidate, same: Mapping[int, int]) -> bool:
    """Two sets have some images in common, in parts of the disks that overlap, and neither has the volume of the other, nor one that begins inside
    it, nor is but without some disks what the other is: at most one of them is right."""
    keys = key(one.word, same), key(other.word, same)
    parts = one.scope.evidence, other.scope.evidence
    apart = parts[0].end <= parts[1].start or parts[1].end <= parts[0].start
    shared = set(keys[0].slots) & set(keys[1].slots) - {None}
    related = keys[0].family == keys[1].family and (keys[0] == keys[1] or rows_behind(*keys) or rows_behind(*keys[::-1]))
    return bool(shared) and not (apart or related or is_lesser(*keys))


def lesser(one: Candidate, other: Candidate, same: Mapping[int, int]) -> bool:
    """One of two sets is the other without some disks."""
    return is_lesser(key(one.word, same), key(other.word, same))


def same_images(images: Sequence[Image]) -> dict[int, int]:
    """Return one number for all images that hold the same."""
    return {image.number: image.number if image.like is None else image.like for image in images}


def is_lesser(one: Key, other: Key) -> bool:
    """Two sets are the same but for slots that are empty in one of them: what both name stands in the same slot."""
    alike = (one.layout, one.chunk, one.offsets, len(one.slots)) == (other.layout, other.chunk, other.offsets, len(other.slots))
    met = {left for left, right in zip(one.slots, other.slots) if left == right}
    moved = set(one.slots) & set(other.slots) - met - {None}
    return alike and not moved and all(left == right or left is None or right is None for left, right in zip(one.slots, other.slots))


def text(it: Candidate) -> str:
    """What is said of it; nothing for most."""
    if it.same is not None:
        return f"the same volume as candidate {it.same}"
    return f"the volume of candidate {it.inside.number} without its first {it.inside.rows} stripes" if it.inside else ""
