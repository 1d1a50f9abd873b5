"""The rows of a set: in which of them parity holds, and up to which the marks fit."""

import dataclasses
from collections.abc import Iterable, Sequence
from fractions import Fraction

from ..calls.formats import Checked, Held
from ..calls.plans import Plan
from ..calls.program import Program
from ..calls.sets import Word, read_word
from ..calls.surveys import Request
from ..evidence.images import Image
from ..halving import halved
from ..policy.scope import Scope
from ..units import counted
from .candidates import Candidate

# The rows of a set that takes longer to test, in seconds, are not looked for.
SLOW = 3
# A set with more than one in so many filled rows unsound has no image that is but old or damaged; of an image that ties name as old so much of the
# filled rows may be.
MAX_OLD, MAX_STALE = 2, Fraction(9, 10)
# So many marks fit before a row, and so many do not behind it, where an array was reshaped up to there.
MIN_TURNED = 3


@dataclasses.dataclass
class Near:
    """A set, with the plan by which it is tested, and what `check` says of it."""

    word: str
    plan: Plan
    told: Checked = Checked(0, 0)

    @property
    def groups(self) -> tuple[Held, ...]:
        """What `check` says of each group."""
        return self.told.groups

    @property
    def doubtful(self) -> bool:
        """More marks of some group speak against it than for it."""
        return any(group.doubtful for group in self.groups)

    @property
    def misfits(self) -> int:
        """How many misfits each group was allowed."""
        return int(self.plan.values["misfits"])

    @property
    def lacking(self) -> int:
        """How many groups do not hold."""
        return sum(group.origin is None for group in self.groups)

    @property
    def empty(self) -> int:
        """How many of its slots are empty."""
        return read_word(self.word).lost

    @property
    def by_rows(self) -> tuple[bool, int, int, int, int, int]:
        """What sets with unsound rows are sorted by: what chunks leave over at the end of the disks makes no difference."""
        return self.doubtful, 100 * self.told.unsound // max(1, self.told.rows), self.lacking, self.misfits, self.empty, -self.told.fits

    @property
    def by_marks(self) -> tuple[int, int, int, int]:
        """What sets that parity allows are sorted by."""
        return self.lacking, self.misfits, self.empty, -self.told.fits

    def line(self, bounds: "Bounds") -> str:
        """Return it as one line of text."""
        groups = ", ".join(group.text() for group in self.groups) or "no landmarks"
        return f"  {self.word}: {self.told.unsound} of {self.told.rows} rows inconsistent{bounds.text()}; {groups}"


@dataclasses.dataclass(frozen=True)
class Bounds:
    """The first and the last unsound row, None where they are not known."""

    first: int | None = None
    last: int | None = None

    def text(self) -> str:
        """What is said of them."""
        return "" if self.first is None or self.last is None else f", first {self.first} and last {self.last}"


def rows_in_words(told: Checked, bounds: Bounds) -> str:
    """In which rows parity holds, with the first and the last that is unsound, where they are known."""
    if not told.unsound:
        return f"parity is consistent in all {counted(told.rows, 'row')}"
    said = f"{told.unsound} of {counted(told.rows, 'row')} inconsistent"
    if bounds.first is None or bounds.last is None:
        return said
    said += f", all from row {bounds.first} on" if bounds.last == told.rows - 1 else f", all in rows {bounds.first} to {bounds.last}"
    return f"parity is consistent in rows 0 to {bounds.first - 1}; {said}" if bounds.first else said


@dataclasses.dataclass(frozen=True)
class Old:
    """An image in no slot that belongs into an empty one, where parity holds with it but in some rows: there it is old or damaged, or another image
    is, where the others have no parity without it. `to_end` says that these go on to where the other images end to hold something."""

    image: int
    slot: int
    told: Checked
    bounds: Bounds
    to_end: bool = False
    blamed: bool = True

    def text(self, names: Sequence[str]) -> str:
        """Return it as one line of text."""
        since = f" from row {self.bounds.first} on" if self.bounds.first is not None else ""
        rebuilt = "; perhaps it was being rebuilt, up to there" if self.bounds.first and self.to_end else ""
        other = "" if self.blamed else ", or another image,"
        return (f"{names[self.image]}{other} is old or damaged{since}, or from another array. In slot {self.slot}, parity is consistent with it in "
                f"all but {self.told.unsound} of {self.told.rows} rows{rebuilt}")


@dataclasses.dataclass(frozen=True)
class Turned:
    """Marks of a group that fit up to a row, and none behind it, as where a reshape stopped, or where what stands behind is of an older array or file
    system: how many fit, and how many do not."""

    row: int
    fits: int
    misfits: int

    def text(self) -> str:
        """Return it as one line of text."""
        return (f"{counted(self.fits, 'landmark')} {'matches' if self.fits == 1 else 'match'} before row {self.row}, and {self.misfits} from there "
                "on do not. A reshape may have stopped there, or landmarks of an older array or file system follow")


class Rows:
    """The rows of the sets of a scope, or of those with one image more, which stands behind its own."""

    def __init__(self, scope: Scope, more: Image | None = None) -> None:
        self.scope, self.more, self.program = scope, more, scope.program
        if more:
            asked = scope.program
            self.program = Program(asked.commands, [*asked.names, more.name], asked.seconds, asked.jobs)

    def ask(self, near: Near) -> bool:
        """What `check` says of a set; it says whether that was answered."""
        told = self.program.check(near.word, near.plan)
        near.told = told or near.told
        return told is not None

    def row_of(self, near: Near, wanted: int) -> int | None:
        """The row with which so many rows are unsound."""
        def holds(rows: int) -> bool | None:
            told = self.program.check(near.word, near.plan.having(window=rows))
            return None if told is None else told.unsound >= wanted
        found = halved(0, near.told.rows, holds)
        return None if found is None else found - 1

    def bounds(self, near: Near) -> Bounds:
        """The first and the last unsound row of a set; not where there is none, or where it takes long to find them."""
        if not near.told.unsound or near.told.seconds >= SLOW:
            return Bounds()
        return Bounds(self.row_of(near, 1), self.row_of(near, near.told.unsound))

    def whole(self, candidate: Candidate) -> str:
        """In which rows of the whole window parity holds for a candidate, whatever was relaxed; nothing for RAID 10, which has none."""
        word, request = candidate.listed, candidate.step.request
        if word is None or request is None or candidate.word.is_mirrored:
            return ""
        if word.spare < 1:
            if candidate.whole:
                return f"with what is left out for bad rows, {counted(candidate.whole.unsound or 0, 'row')} tested inconsistent"
            return f"no parity is left to test with {counted(word.lost, 'empty slot')}" if word.level != "0" else "RAID 0 has no parity to test"
        near = Near(word.text, self.window(request))
        return rows_in_words(near.told, self.bounds(near)) if self.ask(near) else ""

    def window(self, request: Request) -> Plan:
        """The plan of a request over the whole window, by parity alone."""
        plan = self.scope.surveys.plan(request).bare().having(window=self.scope.evidence.window, badrows=0)
        more = (self.more.sectors,) if self.more else ()
        return dataclasses.replace(plan, lengths=(*plan.lengths, *more), end=min(self.scope.evidence.end, *more, plan.end))

    def old(self, candidate: Candidate, stale: Iterable[Image] = ()) -> list[Old]:
        """The images in no slot of a candidate that belong into one that is empty, and are old or damaged; `stale` are images that ties name as old,
        which the scope has not."""
        word, request = candidate.listed, candidate.step.request
        if word is None or request is None or candidate.word.is_mirrored or not word.lost or len(word.offsets) > 1:
            return []
        images, found = self.scope.evidence.images, list[Old]()
        for place in sorted(set(range(len(images))) - set(word.images)):
            found += self.at_slots(word, place, images[place], request, Fraction(1, MAX_OLD))
        for image in stale:
            slots = Rows(self.scope, image).at_slots(word, len(images), image, request, MAX_STALE)
            # Ties of the others name it, so it is the one.
            found += [dataclasses.replace(it, blamed=True) for it in sorted(slots, key=lambda it: it.told.unsound)[:1]]
        return found

    def at_slots(self, word: Word, place: int, image: Image, request: Request, most: Fraction) -> list[Old]:
        """This image, by its place in the scope, in each empty slot of a set in which parity holds with it in all but so much of the filled rows."""
        found = []
        for slot in (slot for slot, it in enumerate(word.slots) if it is None):
            found += self.old_at(word.having((*word.slots[:slot], place, *word.slots[slot + 1:])), image, slot, request, most)
        return found

    def old_at(self, word: Word, image: Image, slot: int, request: Request, most: Fraction) -> list[Old]:
        """This image, where parity holds with it in all but so much of the filled rows of a set, and not in all."""
        near = Near(word.text, self.window(request))
        if word.spare < 1 or not self.ask(near) or not 0 < near.told.unsound < most * self.scope.evidence.filled:
            return []
        bounds, images = self.bounds(near), self.scope.evidence.images
        lasts = [it.last for place, it in enumerate(images) if place in word.images and it.number != image.number and it.last is not None]
        to_end = bounds.last is not None and bool(lasts) and max(lasts) - word.offset <= bounds.last + word.chunk
        return [Old(image.number, slot, near.told, bounds, to_end, word.spare > 1)]

    def turned(self, near: Near) -> Turned | None:
        """The row before which the marks of a group fit and behind which none does; None for most sets."""
        word = read_word(near.word)
        for place, held in enumerate(near.groups):
            if held.origin is None or min(held.fits, held.misfits) < MIN_TURNED:
                continue
            group = near.plan.groups[place]
            alone = dataclasses.replace(near.plan, groups=(group,)).having(origins=held.origin, misfits=held.misfits, window=1, badrows=1)
            found = self.turn_of(word, alone, held)
            if found:
                return found
        return None

    def turn_of(self, word: Word, plan: Plan, held: Held) -> Turned | None:
        """The row before which the marks of a plan's one group fit and behind which none does, where there is one. By rows of chunks."""
        def before(rows: int) -> Held | None:
            told = self.scope.program.check(word.text, dataclasses.replace(plan, end=word.offset + rows * word.chunk))
            return told.groups[0] if told and told.groups else None

        def has_misfit(rows: int) -> bool | None:
            told = before(rows)
            return None if told is None else told.misfits > 0
        most = (plan.end - word.offset) // word.chunk
        rows = halved(0, most, has_misfit) if most > 0 else None
        last = before(rows - 1) if rows and rows > 1 else None
        if rows is None or last is None or last.misfits or last.fits < held.fits:
            return None
        return Turned((rows - 1) * word.chunk, held.fits, held.misfits)
