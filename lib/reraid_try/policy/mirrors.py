"""RAID 10 by its copies: what is asked of them, which images hold the same, and the scopes over one image of each such group."""

import dataclasses
import itertools
from collections.abc import Iterable, Iterator, Sequence

from ..calls.commands import Runner, quoted
from ..calls.formats import Page, Ranked
from ..calls.program import MAX_LINES, Copied, Listing
from ..calls.sets import FAR, MAX_COPIES, NEAR, NEAR_2, OFFSET, Copying, read_word
from ..evidence import shifts
from ..evidence.image_groups import CHUNKS, connected
from ..evidence.gathered import Evidence, Pairs
from ..evidence.images import Image
from .scope import Scope

# What fails in a window of so many sectors fails in a large one; with rows that maps call unread it is so many times as many.
SMALL_WINDOW, SMALL_TIMES = 8192, 4
# So many ways to group the images are looked at.
MAX_GROUPINGS = 8
# So many members may be missing at most, and chunks are so long at most where copies do not tell them.
MAX_MISSING, MAX_CHUNK = 3, 2048
COPIES = range(2, MAX_COPIES + 1)
# Of several ways to leave images out all are tried with nothing relaxed before one is with something.
PLAIN_FIRST = (range(1), range(1, 3))
Group = tuple[int, ...]


def bearing(layouts: Iterable[Copying], members: int, missing: int) -> tuple[Copying, ...]:
    """Those of these layouts by which so many members may have a copy of each chunk though so many are missing, and of some chunk two: else nothing
    is compared, and the images are a RAID 0, or the half of one that is lost."""
    return tuple(it for it in layouts if it.copies <= members < it.copies * (members - missing))


def near(count: int, alike: int = 1) -> list[Copied]:
    """What is asked where some of so many images hold the same in the same rows, the fewest missing first; `alike` is of how many of those that hold
    the same wholly most do, 1 where none does. Where that many cannot do so, as in pairs of an odd number with none missing, it comes last."""
    order = sorted(COPIES, key=lambda copies: copies != max(alike, NEAR_2.copies))
    found = [Copied((layout,), count + missing, missing) for missing in range(MAX_MISSING + 1)
             for layout in bearing((Copying(NEAR, copies) for copies in order), count + missing, missing)]

    def is_odd(it: Copied) -> bool:
        """So many images hold the same wholly by no way to lose the others."""
        together = it.layouts[0].together(it.members)
        return alike > 1 and not together - it.missing <= alike <= together
    return sorted(found, key=is_odd)


def moved(count: int, distance: int, evidence: Evidence) -> Iterator[Copied]:
    """What is asked where images hold the same so many sectors apart, the fewest missing first: copies of layout offset, where that is a chunk, and
    far ones, first by where the images end, and then with an end that puts them so far apart."""
    chunk, layouts = shifts.layout(distance) == OFFSET, {kind: [Copying(kind, copies) for copies in COPIES] for kind in (OFFSET, FAR)}
    chunks = tuple(it for it in CHUNKS if it <= MAX_CHUNK and distance % it == 0)
    for missing in range(MAX_MISSING + 1):
        members = count + missing
        if chunk and (found := bearing(layouts[OFFSET], members, missing)):
            yield Copied(found, members, missing, (distance,))
        found = bearing(layouts[FAR], members, missing) if chunks else ()
        if found:
            yield Copied(found, members, missing, chunks)
        for layout in found:
            for offset in evidence.tried:
                if (end := offset + layout.copies * distance) <= evidence.end:
                    yield Copied((layout,), members, missing, chunks, end, (offset,))


@dataclasses.dataclass(frozen=True)
class Grouped:
    """A way in which the images of a scope are grouped, by their places there: those of a group hold the same. With how many copies there are of each
    chunk, and the offsets at which the groups agree."""

    groups: tuple[Group, ...]
    copies: int
    offsets: tuple[int, ...]

    def line(self, images: Sequence[Image]) -> str:
        """Return it as one line of text."""
        said = " ".join("=".join(str(images[one].number) for one in group) if len(group) > 1 else f"image {images[group[0]].number} without a copy"
                        for group in self.groups)
        return f"  {'pairs' if self.copies == NEAR_2.copies else 'copies'} {said}: a RAID 0 of {len(self.groups)} disks"

    def partners(self, images: Sequence[Image]) -> Pairs:
        """What is known of the other images of each group."""
        def alike(one: int, other: int) -> bool:
            """Two images hold the same in all that is read."""
            like = images[other].like
            return like is not None and like in (images[one].number, images[one].like)
        same = all(alike(group[0], other) for group in self.groups for other in group[1:])
        return Pairs(tuple(tuple(images[other].number for other in group[1:]) for group in self.groups), self.offsets, same, self.copies)


def groupings(sets: Iterable[Ranked]) -> list[Grouped]:
    """The ways in which these sets group the images, the first ones."""
    found: dict[tuple[frozenset[Group], int], set[int]] = {}
    for it in sets:
        word = read_word(it.text)
        groups = (there(word.slots[first:first + word.together]) for first in range(0, len(word.slots), word.together))
        found.setdefault((frozenset(filter(None, groups)), word.together), set()).add(word.offset)
    return [Grouped(tuple(sorted(groups)), copies, tuple(sorted(offsets))) for (groups, copies), offsets in found.items()][:MAX_GROUPINGS]


def told(pairs: Iterable[tuple[int, int]], images: Sequence[int]) -> Grouped | None:
    """Return the way in which ties group images of large disks, by their numbers: those that hold the same are a group, and each that none does is
    one by itself, as its copy may be lost. None where that is no RAID 10 with copies side by side."""
    places = {image: place for place, image in enumerate(images)}
    found = [tuple(sorted(places[image] for image in group)) for group in connected(pairs) if group <= places.keys()]
    copies = max(map(len, found), default=0)
    found += [(place,) for place in sorted(places.values()) if not any(place in group for group in found)]
    missing = sum(copies - len(group) for group in found)
    return Grouped(tuple(sorted(found)), copies, ()) if copies in COPIES and len(found) > 1 and missing <= MAX_MISSING else None


def without_one(pairs: Iterable[tuple[int, int]], halves: Sequence[tuple[int, int]], images: Sequence[int]) -> Iterator[Grouped]:
    """Yield the ways in which these pairs group some images, by their numbers, each with one image of each half left out: two that hold the same in
    most rows alone may be a disk and an older state of its copy."""
    places, known = {image: place for place, image in enumerate(images)}, tuple(pairs)
    for kept in itertools.product(*halves):
        rest = [image for image in images if image in kept or not any(image in half for half in halves)]
        if found := told(known, rest):
            yield dataclasses.replace(found, groups=tuple(tuple(places[rest[place]] for place in group) for group in found.groups))


def there(slots: Iterable[int | None]) -> Group:
    """The images of some slots, in order."""
    return tuple(sorted(it for it in slots if it is not None))


def is_striped(it: Ranked) -> bool:
    """The volume of a set is that of a RAID 0 of one image of each group, of which there are several."""
    word = read_word(it.text)
    return word.copying is not None and word.copying.is_striped(len(word.slots)) and len(word.slots) > word.copying.copies


class Mirrors:
    """The sets of a RAID 10 of the images of a scope."""

    def __init__(self, scope: Scope, commands: Runner) -> None:
        self.scope, self.commands = scope, commands

    def words(self, asked: Copied, offsets: Sequence[int], window: int) -> list[str]:
        """The command that lists them."""
        evidence = self.scope.evidence
        return self.scope.program.mirror_words(asked, evidence.unread, offsets, asked.end or evidence.end, window)

    def listing(self, asked: Copied) -> Listing:
        """The sets. What fails in a small window fails in a large one, so that is asked of the offsets that are left alone; where its time is up,
        the sets of the small window stand."""
        program, evidence = self.scope.program, self.scope.evidence
        small = min(evidence.window, max(SMALL_WINDOW, SMALL_TIMES * evidence.unread))
        tried = asked.offsets or evidence.tried
        page = program.mirrors(self.words(asked, tried, small))
        if page.late:
            return self.late(page)
        told = len(page.sets) < MAX_LINES
        offsets = sorted({read_word(it.text).offset for it in page.sets}) if told else []
        large = self.words(asked, offsets or tried, evidence.window)
        self.commands.tell(quoted(large))
        if not page.sets or small == evidence.window:
            return Listing(page.sets, page.total or 0, True)
        whole = program.mirrors(large)
        if not whole.late:
            return Listing(whole.sets, whole.total or 0, True)
        return self.late(page, f"in only the first {small} rows: ") if told else self.late(Page())

    def late(self, page: Page, where: str = "") -> Listing:
        """What was listed before its time was up."""
        return Listing(page.sets, page.total or 0, False, where + self.scope.program.late_note())
