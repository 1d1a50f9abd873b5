"""All that is known before something is tried: the first survey, and what it and the heads on the images say."""

import dataclasses
import functools
from collections.abc import Sequence

from ..calls import surveys
from ..calls.plans import Mark, Plan
from ..calls.surveys import Request, Surveys
from ..units import SECTOR, listed
from . import hints, sampling
from .filling import Filling
from .hints import Hint, Source, What
from .images import Image
from .surveying import LargeSurveys
from .tables import Table

# So many sectors of each member are tested for parity at most.
MAX_WINDOW = 524288
# Where a file system may begin in any case.
USUAL_ORIGINS = (0, 2048)
# A first mark so far behind one of a group that as many images show is mostly a stray one: its offset is tried with more offsets alone.
FAR = 8192
# So many offsets of the hints are tried from the start, and so many are said; so many origins, and partitions of a table.
MAX_FIRST, MAX_TOLD, MAX_ORIGINS, MAX_PARTITIONS, MAX_OWN = 8, 12, 16, 4, 2
# Where maps call more than one in so many of the filled sectors unread, so many bad rows are asked for only where nothing passes without.
MAX_UNREAD = 4


@dataclasses.dataclass(frozen=True)
class Pairs:
    """The mirrors of a RAID 10: for each image the others that hold the same, how many copies there are of each chunk, and the offsets at which they
    agree. `same` says that they are the same from their start to their end, so that these offsets tell nothing."""

    partners: tuple[tuple[int, ...], ...]
    offsets: tuple[int, ...]
    same: bool = False
    copies: int = 2


@dataclasses.dataclass(frozen=True)
class Evidence:
    """What is known. `base` is what each plan asks for, `plan` the first one, its images numbered as all are; `said` the hints that are printed, in
    order; `start` where the part of the disks begins that is looked at, `end` and `window` in sectors; `filled` how many sectors are filled behind
    the offset where most are; `unread` how many bad rows maps tell of, 0 where they tell of too many."""

    images: tuple[Image, ...]
    pairs: Pairs | None
    base: Request
    plan: Plan
    offsets: tuple[Hint, ...]
    data: tuple[Hint, ...]
    levels: tuple[Hint, ...]
    bad: int
    said: tuple[Hint, ...]
    end: int
    window: int
    filling: Filling
    tried: tuple[int, ...]
    start: int = 0

    @property
    def names(self) -> tuple[str, ...]:
        """The names of the images."""
        return tuple(image.name for image in self.images)

    @functools.cached_property
    def filled(self) -> int:
        """How many sectors are filled behind the offset where most are."""
        return max(map(self.filling.behind, self.tried))

    @functools.cached_property
    def unread(self) -> int:
        """How many rows maps call unread, 0 where these are too many."""
        return self.bad if MAX_UNREAD * self.bad <= self.filled else 0

    @property
    def offset_values(self) -> list[int]:
        """The offsets of the hints."""
        return [hint.value for hint in self.offsets]


def numbered(plan: Plan, images: Sequence[Image]) -> Plan:
    """The plan with the numbers that the images have among all, as people are told of them."""
    def again(mark: Mark) -> Mark:
        return dataclasses.replace(mark, image=images[mark.image].number)
    groups = (dataclasses.replace(group, marks=tuple(map(again, group.marks))) for group in plan.groups)
    return dataclasses.replace(plan, groups=tuple(groups))


def deeper(origins: Sequence[Hint], plan: Plan) -> set[int]:
    """Where logical volumes begin in a physical one that does not begin at 0."""
    first = {hint.value for hint in origins if hint.source in (Source.TABLE, Source.BCACHE)} | set(plan.numbers("origins"))
    inner = {hint.value for hint in origins if hint.source is Source.LVM}
    return {one + other for one in first for other in inner}


def is_far(hint: Hint, found: Sequence[Hint]) -> bool:
    """An offset lies far behind one of whose group as many images show marks."""
    return any(hint.value > it.value + FAR and it.spread >= hint.spread for it in found)


def within(image: Image, first: int, end: int) -> Image:
    """An image as it is seen where an array may lie in a part of it alone: without its table, with the heads there, and ended behind that part."""
    heads = tuple(it for it in image.heads if first <= it.sector < end)
    return dataclasses.replace(image, sectors=min(image.sectors, end), table=Table(), heads=heads)


def offsets_tried(found: Sequence[Hint], images: Sequence[Image], pairs: Pairs | None, end: int, start: int = 0) -> tuple[int, ...]:
    """The offsets that are tried first: those of the hints, and the usual ones behind a start."""
    values = [hint.value for hint in found]
    if not pairs:
        values = [hint.value for hint in found if not is_far(hint, found)][:MAX_FIRST]
        starts = {it.first for image in images if image.table.own for it in image.table.partitions[:MAX_OWN]}
        values += [one + usual for one in {start, *starts} for usual in hints.USUAL_OFFSETS]
    return tuple(sorted({value for value in values if value < end})[:surveys.MAX_VALUES]) or (start,)


def offset_hints(plan: Plan, images: Sequence[Image], pairs: Pairs | None, data: Sequence[Hint]) -> list[Hint]:
    """The offsets: those at which mirrors agree, or those of tables, marks, heads and places."""
    if pairs and pairs.offsets:
        return [Hint(What.OFFSET, value, Source.MIRRORS, "the mirrors") for value in pairs.offsets]
    heads = sorted((head for image in images for head in image.heads), key=lambda head: head.sector)
    found = hints.by_images(hints.own_offsets(images, MAX_PARTITIONS) + hints.offsets(plan, heads))
    if pairs:
        return found
    return found + hints.placed_offsets(plan, [hint.value for hint in data], USUAL_ORIGINS, {hint.value for hint in found})


def gather(made: Surveys, images: Sequence[Image], first: int, pairs: Pairs | None = None, start: int = 0) -> Evidence:
    """What is known of these images, of which the first bytes behind a start are read; with `pairs` of a RAID 0 of one image of each pair."""
    end = min(min(image.sectors for image in images), start + first // SECTOR)
    window = min(end, MAX_WINDOW)
    base = Request().having(kinds=surveys.KINDS, offsets=start, end=end, origins=listed(USUAL_ORIGINS))
    by_number = {image.number: image for image in images}
    plan = numbered(made.plan(base), images)
    blocks = hints.logical(plan, by_number)
    if blocks:
        base = base.having(logical=blocks[0].value)
        plan = numbered(made.plan(base), images)
    heads = sorted((head for image in images for head in image.heads), key=lambda head: head.sector)
    data = hints.data_disks(plan, len(images) + 2)
    offsets = [hint for hint in offset_hints(plan, images, pairs, data) if hint.value >= start]
    starts = {hint.value for hint in offsets} | {start + usual for usual in hints.USUAL_OFFSETS}
    origins = hints.bcache_origins(images) + hints.lvm_origins(plan, by_number) + hints.table_origins(images, starts)
    # Where images are copies of one another, how many show a mark at one place tells of mirrors, not of a level.
    mirrored = any(image.like is not None for image in images)
    levels = [] if mirrored else hints.level(plan, heads)
    bad = hints.bad_rows(images, end)
    ends = hints.own_end(images, end)
    told = [] if pairs and pairs.same else offsets[:MAX_TOLD]
    said = [*blocks, *ends, *told, *data, *levels, *origins[:MAX_ORIGINS], *bad]
    asked = set(USUAL_ORIGINS) | {hint.value for hint in origins} | deeper(origins, plan)
    if ends:
        end = ends[0].value
        window = min(window, end)
    tried = offsets_tried(offsets, images, pairs, end, start)
    base = base.having(origins=listed(sorted(asked)[:surveys.MAX_VALUES]), offsets=listed(tried), end=end)
    if window < end:
        base = base.having(window=window)
    flags = made.shared.flags if isinstance(made, LargeSurveys) and sampling.is_large(start, end) else None
    filling = Filling([image.name for image in images], {*tried, *(start + it for it in hints.MORE_OFFSETS if start + it < end)}, window, end, flags)
    unread = bad[0].value if bad else 0
    return Evidence(tuple(images), pairs, base, plan, tuple(offsets), tuple(data), tuple(levels), unread, tuple(said), end, window, filling, tried,
                    start)
