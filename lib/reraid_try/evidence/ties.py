"""Asks how images depend on one another, and gathers what that tells of arrays before anything is searched: `reraid relations` where the program has
it, and else elimination of ours."""

import contextlib
import dataclasses
from collections.abc import Mapping, Sequence

from ..calls.commands import Runner
from ..calls.memory import direct
from ..calls.sets import LEVELS
from ..units import counted, sectors_said
from . import compact, dependence, image_groups, patterns, relations, sampling
from .image_groups import COPIES, LEVEL_5, LEVEL_6, ImageGroup, Old
from .images import Image
from .relations import Relations

# So many rows are looked at, spread over the images; and as many close to each other where chunks are told, each so many sectors behind the one
# before.
MAX_ROWS, FINE_STEP = 4096, 8
MIN_IMAGES, MAX_IMAGES = 2, 64
# What a RAID 0 over arrays of a level is called.
NESTED = {LEVEL_5: "RAID 50", LEVEL_6: "RAID 60"}
# The status of words that are none of the program's.
REFUSED = 1


@dataclasses.dataclass(frozen=True)
class Known:
    """What is known of images that belong together: their group, the sectors of a chunk, None where ties do not tell it, and the first row of
    all that ties them, before which their data begin."""

    group: ImageGroup
    chunk: int | None = None
    begin: int | None = None


@dataclasses.dataclass(frozen=True)
class Told:
    """What relations tell of some images: the groups, and the images that are in none of them. `asked` says that relations were to be had."""

    known: tuple[Known, ...] = ()
    alone: tuple[int, ...] = ()
    asked: bool = False


def step_of(first: int, end: int) -> int:
    """Return how many sectors apart the rows lie that are looked at from a first to before a last one."""
    return max(1, -(-(end - first) // MAX_ROWS))


class Ties:
    """Relations of images, in their order."""

    def __init__(self, runner: Runner, images: Sequence[Image], seconds: int) -> None:
        self.runner, self.images, self.seconds = runner, {image.number: image for image in images}, seconds
        self.program = True
        self.spreads: dict[tuple[tuple[int, ...], int, int, int, tuple[int, ...]], Relations | None] = {}
        self.known: dict[tuple[tuple[int, ...], int, int, tuple[int, ...]], Told] = {}

    def relations(self, numbers: Sequence[int], first: int, end: int, step: int, offsets: Sequence[int] = ()) -> Relations | None:
        """The relations of images by their numbers, in the rows from a first to before a last one, each so many sectors behind the one before; with
        offsets row 0 is the sector of its offset on each image. None where they were not had in their time."""
        names = [self.images[number].name for number in numbers]
        found = self.of_program(names, first, end, step, offsets) if self.program else None
        if not self.program:
            found = dependence.look(names, first, end, step, offsets, self.seconds)
        return relations.renumbered(found, numbers) if found else None

    def of_program(self, names: Sequence[str], first: int, end: int, step: int, offsets: Sequence[int], kept: bool = True) -> Relations | None:
        """What the program says of these images; None where it said nothing in its time, or does not know the command, which is kept in mind.
        Where answers are kept for another run, this one is unless `kept` is false."""
        words = ["reraid", "relations", f"from={first}", f"end={end}", f"step={step}"]
        words += ["offsets=" + "+".join(map(str, offsets))] if offsets else []
        runner = self.runner if kept else direct(self.runner)
        answer = runner.run([*words, "--", *names], seconds=self.seconds)
        self.program = answer.status != REFUSED
        try:
            return relations.read(answer.out, step) if answer.good else None
        except relations.Unreadable:
            return None

    def spread(self, numbers: Sequence[int], first: int, end: int, most: int, offsets: Sequence[int] = ()) -> Relations | None:
        """The relations of about so many rows of images, from a first to before a last one: evenly spread, or of large images those in which they
        hold data, as far as that is known. None where they were not had in their time."""
        if not sampling.is_large(first, end):
            return self.relations(numbers, first, end, max(1, -(-(end - first) // most)), offsets)
        key = tuple(numbers), first, end, most, tuple(offsets)
        if key not in self.spreads:
            self.spreads[key] = self.sampled(numbers, first, end, most, offsets, most == MAX_ROWS)
        return self.spreads[key]

    def sampled(self, numbers: Sequence[int], first: int, end: int, most: int, offsets: Sequence[int], telling: bool) -> Relations | None:
        """The relations of rows of large images, which are read once and kept in memory for the program; where they are to tell what ties the images,
        of those that hold more than patterns."""
        sample = sampling.look([self.images[number].name for number in numbers], first, end, most, offsets)
        sample = sample.telling() if telling else sample
        if not sample.rows:
            return None
        with compact.columns(sample.columns()) as names:
            # The names are not those of the images, so the answer is kept nowhere.
            found = self.of_program(names, 0, len(sample.rows), 1, (), kept=False) if self.program else None
            if not self.program:
                found = dependence.look(names, 0, len(sample.rows), 1, (), self.seconds)
        return relations.renumbered(sampling.placed(found, sample), numbers) if found else None

    def told(self, numbers: Sequence[int], first: int, end: int, offsets: Sequence[int] = ()) -> Told:
        """What the rows of some images tell, spread from a first to before a last one, each image moved by its offset where there are some. The rows
        are read once."""
        key = tuple(numbers), first, end, tuple(offsets)
        if key not in self.known:
            self.known[key] = self.tell(numbers, first, end, offsets)
        return self.known[key]

    def tell(self, numbers: Sequence[int], first: int, end: int, offsets: Sequence[int]) -> Told:
        """What the rows of some images tell, which are read for it."""
        found = self.spread(numbers, first, end, MAX_ROWS, offsets) if MIN_IMAGES <= len(numbers) <= MAX_IMAGES and first < end else None
        if found is None:
            return Told()
        found = self.without_patterns(found, numbers, offsets)
        moved = dict(zip(numbers, offsets))
        known = tuple(self.closer(it, first, end, found, moved) for it in image_groups.image_groups(found, numbers))
        within = {image for it in known for image in it.group.images}
        return Told(known, tuple(number for number in numbers if number not in within), True)

    def without_patterns(self, found: Relations, numbers: Sequence[int], offsets: Sequence[int]) -> Relations:
        """Return relations of images, each moved by its offset where there are some, without the rows in which patterns alone are tied."""
        names = {number: self.images[number].name for number in numbers}
        with contextlib.closing(patterns.Sectors(names, offsets)) as sectors:
            kept = patterns.without(found, sectors.held, len(numbers))
        return kept

    def closer(self, group: ImageGroup, first: int, end: int, found: Relations, moved: Mapping[int, int]) -> Known:
        """What rows that lie closer to each other tell of a group of some rows: where it begins, and how long its chunks are."""
        images = group.current
        before, offsets = max(first, found.before(group.first)), [moved[image] for image in images] if moved else []
        near = self.relations(images, before, min(end, group.first + 1), max(1, (group.first - before) // MAX_ROWS), offsets)
        begin = next((rows.first for rows in near.tied_rows()), None) if near else None
        if reshape := group.reshape:
            behind = min(end, reshape.sector + 1)
            near = self.relations(images, reshape.last, behind, max(1, (behind - reshape.last) // MAX_ROWS), offsets)
            group = dataclasses.replace(group, reshape=reshape.closer(near) if near else reshape)
        group = dataclasses.replace(group, old=tuple(self.since(it, group, max(first, found.before(it.first)), moved) for it in group.old))
        if group.level != LEVEL_6 or not group.parity:
            return Known(group, None, begin)
        fine = self.relations(images, group.first // FINE_STEP * FINE_STEP, min(end, group.first + MAX_ROWS * FINE_STEP), FINE_STEP, offsets)
        chunk = image_groups.chunk_of(fine, images) if fine else None
        return Known(group, chunk[0] if chunk else None, begin)

    def since(self, old: Old, group: ImageGroup, before: int, moved: Mapping[int, int]) -> Old:
        """From which row on an image of a group is old, by the rows from another one on, which lie closer to each other."""
        offsets = [moved[image] for image in group.images] if moved else []
        near = self.relations(group.images, before, old.first + 1, max(1, (old.first - before) // MAX_ROWS), offsets)
        return old.closer(near, frozenset(group.images)) if near else old


def named(numbers: Sequence[int]) -> str:
    """Images as they are said: `image 4`, `images 0, 1, 3`."""
    return f"image{'' if len(numbers) == 1 else 's'} {', '.join(map(str, numbers))}"


def lost_line(group: ImageGroup, place: str = "") -> str:
    """What is said of the parity of a group, with its chunk and place, if these are known."""
    lost = group.lost or 0
    if group.may_be_copies:
        return (f"hold the same data in {counted(group.rows, 'row')} of those sampled, as RAID 5 does if its third disk is missing and held zeros "
                "there")
    if group.is_either:
        images = len(group.images)
        return (f"RAID 6 with 2 of {images + 2} disks missing, or RAID 5 with 1 of {images + 1}{place}. Parity matches in only "
                f"{counted(group.rows, 'row')} of those sampled, perhaps because the missing disks hold zeros in these")
    spare = f"{group.members} disks, {lost or 'none'} missing"
    if group.loose and not lost:
        spare += ", but not in all rows: one disk may be old or half rebuilt"
    if group.old:
        spare += f", counting {'one that is' if len(group.old) == 1 else 'those that are'} old, damaged or from another array"
    return f"parity matches RAID {group.level}, {spare}{place}"


def lines(told: Told, twins: Mapping[int, int] | None = None) -> list[str]:
    """What is said of all that relations tell; `twins` has the images that hold the same as another one from start to end, which are not asked."""
    said = []
    for it in told.known:
        group = it.group
        if group.level == COPIES:
            said += [f"images {one} and {other} hold the same data" for one, other in group.copies]
            if group.states:
                said.append(states_line(*group.states))
            elif not group.copies:
                two = named(group.images) if len(group.images) == MIN_IMAGES else f"two of {named(group.images)}"
                said.append(f"{two} hold the same data in {counted(group.rows, 'row')} of those sampled")
            continue
        if group.may_be_copies:
            said.append(f"{named(group.images)} hold the same data in {counted(group.rows, 'row')} of those sampled: copies, or RAID 5 whose third "
                        "disk is missing and held zeros there")
            continue
        chunk = f", chunks of {sectors_said(it.chunk)}" if it.chunk else ""
        begin = f", first match at sector {it.begin}" if it.begin is not None else ""
        said.append(f"{named(group.images)}: {lost_line(group, chunk + begin)}")
        said += [old.line(f"image {old.image}") for old in group.old] + ([group.reshape.line()] if group.reshape else [])
        if group.loose:
            said.append(f"{named(group.images)}: parity matches nothing in {counted(group.loose, 'row')} of those sampled, the first at sector "
                        f"{group.loose_first}. Possible causes: bad areas, an old or half rebuilt disk, parity that was never written")
    return said + parts_lines(told) + alone_lines(told, twins or {})


def states_line(one: int, other: int) -> str:
    """Return what is said of two images that may be states of one disk."""
    return (f"images {one} and {other} hold the same data in many rows and different data in others: perhaps one is an older state of the other, as "
            "of a disk that was replaced or imaged twice")


def alone_lines(told: Told, twins: Mapping[int, int]) -> list[str]:
    """What is said of the images that nothing ties, where others are tied. One that has a twin is tied to that one."""
    alone = tuple(image for image in told.alone if image not in twins)
    if not told.known:
        return []
    said = [f"image {image}: matches only image {twins[image]}, which holds the same data" for image in told.alone if image in twins]
    if not alone:
        return said
    if all(it.group.level == COPIES for it in told.known):
        return [*said, f"{named(alone)}: matches nothing. Its copy is missing, or it is no member, zeros or damaged"]
    why = "No member, zeros, too old or damaged to tell, or from an array that misses as many disks as its level tolerates"
    like = [it for it in nested(told) if len(alone) == (it.members or 0) - LEVELS[it.level or ""].parity]
    parts = "".join(f", such as the other part of a {NESTED[it.level or '']} with {named(it.images)}" for it in like[:1])
    return [*said, f"{named(alone)}: matches nothing. {why}{parts}"]


def nested(told: Told) -> list[ImageGroup]:
    """The groups that may be parts of a larger array: those whose level and number of disks are told."""
    return [it.group for it in told.known if it.group.level in NESTED and not it.group.is_either]


def parts_lines(told: Told) -> list[str]:
    """What is said of groups of one level with as many disks each: the arrays may be the parts of a larger one."""
    found: dict[tuple[str, int], list[ImageGroup]] = {}
    for group in nested(told):
        found.setdefault((group.level or "", group.members or 0), []).append(group)
    return [f"{' and '.join(named(group.images) for group in alike)}: {len(alike)} arrays of RAID {level} with {members} disks each. Each "
            f"stands by itself, or they are the parts of one {NESTED[level]}, which is not searched (docs/RECIPES.md tells how to join them)"
            for (level, members), alike in found.items() if len(alike) > 1]
