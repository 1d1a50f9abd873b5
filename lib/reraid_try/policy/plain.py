"""What is tried first: few steps, each for a reason that the images themselves give, with nothing relaxed."""

import dataclasses
from collections.abc import Iterable, Iterator, Sequence

from ..calls.sets import LEVELS, Word, read_word
from ..evidence import metadata, shifts, ties
from ..evidence.image_groups import COPIES, LEVEL_5, ImageGroup
from ..evidence.gathered import MAX_WINDOW
from ..evidence.images import Image
from ..evidence.metadata import Member
from ..evidence.ties import Known, Told
from ..evidence.unlike import Unlike
from ..options import Options
from ..units import SECTOR, listed
from .relaxations import EACH_WINDOW
from .mirrors import MAX_MISSING
from .shapes import Shape


# So many members are missing in what may be RAID 10 before what parity ties is tried, and so many in what may be one after it.
FEW_MISSING, MORE_MISSING = (0, 1), tuple(range(2, MAX_MISSING + 1))
# So few images are left of a RAID 10 that is more than copies.
MIN_STRIPED = 3
# Where ties leave an image out in no more than one of so many tied rows, that may be bad areas in place of an old disk.
FEW_LEFT_OUT = 4


@dataclasses.dataclass(frozen=True)
class Span:
    """A part of each disk that may hold an array: its first sector, the sector behind it, and whether that is a partition."""

    first: int
    end: int
    partition: bool = False


@dataclasses.dataclass(frozen=True)
class Unsound:
    """All images of a group, and their shape, where some rows of these may be bad: what ties leave out in few rows is no old disk then."""

    images: tuple[int, ...]
    shape: Shape

    def line(self) -> str:
        """Why it is tried."""
        return f"perhaps no disk is old, but some areas are bad. So all of {ties.named(self.images)} are tried too, with bad rows allowed"


@dataclasses.dataclass(frozen=True)
class Target:
    """Images, by their numbers, that are searched as an array, in a part of each; the shapes that are tried, in order, and why. `asked` are operands
    that are asked for in each step, as far as they are known; `copied` says that RAID 10 is tried before them, `tied` that parity ties
    them; `begin` is a row of the array, so that its data do not begin later, None where none is known; `moved` has the offset of each image, where
    these are known and not the same; `apart` says how far apart the copies lie, where they do not lie side by side; `missing` are the numbers of
    members that may be missing where copies are asked for; `by_thousands` are the shapes at
    which landmarks by the thousand are asked where they fit, before all else; `unsound` is tried besides, whatever is found without some images;
    `first` is how many bytes of each image are read for it, None where it is as many as for all others; `word` is the one set that is tried; `halves`
    are pairs of which each image is left out in turn; `states` are an image that is left out, and the one of which it may be another state."""

    images: tuple[int, ...]
    span: Span
    why: str
    shapes: tuple[Shape, ...] = ()
    asked: tuple[tuple[str, str], ...] = ()
    copied: bool = False
    tied: bool = False
    begin: int | None = None
    moved: tuple[int, ...] = ()
    apart: int | None = None
    missing: tuple[int, ...] = tuple(range(MAX_MISSING + 1))
    by_thousands: tuple[Shape, ...] = ()
    unsound: Unsound | None = None
    first: int | None = None
    word: str | None = None
    halves: tuple[tuple[int, int], ...] = ()
    states: tuple[int, int] | None = None

    @property
    def is_each(self) -> bool:
        """Each image has an offset of its own."""
        return ("mode", "each") in self.asked


def shapes_of(group: ImageGroup) -> Iterator[Shape]:
    """The shapes of images that parity ties: with as many disks lost as most rows say, and then with as many as others do. Where rows are not tied
    though most are, one of the disks may be old; where the ties are too few to tell level 6 from 5, both are tried."""
    images, level = len(group.current), group.level or ""
    for parity in (group.parity, *group.others):
        lost = group.lost_with(parity)
        if lost is not None and lost <= LEVELS[level].parity:
            yield Shape(level, images + lost, lost)
    if group.is_either:
        yield Shape(LEVEL_5, images + 1, 1)
    lost = group.lost
    if group.loose and lost is not None and lost < LEVELS[level].parity:
        yield Shape(level, images + lost, lost + 1, 1)


def unsound_of(group: ImageGroup, options: Options) -> Unsound | None:
    """All images of a group that ties leave some of out, or leave untied, in few rows; None where they do in many, or parity tells nothing
    then."""
    level = group.level or ""
    out, lost = group.loose + sum(it.rows for it in group.old), max(0, LEVELS[level].parity - group.parity)
    if not out or FEW_LEFT_OUT * out > group.rows or lost >= LEVELS[level].parity:
        return None
    found = allowed([Shape(level, len(group.images) + lost, lost)], options)
    return Unsound(group.images, found[0]) if found else None


def allowed(shapes: Iterable[Shape], options: Options) -> tuple[Shape, ...]:
    """Those of these shapes that the options ask for, each once."""
    return tuple(dict.fromkeys(it for it in shapes if options.wants(it.levels) and it.members >= LEVELS[it.levels].least
                               and (options.members is None or it.members in options.members)))


def target_of(known: Known, span: Span, options: Options) -> Target:
    """What is tried of images that parity ties."""
    group = known.group
    why = f"{ties.named(group.images)}: {ties.lost_line(group)}"
    return Target(group.current, span, why, allowed(shapes_of(group), options), chunks(known.chunk), tied=True, begin=known.begin,
                  unsound=unsound_of(group, options))


def chunks(chunk: int | None) -> tuple[tuple[str, str], ...]:
    """The operand of a chunk, where it is known."""
    return (("chunks", str(chunk)),) if chunk else ()


def unlike_target(found: Unlike, numbers: Sequence[int], span: Span, options: Options) -> Target:
    """What is tried of images whose data begin at unlike sectors."""
    asked = (("mode", "each"), ("offsets", listed(found.offsets)), ("window", str(EACH_WINDOW)), *chunks(found.known.chunk))
    why = f"{found.line()}: {ties.lost_line(found.known.group)}"
    return Target(tuple(numbers), span, why, allowed(shapes_of(found.known.group), options), asked, tied=True,
                  begin=found.known.begin, moved=found.offsets)


def guessed_targets(offsets: Sequence[int], numbers: Sequence[int], span: Span, options: Options) -> list[Target]:
    """What is tried of images that hold the same at distances which agree with one beginning of each, where parity does not tie them: as many disks
    lost as a level bears."""
    asked = (("mode", "each"), ("offsets", listed(offsets)), ("window", str(EACH_WINDOW)))
    why = f"the distances between equal data on the images suggest that their data begin at sectors {', '.join(map(str, offsets))}"
    count = len(numbers)
    shapes = allowed([Shape("5", count + 1, 1), Shape("6", count + 2, 2)], options)
    return [Target(tuple(numbers), span, why, shapes, asked)] if shapes else []


def moved_targets(offsets: Iterable[tuple[int, ...]], numbers: Sequence[int], span: Span, options: Options) -> list[Target]:
    """What is tried of images of which some are of a partition alone, if parity does not tie them, by where their data may begin."""
    count = len(numbers)
    shapes = allowed([Shape("5", count + 1, 1), Shape("6", count + 2, 2), Shape("0", count)], options)
    why = f"{ties.named(numbers)}: some are of only a partition, so their data begin at sectors"
    return [Target(tuple(numbers), span, f"{why} {', '.join(map(str, it))}", shapes,
                   (("mode", "each"), ("offsets", listed(it)), ("window", str(EACH_WINDOW))), moved=it) for it in offsets if shapes]


def metadata_target(members: Sequence[Member], span: Span, options: Options, bare: Sequence[int] = ()) -> Target | None:
    """What is tried of images whose metadata name an array; None where a set has no words for it, or level 10 is named, of which copies tell. If more
    disks are missing than the level bears, all images without metadata, `bare`, are tried as the others."""
    left_out = metadata.old(members)
    placed = [it for it in members if it not in left_out and it.slot is not None]
    head = metadata.head_of(placed[0]) if placed else None
    if not head or ":" not in head or any(it.offset is None for it in placed):
        return None
    level, pattern, order = head.split(":")
    offsets = {it.offset or 0 for it in placed}
    asked = [("patterns", pattern), ("syndromes", order), ("offsets", listed(offsets)), *chunks(placed[0].chunk)]
    asked += [("mode", "each"), ("window", str(EACH_WINDOW))] if len(offsets) > 1 else []
    named, disks = tuple(sorted({it.image for it in placed})), placed[0].disks
    images = named if disks - len(named) <= LEVELS[level].parity else tuple(sorted({*named, *bare}))
    shapes = allowed([Shape(level, disks, disks - len(images))], options) if 0 <= disks - len(images) <= LEVELS[level].parity else ()
    why = f"metadata on {ties.named(named)} ({placed[0].source}) describe it, and may be wrong"
    why += f"; {ties.named(bare)} have none, and are tried as its other disks" if images != named else ""
    return Target(images, span, why, shapes, tuple(asked))


def named_target(members: Sequence[Member], span: Span, options: Options, images: int) -> Target | None:
    """Return what is tried of large images whose metadata name an array with the slot of each: just that set, before more is read than what parity is
    tested in. None where they do not, or each image has an offset of its own."""
    text = metadata.word_of(members, images)
    word = read_word(text) if text else None
    if word is None or word.is_each:
        return None
    shape = Shape(COPIES if word.is_mirrored else word.level, len(word.slots), word.lost)
    is_asked = options.wants(shape.levels) and (options.members is None or shape.members in options.members)
    there, first = tuple(sorted(word.images)), (word.offset + MAX_WINDOW) * SECTOR
    why = f"metadata on {ties.named(there)} ({members[0].source}) give a layout, which may be wrong; little is read to test it"
    asked = (("offsets", str(word.offset)), ("chunks", str(word.chunk)))
    return Target(there, span, why, (shape,), asked, first=first, word=word.text) if is_asked else None


def tied(told: Told, _numbers: Sequence[int], span: Span, options: Options) -> list[Target]:
    """What is tried of each group that parity ties, the largest first."""
    return [target for it in told.known if it.group.level in LEVELS and (target := target_of(it, span, options)).shapes]


def copied(told: Told, numbers: Sequence[int], span: Span, options: Options) -> list[Target]:
    """What is tried of images of which some are copies: RAID 10 of all of them."""
    return copied_by((it for it in told.known if it.group.level == COPIES), numbers, span, options)


def perhaps_copied(told: Told, numbers: Sequence[int], span: Span, options: Options) -> list[Target]:
    """What is tried where two images hold the same in fewer rows: RAID 10 of all, with few missing before anything else, since such copies are soon
    looked for, and with more."""
    found = copied_by((it for it in told.known if it.group.may_be_copies), numbers, span, options)
    return [dataclasses.replace(target, missing=missing) for target in found for missing in (FEW_MISSING, MORE_MISSING)]


def copied_by(known: Iterable[Known], numbers: Sequence[int], span: Span, options: Options) -> list[Target]:
    """RAID 10 of all images, where something is known that speaks for it."""
    found = tuple(known)
    if not found or not options.wants(COPIES):
        return []
    return [Target(tuple(numbers), span, "; ".join(ties.lines(Told(found, asked=True))), copied=True)]


def doubtful(told: Told) -> list[int]:
    """The images that may be none of a RAID 10 of which others are copies: one that nothing ties may be foreign, and one of three that hold the same
    a bad copy."""
    several = sorted(image for it in told.known if it.group.level == COPIES and len(it.group.images) > 2 for image in it.group.images)
    return [*told.alone, *several]


def without_each(targets: Iterable[Target], images: Sequence[int]) -> list[Target]:
    """These targets, with few members missing; then without one of these images, each in turn; and then with more missing."""
    found = []
    for target in targets:
        without = [dataclasses.replace(target, images=tuple(it for it in target.images if it != image), missing=FEW_MISSING,
                                       why=f"{target.why}; image {image} may be no member or a bad copy, so it is left out")
                   for image in images if len(target.images) > MIN_STRIPED]
        few, more = (dataclasses.replace(target, missing=missing) for missing in (FEW_MISSING, MORE_MISSING))
        found += [few, *without, more] if without else [target]
    return found


def halves_targets(told: Told, images: Sequence[Image], span: Span, options: Options) -> list[Target]:
    """What is tried where two images hold the same in most rows and not in all, beside others: RAID 10 without each of the two in turn, since one
    may be an older state of the other, as a stale copy is, or a disk that was imaged twice."""
    same = {frozenset((image.number, image.like)) for image in images if image.like is not None}
    known = [it.group for it in told.known if it.group.level == COPIES and len(it.group.images) == 2]
    halves = tuple((one, other) for one, other in (it.images for it in known) if frozenset((one, other)) not in same)
    if not halves or len(images) <= MIN_STRIPED or span.partition or not options.wants(COPIES):
        return []
    said = "; ".join(f"images {one} and {other} hold the same in most rows: one may be an older state of the other" for one, other in halves)
    return [Target(tuple(image.number for image in images), span, f"{said}, so each is left out in turn", copied=True, halves=halves)]


def states(told: Told) -> tuple[int, int] | None:
    """Return the two images of which one may be an older state of the other; None if there are none."""
    return next((it.group.states for it in told.known if it.group.states), None)


def without_state(told: Told, numbers: Sequence[int], out: tuple[int, int], span: Span, options: Options) -> list[Target]:
    """What is tried of images without one that may be another state of the second, by what relations tell of the rest: arrays with parity, and RAID
    0. RAID 10 is tried by itself."""
    found = [*tied(told, numbers, span, options), *untied(told, numbers, span, options)]
    why = f"without image {out[0]}, which may be an older state of image {out[1]}"
    found = [dataclasses.replace(it, why=f"{why}, {it.why}", states=out) for it in found]
    return with_thousands(found, silent(told, numbers, options))


def other_state(target: Target, word: Word, shape: Shape) -> Target | None:
    """Return what is tried beside a set: the set with the other state of an image. None if the set has no image of which there are two states."""
    out, kept = target.states or (None, None)
    if out is None or kept not in word.images or word.is_each:
        return None
    other = word.having(tuple(out if slot == kept else slot for slot in word.slots))
    asked = (("offsets", str(word.offset)), ("chunks", str(word.chunk)))
    return Target(tuple(sorted(other.images)), target.span, f"the layout that was found, with image {out} in place of image {kept}", (shape,), asked,
                  word=other.text, states=(out, out))


def apart_target(distance: int, numbers: Sequence[int], span: Span) -> Target:
    """What is tried of images that hold the same so many sectors apart: RAID 10 of all of them."""
    why = (f"much of the data is on another image too, {distance} sectors apart, as in RAID 10 of layout {shifts.layout(distance)}")
    return Target(tuple(numbers), span, why, copied=True, apart=distance)


def untied(told: Told, numbers: Sequence[int], span: Span, options: Options) -> list[Target]:
    """What is tried of images that nothing ties: RAID 0, and arrays that have lost as many disks as their level bears."""
    shapes = () if told.known else silent(told, numbers, options)
    why = f"{ties.named(numbers)}: parity matches nothing, as with RAID 0 or the maximum of missing disks"
    return [Target(tuple(numbers), span, why, shapes)] if shapes else []


def unexplained(told: Told, numbers: Sequence[int], span: Span, options: Options) -> list[Target]:
    """Return what is tried of images whose ties no level explains, as if more disks were missing than one tolerates: what landmarks by the thousand
    tell. In a small volume few rows tie images by chance, as if the missing disks hold zeros there."""
    shapes = without_parity(len(numbers), options) if any(it.group.level in LEVELS for it in told.known) else ()
    why = f"{ties.named(numbers)}: no level explains what parity matches, so only landmarks by the thousand are tried"
    return [Target(tuple(numbers), span, why, by_thousands=shapes)] if shapes else []


def silent(told: Told, numbers: Sequence[int], options: Options) -> tuple[Shape, ...]:
    """The shapes at which parity tells nothing of images that nothing ties. That some hold the same in few rows ties none: parity is what another
    disk holds where the others are zeros."""
    if not told.asked or any(it.group.level != COPIES or it.group.copies for it in told.known):
        return ()
    return without_parity(len(numbers), options)


def without_parity(count: int, options: Options) -> tuple[Shape, ...]:
    """Return the shapes of so many images that leave no parity to test."""
    return allowed([Shape("0", count), Shape("5", count + 1, 1), Shape("6", count + 2, 2)], options)


def with_thousands(targets: Sequence[Target], untied_shapes: tuple[Shape, ...]) -> list[Target]:
    """These targets, of which landmarks by the thousand too are asked, at the shapes at which parity tells nothing: of images that are tied as where
    as many disks are lost as the level bears, and, at these shapes, of the first target over images that nothing ties. None where each image has an
    offset of its own. What a target asks already stays."""
    first = next((target for target in targets if not target.tied and not target.is_each), None)

    def asked(target: Target) -> tuple[Shape, ...]:
        """The shapes at which a target asks them."""
        if target.tied and not target.is_each and not target.shapes[0].parity:
            return tuple(shape for shape in target.shapes if not shape.parity)
        return target.by_thousands or (untied_shapes if target is first else ())
    return [dataclasses.replace(target, by_thousands=asked(target)) for target in targets]
