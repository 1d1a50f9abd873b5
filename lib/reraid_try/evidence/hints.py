"""What landmarks and heads say of the array: offsets, how many data disks, which level, where file systems begin."""

import collections
import dataclasses
import enum
import itertools
import re
from collections.abc import Collection, Iterator, Mapping, Sequence

from ..calls.plans import Group, Mark, Plan
from ..errors import OutsideError, said
from ..units import LARGE_BLOCK, MIB, SECTOR, counted
from . import bcache, tables
from .heads import Head
from .images import Image, unread_by

# Offsets of mdadm, and of controllers that keep nothing before the data.
USUAL_OFFSETS = (0, 2048, 262144, 264192)
MORE_OFFSETS = (16, 272, 1024, 4096, 6144, 8192, 10240, 16384, 18432, 32768, 34816, 65536, 67584, 131072, 133120)
# Of so many marks of a group, and so many allocation groups, an offset is worked out, and so many offsets are taken.
MAX_MARKS, MAX_STEPS, MAX_PLACED = 64, 64, 6
# An offset that is worked out explains more than so many places, and so much of all.
FEW_PLACES, MAX_OF_PLACES = 2, 3 / 4
# Numbers of data disks: the least, how far from a whole number a ratio of distances may be, as a part of it, and how many are taken.
MIN_DATA, NEAR_RATIO, MAX_DATA = 2, 0.2, 3
# Marks that are nearer to one another, in sectors, tell no ratio.
MIN_APART = 64
# Of the text behind a label of LVM2 so much is read.
LVM_TEXT = 2 * MIB
# How far behind the MBR the header of a table stands where blocks have 4,096 bytes.
LARGE_SECTORS = LARGE_BLOCK // SECTOR
# Marks that say where they stand by their number alone.
UNPLACED = ("agf", "agi")


class What(enum.Enum):
    """What a hint is of."""

    OFFSET = "offset"
    DATA = "data disks"
    LEVEL = "level"
    ORIGIN = "origin"
    LOGICAL = "logical"
    END = "end"
    BAD_ROWS = "badrows"


# How a hint of each kind is printed.
PRINTED = {What.OFFSET: "data offset {} sectors", What.DATA: "{} data disks", What.LEVEL: "perhaps RAID {}", What.LOGICAL: "blocks of {} bytes",
           What.ORIGIN: "contents begin at volume sector {}", What.END: "array ends at image sector {}", What.BAD_ROWS: "{} bad rows"}


class Source(enum.Enum):
    """What a hint was taken from."""

    MARK = "mark"
    HEAD = "head"
    PLACES = "places"
    DISTANCES = "distances"
    COPIES = "copies"
    TABLE = "table"
    OWN_TABLE = "own table"
    LVM = "lvm"
    BCACHE = "bcache"
    MAPS = "maps"
    MIRRORS = "mirrors"


@dataclasses.dataclass(frozen=True)
class Hint:
    """A value for something that is searched, its source, how that is said, how many images show it, and how many the group that it is of."""

    what: What
    value: int
    source: Source
    why: str
    shown: int = 1
    spread: int = 1

    def line(self) -> str:
        """Return it as one line of text."""
        return f"hint: {PRINTED[self.what].format(self.value)}, from {self.why}"


def read_at(name: str, sector: int, count: int = SECTOR) -> bytes:
    """Some bytes of an image, from a sector on."""
    try:
        with open(name, "rb") as file:
            file.seek(sector * SECTOR)
            return file.read(count)
    except OSError as error:
        raise OutsideError(f"image {name} cannot be read: {said(error)}") from error


def rules_of(plan: Plan) -> Mapping[tuple[Group, str, str], list[Mark]]:
    """The marks by group, kind and rule, each list in order of sector."""
    found: dict[tuple[Group, str, str], list[Mark]] = collections.defaultdict(list)
    for group in plan.groups:
        for mark in group.marks:
            found[group, mark.kind, mark.rule].append(mark)
    return found


@dataclasses.dataclass
class Seen:
    """What speaks for an offset: the images, the first reason, the marks of the largest group, and how many images show that."""

    source: Source
    why: str
    images: set[int] = dataclasses.field(default_factory=set)
    marks: int = 0
    spread: int = 0

    def hint(self, value: int) -> Hint:
        """The hint."""
        shown = len(self.images)
        return Hint(What.OFFSET, value, self.source, f"{self.why}; on {counted(shown, 'image')}", shown, max(self.spread, shown))


def offsets(plan: Plan, heads: Sequence[Head]) -> list[Hint]:
    """Offsets: where the first mark of each rule stands, less its distance; those that several images show come first, then those of groups
    with many marks."""
    found: dict[int, Seen] = {}
    for (group, kind, _), marks in rules_of(plan).items():
        first = marks[0]
        if kind in UNPLACED or first.sector < first.nearest:
            continue
        value = first.sector - first.nearest
        seen = found.setdefault(value, Seen(Source.MARK, f"landmark {kind} on image {first.image}: sector {first.sector} less {first.nearest}"))
        seen.images.update(mark.image for mark in marks if mark.sector == first.sector)
        seen.marks, seen.spread = max(seen.marks, len(group.marks)), max(seen.spread, len(group.images()))
    for head in heads:
        seen = found.setdefault(head.sector, Seen(Source.HEAD, f"a possible start of {head.kind} on image {head.image}"))
        seen.images.add(head.image)
    order = sorted(found, key=lambda value: (-len(found[value].images), -found[value].marks, value))
    return [found[value].hint(value) for value in order]


def by_images(found: Sequence[Hint]) -> list[Hint]:
    """Of these hints one for each value, those that more images show first."""
    order = sorted(found, key=lambda hint: -hint.shown)
    return [hint for place, hint in enumerate(order) if hint.value not in {it.value for it in order[:place]}]


def distances(mark: Mark) -> list[int]:
    """How far behind the start of its file system a mark may lie, in sectors; the first of many."""
    if mark.step is None or not mark.step:
        return mark.numbers
    step, count, plus = mark.numbers
    return [step * k + plus for k in range(min(count, MAX_STEPS))]


@dataclasses.dataclass(frozen=True)
class Explained:
    """How many places of a group an offset explains, and for which data disks and chunk."""

    count: int
    group: Group
    disks: int
    chunk: int

    def hint(self, value: int) -> Hint:
        """The hint."""
        images = len(self.group.images())
        why = f"{self.count} places of {self.group.name()}, for {self.disks} data disks and chunks of {self.chunk} sectors"
        return Hint(What.OFFSET, value, Source.PLACES, why, images, images)


def explained(plan: Plan, group: Group, data: Sequence[int], origins: Sequence[int]) -> dict[int, Explained]:
    """The offsets that explain the places of most marks of a group, each with the most that it explains."""
    marks = {mark.sector: mark for mark in group.marks[:MAX_MARKS] if mark.kind != "record"}
    here: dict[int, Explained] = {}
    for disks, chunk, origin in itertools.product(data, plan.numbers("chunks"), origins):
        votes: collections.Counter[int] = collections.Counter()
        for sector, mark in marks.items():
            votes.update({sector - (place // (chunk * disks) * chunk + place % chunk) for place in (origin + it for it in distances(mark))})
        for value, count in votes.items():
            enough = value >= 0 and count > FEW_PLACES and count >= MAX_OF_PLACES * len(marks)
            if enough and (value not in here or count > here[value].count):
                here[value] = Explained(count, group, disks, chunk)
    return here


def placed_offsets(plan: Plan, data: Sequence[int], origins: Sequence[int], told: Collection[int]) -> list[Hint]:
    """Offsets that explain the places of most marks of a group, for some number of data disks, chunk and origin: a mark that lies so far
    behind the start of its volume stands in that row of chunks on its member, whichever it is, and P and Q show it there too. None of a
    group whose places are explained as well by an offset that is told."""
    found: dict[int, Explained] = {}
    for group in plan.groups:
        here = explained(plan, group, data, origins)
        most = max((it.count for it in here.values()), default=0)
        if not any(here[value].count == most for value in told if value in here) and here:
            found = here | found
    order = sorted(found, key=lambda value: (-found[value].count, value))
    return [found[value].hint(value) for value in order if value not in told][:MAX_PLACED]


def ratios(marks: Sequence[Mark]) -> Iterator[float]:
    """How many data chunks a row has, by marks of one group whose distances and sectors are both known."""
    steps = [mark for mark in marks if mark.step]
    sectors = sorted({mark.sector for mark in steps})
    if len(sectors) > 1:
        step, groups = steps[0].numbers[:2]
        yield step * (min(len(sectors), groups) - 1) / (sectors[-1] - sectors[0])
        for before, after in zip(sectors, sectors[1:]):
            yield step / (after - before)
    places = sorted({(max(mark.numbers) if mark.kind == "boot" and place else mark.nearest, mark.sector)
                     for place, mark in enumerate(marks) if mark.kind not in ("record", *UNPLACED) and not mark.step})
    for near, far in itertools.product(places, places):
        if far[1] - near[1] > MIN_APART and far[0] > near[0]:
            yield (far[0] - near[0]) / (far[1] - near[1])


def data_disks(plan: Plan, most: int) -> list[Hint]:
    """The number of data disks, by the distances of landmarks on the images: first what groups say that many images show, and of these what many
    distances say. A file system on a disk by itself says 1, which is no array's."""
    votes: collections.Counter[int] = collections.Counter()
    shown: collections.Counter[int] = collections.Counter()
    why: dict[int, str] = {}
    for group in sorted(plan.groups, key=lambda group: -len(group.images())):
        for ratio in ratios(group.marks):
            near = round(ratio)
            if MIN_DATA <= near <= most and abs(ratio - near) <= NEAR_RATIO * near:
                votes[near] += 1
                shown[near] = max(shown[near], len(group.images()))
                why.setdefault(near, f"the distances between landmarks of {group.name()}")
    order = sorted(votes, key=lambda value: (-shown[value], -votes[value]))
    return [Hint(What.DATA, value, Source.DISTANCES, why[value], shown[value]) for value in order[:MAX_DATA]]


# The level at which so many images show one sector: its own, P, and Q with the weight one.
LEVELS_SHOWN = {1: 0, 2: 5, 3: 6}


def level(plan: Plan, heads: Sequence[Head]) -> list[Hint]:
    """The level, by how many images show a mark or a head at one sector: one at level 0, two at 5, three at 6."""
    shown: dict[tuple[str, str, int], set[int]] = collections.defaultdict(set)
    for mark in plan.marks():
        shown[mark.kind, mark.rule, mark.sector].add(mark.image)
    for head in heads:
        shown[head.kind, "", head.sector].add(head.image)
    most = max(map(len, shown.values()), default=0)
    if most not in LEVELS_SHOWN:
        return []
    why = f"the same kind of sector at the same place on {counted(most, 'image')}"
    return [Hint(What.LEVEL, LEVELS_SHOWN[most], Source.COPIES, why + (", as also with two copies of RAID 10" if most == 2 else ""))]


PE_START = re.compile(rb"pe_start = (\d+)")
EXTENT = re.compile(rb"extent_size = (\d+)")
# Of a segment of a logical volume: at which extent of the volume it begins, and then at which extents of physical ones.
SEGMENT = re.compile(rb'start_extent = (\d+)|"pv\d+", (\d+)')


def lvm_origins(plan: Plan, images: Mapping[int, Image]) -> list[Hint]:
    """Where logical volumes begin, in sectors after their physical volume, by the text behind each label of LVM2. Of a segment that is not the first
    of its volume it is where that would begin if all of it lay there in one piece, as the marks in that segment say."""
    found: dict[int, str] = {}
    for mark in plan.marks():
        if mark.kind != "lvm":
            continue
        text = read_at(images[mark.image].name, max(0, mark.sector - mark.nearest), LVM_TEXT)
        start, extent = PE_START.search(text), EXTENT.search(text)
        if start and extent:
            before = 0
            for segment in SEGMENT.finditer(text):
                if segment[2] is None:
                    before = int(segment[1])
                elif (place := int(start[1]) + (int(segment[2]) - before) * int(extent[1])) >= 0:
                    found.setdefault(place, f"the LVM2 metadata on image {mark.image}" + ", from a later segment of a volume" * (before > 0))
            found.setdefault(int(start[1]), f"pe_start on image {mark.image}")
    return [Hint(What.ORIGIN, value, Source.LVM, why) for value, why in sorted(found.items())]


def bcache_origins(images: Sequence[Image]) -> list[Hint]:
    """Where the contents of volumes begin that bcache caches, by the superblocks on the images, in sectors behind the volume's start."""
    found: dict[int, str] = {}
    for image in images:
        for head in image.heads:
            if head.kind == bcache.KIND and (place := bcache.data_of(read_at(image.name, head.sector + bcache.PLACE))):
                found.setdefault(place, f"a superblock of bcache on image {image.number} at sector {head.sector + bcache.PLACE}")
    return [Hint(What.ORIGIN, value, Source.BCACHE, why) for value, why in sorted(found.items())]


def table_origins(images: Sequence[Image], starts: Collection[int]) -> list[Hint]:
    """Where partitions begin, by the MBRs that stand at one of these sectors of an image."""
    found: dict[int, str] = {}
    for image in images:
        for place in sorted({head.sector for head in image.heads if head.kind == "mbr"} & set(starts)):
            for it in tables.read_mbr(read_at(image.name, place)):
                if not tables.is_protective(it):
                    found.setdefault(it.first, f"an MBR on image {image.number} at sector {place}")
    return [Hint(What.ORIGIN, value, Source.TABLE, why) for value, why in sorted(found.items())]


def logical(plan: Plan, images: Mapping[int, Image]) -> list[Hint]:
    """Blocks of 4,096 bytes, where on most images with a header of a partition table the protective MBR stands eight sectors before it."""
    large: dict[int, str] = {}
    small = set()
    for mark in plan.marks():
        if mark.kind == "gpt" and mark.nearest == 1 and mark.sector >= LARGE_SECTORS:
            name = images[mark.image].name
            if tables.read_mbr(read_at(name, mark.sector - 1), 2 * tables.MAX_MBR):
                small.add(mark.image)
            elif tables.read_mbr(read_at(name, mark.sector - LARGE_SECTORS), 2 * tables.MAX_MBR):
                large[mark.image] = f"an MBR eight sectors before a GPT header on image {mark.image}"
    if len(large) <= len(small):
        return []
    return [Hint(What.LOGICAL, LARGE_BLOCK, Source.TABLE, next(iter(large.values())), len(large))]


def bad_rows(images: Sequence[Image], end: int) -> list[Hint]:
    """How many sectors of the images before an end count as unread."""
    total = sum(image.unread.unread(end) for image in images if image.unread)
    return [Hint(What.BAD_ROWS, total, Source.MAPS, unread_by(images))] if total else []


def own_offsets(images: Sequence[Image], most: int) -> list[Hint]:
    """Where the first partitions of the images' own tables begin."""
    found: dict[int, set[int]] = {}
    for image in images:
        for it in image.table.partitions[:most] if image.table.own else ():
            found.setdefault(it.first, set()).add(image.number)
    return [Hint(What.OFFSET, first, Source.OWN_TABLE, f"the start of a partition of image {min(those)}; on {counted(len(those), 'image')}",
                 len(those), len(those)) for first, those in found.items()]


def own_end(images: Sequence[Image], end: int) -> list[Hint]:
    """The end of the partitions that hold the members, where each image has a table of its own."""
    ends = [max((it.first + it.count for it in image.table.partitions), default=0) for image in images if image.table.own]
    if len(ends) < len(images) or min(ends) >= end or min(ends) == 0:
        return []
    return [Hint(What.END, min(ends), Source.OWN_TABLE, "the partitions of the images' own tables")]
