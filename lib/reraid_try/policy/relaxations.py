"""Relaxations: what may be relaxed, each a row, in the order in which they are tried."""

import dataclasses
import enum
import itertools
from collections.abc import Callable, Collection, Iterator, Sequence

from ..calls.plans import Group, Plan
from ..calls.surveys import MAX_VALUES, Request
from ..units import KIB, SECTOR, listed

# Each list of offsets is read for itself, so little of the members is tested, in sectors.
EACH_WINDOW = 8192
# What md keeps at the end of a disk: metadata 0.90 in the last whole 64 KiB but one, and room for what controllers keep.
END_BLOCK, END_ROOM = 64 * KIB // SECTOR, 384
# What controllers keep at the end of a large disk, in sectors, and which disks are large.
LARGE_ROOM, LARGE_DISK = 65536, 1 << 22
# So many misfits are allowed where they are.
MISFITS = 8
# Where partitions of old tools begin, and the first extents of LVM2.
OLD_ORIGINS, LVM_ORIGINS = (63, 128, 256, 1024), tuple(2048 + 8192 * k for k in range(24))
# For so many rows parity stays with Smart Array controllers, before it moves on.
DELAY = 16
# Of so many groups a large one may stand alone.
FEW_GROUPS = 2


class RelaxationKind(enum.Enum):
    """What is relaxed. Of a kind one relaxation stands in a step, but for groups and images, of which each has its number."""

    WINDOW = "half the test range"
    END = "the end"
    MARKS = "file records, mismatches"
    GROUP = "a landmark group"
    ALONE = "all landmark groups but one"
    IMAGE = "what one image shows"
    BAD_ROWS = "bad rows"
    DELAYS = "delayed parity"
    OFFSETS = "offsets"
    ORIGINS = "origins"
    FIRST_ROWS = "only the first rows"
    BARE = "all landmark groups"
    UNREAD = "what maps call unread"
    LEFT_OUT = "images"


# What changes what parity says.
OF_PARITY = (RelaxationKind.WINDOW, RelaxationKind.END, RelaxationKind.BAD_ROWS, RelaxationKind.OFFSETS)
# What leaves out landmarks, or lets them contradict.
OF_MARKS = (RelaxationKind.MARKS, RelaxationKind.GROUP, RelaxationKind.ALONE, RelaxationKind.IMAGE)


@dataclasses.dataclass(frozen=True)
class Relaxation:
    """Something that is relaxed: how it is called, its kind and its number there, what it makes of a request, whether it makes a listing long, the
    kind of group that it is for, and the groups that it leaves out."""

    name: str
    relaxes: RelaxationKind
    of: Callable[[Request], Request]
    number: int | None = None
    slow: bool = False
    kind: str | None = None
    out: frozenset[int] = frozenset()

    @property
    def rows(self) -> bool:
        """It changes what parity says."""
        return self.relaxes in OF_PARITY


def told(name: str, relaxes: RelaxationKind, out: Collection[int] = ()) -> Relaxation:
    """What is relaxed and stands in the request already."""
    return Relaxation(name, relaxes, lambda request: request, out=frozenset(out))


def without(places: Collection[int]) -> Callable[[Request], Request]:
    """What leaves groups out."""
    return lambda request: dataclasses.replace(request, out=tuple(sorted({*request.out, *places})))


def is_rivalled(plan: Plan, group: Group) -> bool:
    """Another group of its kind has half as many marks at least: either may be of an older file system."""
    return any(2 * len(it.marks) >= len(group.marks) for it in plan.groups if it is not group and it.kind == group.kind)


def group_relaxations(plan: Plan, every: bool) -> list[Relaxation]:
    """Each group left out, small ones first; then each large one alone. One with most of all marks is left out where another one of its kind is
    nearly as large, and where every one is asked for."""
    order, most = sorted(plan.groups, key=lambda group: (len(group.marks), group.place)), len(plan.marks()) / 2
    found = [Relaxation(f"without {group.name()}", RelaxationKind.GROUP, without({group.place}), group.place, out=frozenset({group.place}))
             for group in order if every or len(group.marks) <= most or is_rivalled(plan, group)]
    if len(order) > FEW_GROUPS:
        found += [alone(plan, group) for group in reversed(order[-2:]) if 2 * len(group.marks) >= len(order[-1].marks)]
    return found


def alone(plan: Plan, group: Group) -> Relaxation:
    """A group with all others left out."""
    rest = frozenset(it.place for it in plan.groups if it is not group)
    return Relaxation(f"only {group.name()}", RelaxationKind.ALONE, without(rest), out=rest)


def image_relaxations(plan: Plan) -> Iterator[Relaxation]:
    """What each image alone shows left out, where others show something: a foreign image may hold a file system by itself, or a part of another
    one."""
    for image in sorted({mark.image for mark in plan.marks()}):
        places = frozenset(group.place for group in plan.groups if group.images() == {image})
        if 0 < len(places) < len(plan.groups):
            yield Relaxation(f"without what only image {image} shows", RelaxationKind.IMAGE, without(places), image, out=places)


def bare(plan: Plan) -> Relaxation:
    """All groups left out."""
    places = frozenset(group.place for group in plan.groups)
    return Relaxation("no landmarks", RelaxationKind.BARE, without(places), out=places)


def half_window(plan: Plan) -> Relaxation:
    """Half of the window."""
    def change(request: Request) -> Request:
        window = min(request.number("window", plan.end), plan.end)
        return request.having(window=max(1, window // 2))
    return Relaxation("half the test range", RelaxationKind.WINDOW, change)


def before_superblock(plan: Plan) -> Relaxation:
    """An end before what md, or a controller, keeps at the end of the disks."""
    last = min(plan.lengths)
    end = last - LARGE_ROOM - END_ROOM if last > LARGE_DISK else last // END_BLOCK * END_BLOCK - END_ROOM

    def change(request: Request) -> Request:
        return request.having(end=max(1, min(end, request.number("end"))), window=max(1, min(end, request.number("window", end))))
    return Relaxation("end before a superblock", RelaxationKind.END, change)


def no_records() -> Relaxation:
    """File records of number 0 left out."""
    return Relaxation("file records of number 0 left out", RelaxationKind.MARKS, lambda request: dataclasses.replace(request, records=True),
                      kind="ntfs")


def misfits() -> Relaxation:
    """Some misfits in each group."""
    return Relaxation(f"{MISFITS} mismatches", RelaxationKind.MARKS, lambda request: request.having(misfits=MISFITS))


def bad_rows(rows: int, offsets: Collection[int]) -> Relaxation:
    """So many bad rows, at those of these offsets that are asked for: the others have too few filled ones."""
    def change(request: Request) -> Request:
        return request.having(badrows=rows, offsets=listed(set(request.numbers("offsets")) & set(offsets)) or request.get("offsets"))
    return Relaxation(f"badrows {rows}", RelaxationKind.BAD_ROWS, change)


def delays() -> Relaxation:
    """Parity that stays for several rows, in place of parity that moves on in each, which is asked for without this."""
    return Relaxation(f"delays {DELAY}", RelaxationKind.DELAYS, lambda request: request.having(delays=DELAY))


def more_offsets(offsets: Collection[int]) -> Relaxation:
    """These offsets besides."""
    def change(request: Request) -> Request:
        asked = set(request.numbers("offsets")) | set(offsets)
        return request.having(offsets=listed(sorted(it for it in asked if it < request.number("end"))[:MAX_VALUES]))
    return Relaxation("more offsets", RelaxationKind.OFFSETS, change)


def more_origins() -> Relaxation:
    """Where partitions of old tools begin, and the first extents of LVM2."""
    def change(request: Request) -> Request:
        asked = {*request.numbers("origins"), *OLD_ORIGINS, *LVM_ORIGINS}
        return request.having(origins=listed(sorted(asked)[:MAX_VALUES]))
    return Relaxation("more origins", RelaxationKind.ORIGINS, change)


def offsets_each(offsets: Sequence[int]) -> Relaxation:
    """An offset for each image, out of few."""
    def change(request: Request) -> Request:
        window = min(request.number("window", request.number("end")), EACH_WINDOW)
        return request.having(mode="each", offsets=listed(offsets), window=window)
    return Relaxation(f"offsets {listed(offsets)}, each image its own", RelaxationKind.OFFSETS, change, slow=True)


@dataclasses.dataclass(frozen=True)
class Asked:
    """What the relaxations of a shape are made of: so many bad rows, the offsets where these tell something, lists of offsets of which each image may
    have its own, more offsets for all, whether what is mostly wrong is asked for too, and whether images may be foreign."""

    rows: int
    telling: Sequence[int]
    unlike: Sequence[Sequence[int]]
    offsets: Sequence[int]
    every: bool
    foreign: bool


def in_order(plan: Plan, asked: Asked) -> list[Relaxation]:
    """What may be relaxed, in the order in which it is tried; where images may be foreign first what one alone shows."""
    return [*(image_relaxations(plan) if asked.foreign else ()), half_window(plan), before_superblock(plan), no_records(),
            *group_relaxations(plan, asked.every), misfits(), delays(), bad_rows(asked.rows, asked.telling), more_offsets(asked.offsets),
            more_origins(), *map(offsets_each, asked.unlike)]


def go_together(chosen: Sequence[Relaxation]) -> bool:
    """These relaxations can stand together. What stands at the end of the disks makes bad rows too, and where each image has an offset of its own
    only few rows are tested, which bad ones would be most of."""
    kinds = {relaxation.relaxes for relaxation in chosen}
    distinct = len({(relaxation.relaxes, relaxation.number) for relaxation in chosen}) == len(chosen)
    twice_groups = RelaxationKind.ALONE in kinds and not kinds.isdisjoint((RelaxationKind.GROUP, RelaxationKind.IMAGE))
    with_bad = RelaxationKind.BAD_ROWS in kinds and any(it.relaxes in (RelaxationKind.WINDOW, RelaxationKind.END) or it.slow for it in chosen)
    with_slow = RelaxationKind.DELAYS in kinds and any(relaxation.slow for relaxation in chosen)
    return distinct and not twice_groups and not with_bad and not with_slow


def choices(found: Sequence[Relaxation], count: int) -> list[tuple[Relaxation, ...]]:
    """The ways to relax so many things at once, in order; those that make a listing long come last."""
    return sorted(filter(go_together, itertools.combinations(found, count)), key=lambda chosen: any(relaxation.slow for relaxation in chosen))


def relaxed(request: Request, chosen: Sequence[Relaxation]) -> Request:
    """A request with these things relaxed."""
    for relaxation in chosen:
        request = relaxation.of(request)
    return request
