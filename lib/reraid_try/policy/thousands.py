"""What landmarks tell that a file system has by the thousand, where parity tells nothing: of each inode of an ext4 or an XFS, each tree block of a
btrfs and each file record of an NTFS it is said where it lies, and of hundreds most do at the true set alone. Plain shapes are asked for the sets at
which the most do."""

import dataclasses
from collections.abc import Sequence
from typing import TYPE_CHECKING

from ..calls import surveys
from ..calls.plans import Bounds, Group, Plan
from ..calls.program import Listing
from ..calls.sets import LEVELS, read_word
from ..calls.surveys import Request
from ..errors import Refused
from ..evidence import far, heads, sampling
from ..units import SECTOR, counted
from . import relaxations
from .relaxations import RelaxationKind
from .scope import Scope
from .shapes import Shape
from .steps import Step

if TYPE_CHECKING:
    from .search import Search

# So many of them tell something at least; so many groups are asked, those with the most; more sets with as many tell nothing, nor do those at which
# less than one in so many of a group lie where they say, as by chance.
MIN_MARKS, MAX_GROUPS, MAX_SETS, FEW_FIT = 12, 2, 64, 10


@dataclasses.dataclass(frozen=True)
class Marks:
    """Such landmarks: the kind of their groups, that of the superblocks by which a file system is seen without them, what one is called, whose it is,
    and what says where they lie. A head of the kind `head` shows a file system too."""

    kind: str
    seen_by: str
    name: str
    system: str
    says: str
    head: str | None = None


PAIRS = Marks("extinode", "ext", "inode pair", "an ext4", "the block group descriptors state")
INODES = Marks("xfs5", "xfs", "inode", "an XFS", "their numbers state")
TREE_BLOCKS = Marks("btrfstree", "btrfs", "tree block", "a btrfs", "the chunk tree states")
RECORDS = Marks(surveys.FILE_RECORDS, "ntfs", "file record", "an NTFS", "the runs of record 0 state", heads.LARGE_NTFS)
ALL = {it.kind: it for it in (PAIRS, INODES, TREE_BLOCKS, RECORDS)}


@dataclasses.dataclass(frozen=True)
class Most:
    """A shape, the plan that has one group of such landmarks alone, and how many of them lie where they say at the sets where the most do."""

    shape: Shape
    plan: Plan
    group: Group
    fits: int

    @property
    def marks(self) -> Marks:
        """What the group is of."""
        return ALL[self.group.kind]

    @property
    def bounded(self) -> Plan:
        """The plan of these sets alone."""
        return self.plan.bounded(self.group.place, Bounds(len(self.group.marks), self.fits))

    def line(self, following: int | None) -> str:
        """Why these sets are tried; at other sets so many landmarks lie so at most, where that is known."""
        marks = self.marks
        said = f"{self.fits} of {counted(len(self.group.marks), marks.name)} of {marks.system} lie at the places that {marks.says}"
        return said if following is None else f"{said}; with the next layout, {following} do"


def seen(scope: Scope) -> list[str]:
    """Return the kinds whose file systems were seen, by superblocks or heads."""
    groups = {group.kind for group in scope.plan.groups}
    there = {head.kind for image in scope.evidence.images for head in image.heads}
    return [it.kind for it in ALL.values() if it.seen_by in groups or it.head in there]


def groups_of(scope: Scope, shape: Shape, kinds: Sequence[str], end: int | None = None) -> list[Group]:
    """The groups of these kinds with enough landmarks, those with the most first, up to an end of the images, if that is not the usual one."""
    found = [group for group in asked_of(scope, shape, kinds, end).groups if group.kind in kinds and len(group.marks) >= MIN_MARKS]
    return sorted(found, key=lambda group: (-len(group.marks), group.place))[:MAX_GROUPS]


def asked_of(scope: Scope, shape: Shape, kinds: Sequence[str], end: int | None = None) -> Plan:
    """The plan of a shape with nothing relaxed, in which landmarks of these kinds are groups as well, up to an end of the images, if that is not the
    usual one."""
    request = scope.asking.request(shape).having(kinds=",".join([surveys.KINDS, *kinds]))
    return scope.surveys.plan(request if end is None else request.having(end=end))


def tested_by(scope: Scope, shape: Shape) -> Request:
    """Return the request by which sets are tested that landmarks by the thousand tell. What a fresh NTFS numbers 0 is no reason to call its group one
    that does not hold."""
    return dataclasses.replace(scope.asking.request(shape), records=True)


def far_end(scope: Scope, shapes: Sequence[Shape]) -> int | None:
    """The end of large images up to which tables of their file systems were surveyed, as far as these tell where they are; None if there are none."""
    evidence = scope.evidence
    end = min(image.sectors for image in evidence.images)
    if evidence.pairs or end <= evidence.end or not sampling.is_large(evidence.start, evidence.end):
        return None
    data = {shape.members - LEVELS[level].parity for shape in shapes for level in shape.levels.split(",") if level in LEVELS}
    there = tuple(far.Start(head.kind, place, head.sector) for place, image in enumerate(evidence.images) for head in image.heads)
    asked = far.Asked(evidence.names, end, evidence.end, tuple(sorted(data)), there)
    return end if scope.surveys.far(evidence.start, evidence.base.get("logical", str(SECTOR)), scope.near_plan, asked) else None


def most_of(scope: Scope, shapes: Sequence[Shape], group: Group, kinds: Sequence[str], end: int | None = None) -> list[Most]:
    """The shapes at whose sets the most landmarks of a group lie where they say: more than one where they are as many."""
    best: list[Most] = []
    for shape in shapes:
        plan = asked_of(scope, shape, kinds, end)
        alone = plan.without({it.place for it in plan.groups if it.place != group.place})
        fits = scope.questions.most_fits(alone, group.place, best[0].fits - 1 if best else 0)
        if fits is not None:
            best = [it for it in best if it.fits == fits] + [Most(shape, alone, group, fits)]
    return best


def attempt(search: "Search", scope: Scope, most: Most) -> bool:
    """The step of the sets at which the most of a group lie where they say; it says whether the search is at its end."""
    if FEW_FIT * most.fits < len(most.group.marks):
        return False
    listing = scope.program.listing(most.bounded)
    if not listing.whole or len(listing.sets) > MAX_SETS:
        return False
    following = scope.questions.most_fits(most.plan, most.group.place, beyond=len(listing.sets))
    before, search.why = search.why, most.line(following)
    search.report.say("reason", f"  {search.why}", fits=most.fits, marks=len(most.group.marks), following=following, why=search.why)
    try:
        return taken(search, scope, most, listing)
    finally:
        search.why = before


def taken(search: "Search", scope: Scope, most: Most, listing: Listing) -> bool:
    """Tests these sets as others are, by the landmarks that are not asked for here too; it says whether the search is at its end."""
    others = [group.place for group in scope.plan.groups]
    alone = relaxations.told(f"only the {most.marks.name}s of {most.marks.system}, as many as match", RelaxationKind.ALONE, others)
    step = search.say_step(scope, Step(most.shape, (alone,), tested_by(scope, most.shape)), listing)
    return search.take(scope, step, listing.sets, lambda it: (read_word(it.text), scope.word(it.text)))


def attempt_all(search: "Search", scope: Scope, shapes: Sequence[Shape], kinds: Sequence[str]) -> bool:
    """The steps by each group of these kinds that has enough landmarks; it says whether the search is at its end."""
    try:
        end = far_end(scope, shapes)
        groups = groups_of(scope, shapes[0], kinds, end)
        search.report.bar.show("counts matching inodes, tree blocks and file records")
        return any(attempt(search, scope, most) for group in groups for most in most_of(scope, shapes, group, kinds, end))
    except Refused as error:
        search.say_refused(error)
        return False
