"""Surveys of large images: one for all kinds of landmarks and all scopes over some images, and of sparse images of what they hold."""

import collections
import dataclasses
from collections.abc import Collection, Sequence

from ..calls import plans, surveys
from ..calls.commands import Runner, refused
from ..calls.memory import direct
from ..calls.plans import Group, Mark, Plan
from ..calls.surveys import Kept, Request, Surveys
from ..units import SECTOR
from . import compact, extents, far, sampling
from .compact import Parts
from .filling import Flags

# Of sparse images that hold one in so many of their bytes at most, only what they hold is surveyed.
PART_HELD = 4
# A survey has at most so many landmarks, and groups, of each kind: where it has fewer, none were left out.
MAX_MARKS, MAX_GROUPS = 4096, 32


@dataclasses.dataclass
class Shared:
    """What was read of large images: surveys that were made, each with the names of its images, which sectors are not zeros, and of which images far
    tables were surveyed."""

    made: list[tuple[tuple[str, ...], Kept]] = dataclasses.field(default_factory=list)
    flags: Flags = dataclasses.field(default_factory=Flags)
    looked_far: set[tuple[tuple[str, ...], int, far.Asked]] = dataclasses.field(default_factory=set)


def padded(runs: Sequence[tuple[int, int]], first: int, end: int) -> tuple[tuple[int, int], ...]:
    """Return runs with a few sectors on both sides, since what a run begins with may be told by what stands before it."""
    return tuple(extents.joined(((max(first, one - compact.GAP), min(end, other + compact.GAP)) for one, other in runs)))


def of_kinds(plan: Plan, wanted: Collection[str]) -> Plan:
    """Return a plan with the groups of these kinds alone, numbered anew."""
    groups = [it for it in plan.groups if it.kind in wanted]
    return dataclasses.replace(plan, groups=tuple(dataclasses.replace(it, place=place) for place, it in enumerate(groups)))


def is_full(plan: Plan) -> bool:
    """Return whether more landmarks may be there than a plan has. Tables of file records share those of their kind, also tables without any."""
    marks, groups = collections.Counter(it.kind for it in plan.marks()), collections.Counter(it.kind for it in plan.groups)
    shares = {MAX_MARKS // count for count in range(max(1, groups[surveys.FILE_RECORDS]), MAX_GROUPS + 1)}
    shared = any(it.kind == surveys.FILE_RECORDS and len(it.marks) in shares for it in plan.groups)
    return shared or any(count >= MAX_MARKS for count in marks.values()) or any(count >= MAX_GROUPS for count in groups.values())


def of_images(plan: Plan, numbers: Sequence[int]) -> Plan:
    """Return a plan with the landmarks of some of its images alone, by their numbers, in this order."""
    places = {number: place for place, number in enumerate(numbers)}

    def marks(it: Group) -> tuple[Mark, ...]:
        kept = (dataclasses.replace(mark, image=places[mark.image]) for mark in it.marks if mark.image in places)
        return tuple(sorted(kept, key=lambda mark: (mark.sector, mark.image)))
    groups = [dataclasses.replace(it, marks=found) for it in plan.groups if (found := marks(it))]
    return dataclasses.replace(plan, lengths=tuple(plan.lengths[it] for it in numbers),
                               groups=tuple(dataclasses.replace(it, place=place) for place, it in enumerate(groups)))


class LargeSurveys(Surveys):
    """Surveys of some images, each made once: of large ones for all kinds at once, and shared among all that ask for the same images."""

    def __init__(self, commands: Runner, names: Sequence[str], shared: Shared | None = None) -> None:
        super().__init__(commands, names)
        self.shared = shared or Shared()

    def seen(self, request: Request) -> Plan:
        """Return the plan of a survey that saw the landmarks of the request's."""
        first, end = request.numbers("offsets")[0], request.number("end")
        if not sampling.is_large(first, end):
            return super().seen(request)
        wanted = set(request.get("kinds").split(","))
        asked = Kept(first, end, request.get("logical", str(SECTOR)), every_kind(), plans.Plan(plans.COMMON, (), end, {}, ()))
        for names, kept in self.shared.made:
            if names == self.names and kept.serves(asked):
                return of_kinds(kept.plan, wanted)
            if set(self.names) <= set(names) and kept.serves(asked) and not is_full(kept.plan):
                return of_kinds(of_images(kept.plan, [names.index(name) for name in self.names]), wanted)
        plan = self.surveyed(asked)
        self.shared.made.append((self.names, dataclasses.replace(asked, plan=plan)))
        return of_kinds(plan, wanted)

    def surveyed(self, asked: Kept) -> Plan:
        """Return the plan of a survey of what the images hold, where that is little, and else of the images."""
        runs = padded(extents.held_by_any(self.names, asked.first, asked.end), asked.first, asked.end)
        held = SECTOR * sum(extents.total(extents.held(name, asked.first, asked.end)) for name in self.names)
        if PART_HELD * extents.total(runs) > asked.end - asked.first or held > compact.MAX_BYTES:
            return self.asked(self.commands, self.names, asked, asked.first, asked.end)
        parts = Parts(runs or ((asked.first, asked.first + 1),))
        with compact.kept(self.names, parts) as names:
            # The names are not those of the images, so the answer is kept for no other run.
            return parts.plan(self.asked(direct(self.commands), names, asked, 0, parts.count), asked.end)

    def far(self, first: int, logical: str, plan: Plan, asked: far.Asked) -> bool:
        """Surveys the far tables of the file systems of a plan, from a first sector on, for all that ask for landmarks up to the end of the images;
        it says whether some have landmarks."""
        wanted = Kept(first, asked.end, logical, every_kind(), plans.Plan(plans.COMMON, (), asked.end, {}, ()))
        if any(names == self.names and kept.serves(wanted) for names, kept in self.shared.made):
            return True
        key = self.names, first, asked
        if key in self.shared.looked_far:
            return False
        self.shared.looked_far.add(key)
        parts = Parts(far.runs(plan, asked))
        if not parts.runs:
            return False
        with compact.kept(self.names, parts) as names:
            found = parts.plan(self.asked(direct(self.commands), names, wanted, 0, parts.count), asked.end)
        if all(mark.sector < asked.near for mark in found.marks()):
            return False
        self.shared.made.append((self.names, dataclasses.replace(wanted, plan=found)))
        return True

    def asked(self, commands: Runner, names: Sequence[str], asked: Kept, first: int, end: int) -> Plan:
        """Return the plan of a survey of these images."""
        request = Request().having(offsets=first, origins=0, end=end, logical=asked.logical, kinds=asked.kinds)
        answer = commands.run(request.words(names))
        for count in reversed(range(len(surveys.LATER_KINDS))):
            if answer.status != surveys.REFUSED:
                break
            # A program that does not know the last of the kinds.
            answer = commands.run(request.having(kinds=every_kind(count)).words(names))
        if not answer.good:
            raise refused(answer, "survey")
        return plans.read_plan(answer.out)


def every_kind(later: int = len(surveys.LATER_KINDS)) -> str:
    """Return all kinds of landmarks, with so many of the later ones, as an operand."""
    return ",".join([surveys.KINDS, *surveys.LATER_KINDS[:later]])
