"""The first query of an array: the set that is read off landmarks by the thousand. What is proposed is named; a listing of all sets at which nearly
as many landmarks fit decides, and what it lists is tested as other sets are."""

import dataclasses
from collections.abc import Iterable, Iterator, Sequence
from typing import TYPE_CHECKING

from ..calls.plans import Bounds, Plan
from ..calls.sets import made, read_word, staying
from ..errors import Refused
from ..evidence import hints, readoff
from ..evidence.readoff import NEAR_BEST, Fit, Form, Proposal, Sought, Vote
from ..units import listed
from . import relaxations, thousands
from .relaxations import RelaxationKind
from .scope import Scope
from .shapes import Shape
from .steps import Step

if TYPE_CHECKING:
    from .search import Search

# So many queries are made at most.
MAX_QUERIES = 4
# An order of Q for a set that has none in landmarks.
ANY_ORDER = {"0": "none", "5": "none", "6": "after-q"}


@dataclasses.dataclass(frozen=True)
class Query:
    """What is listed: a shape, and the proposals of it that differ in no more than pattern, offset and slots."""

    shape: Shape
    proposals: tuple[Proposal, ...]

    @property
    def first(self) -> Proposal:
        """The best of them."""
        return self.proposals[0]

    def plan(self, over: Plan) -> Plan:
        """The plan of all sets at which nearly as many landmarks of each group fit, over that of the shape."""
        first = self.first
        fits = {fit.group: fit for fit in first.fits}
        plan = over.without({group.place for group in over.groups if group.place not in fits})
        for group in plan.groups:
            plan = plan.bounded(group.place, Bounds(len(group.marks), least(fits[group.place])))
        origins = {fit.origin for it in self.proposals for fit in it.fits}.union(over.numbers("origins"))
        plan = plan.having(levels=first.form.level, chunks=first.chunk, offsets=listed(sorted({it.offset for it in self.proposals})),
                           origins=listed(sorted(origins)))
        return plan.having(delays=first.delay) if first.delay > 1 else plan


def least(fit: Fit) -> int:
    """How many landmarks of a group fit at least at the sets that are listed: nearly as many as at the one that is proposed."""
    return max(1, fit.fits - fit.fits // NEAR_BEST)


def votes_of(plan: Plan, kinds: Sequence[str]) -> list[Vote]:
    """The votes of the landmarks of these kinds, of groups with enough of them: one for each place at which a landmark may lie."""
    groups = [group for group in plan.groups if group.kind in kinds and len(group.marks) >= thousands.MIN_MARKS]
    return [Vote(group.place, mark.image, mark.sector, place) for group in groups for mark in group.marks for place in dict.fromkeys(mark.numbers)]


def sought_of(scope: Scope, plan: Plan, shapes: Iterable[Shape]) -> Sought:
    """What may be proposed: the shapes, and the offsets and origins that are known."""
    evidence = scope.evidence
    offsets = {*evidence.tried, *evidence.offset_values, *(evidence.start + it for it in hints.MORE_OFFSETS)}
    forms = tuple(dict.fromkeys(Form(level, shape.members, shape.foreign) for shape in shapes for level in shape.levels.split(",")))
    return Sought(forms, tuple(plan.numbers("chunks")), tuple(sorted(it for it in offsets if it < evidence.end)), frozenset(plan.numbers("origins")))


def queries(found: Sequence[Proposal], shapes: Sequence[Shape], origins: frozenset[int]) -> Iterator[Query]:
    """The proposals by what one listing is asked of; those with known origins alone, if there are any. Few landmarks fit by chance."""
    likely = [it for it in found if thousands.FEW_FIT * it.fits[0].fits >= it.fits[0].votes]
    known = [it for it in likely if all(fit.origin in origins for fit in it.fits)]
    groups = dict[tuple[Form, int, int], list[Proposal]]()
    for it in known or likely:
        groups.setdefault((it.form, it.chunk, it.delay), []).append(it)
    for (form, _, _), those in list(groups.items())[:MAX_QUERIES]:
        shape = next(it for it in shapes if form.level in it.levels.split(",") and (it.members, it.foreign) == (form.members, form.foreign))
        yield Query(dataclasses.replace(shape, levels=form.level), tuple(those))


def line(scope: Scope, it: Proposal, plan: Plan) -> str:
    """What is said of a proposal."""
    fit, form = it.fits[0], it.form
    marks = thousands.ALL[next(group.kind for group in plan.groups if group.place == fit.group)]
    text = made(form.level, staying(it.pattern, it.delay), ANY_ORDER[form.level], it.chunk, (it.offset,), it.slots).text
    following = f", the next layout {it.following}" if it.following else ""
    return f"read off {marks.name}s of {marks.system}: {fit.fits} of {fit.votes} match {scope.word(text).text}{following}"


def attempt(search: "Search", scope: Scope, shapes: Sequence[Shape], kinds: Sequence[str]) -> bool:
    """The steps of the sets that landmarks of these kinds propose; it says whether the search is at its end."""
    try:
        plan = thousands.asked_of(scope, shapes[0], kinds)
        search.report.bar.show("reads the layout off landmarks")
        sought = sought_of(scope, plan, shapes)
        found = readoff.read(votes_of(plan, kinds), sought)
        return any(asked(search, scope, query, kinds) for query in queries(found, shapes, sought.origins))
    except Refused as error:
        search.say_refused(error)
        return False


def asked(search: "Search", scope: Scope, query: Query, kinds: Sequence[str]) -> bool:
    """The step of a query, if few sets pass; it says whether the search is at its end."""
    over = thousands.asked_of(scope, query.shape, kinds)
    listing = scope.program.listing(query.plan(over))
    before, search.why = search.why, line(scope, query.first, over)
    fit = query.first.fits[0]
    search.report.say("reason", f"  {search.why}", fits=fit.fits, marks=fit.votes, following=query.first.following, why=search.why)
    try:
        if not listing.whole or len(listing.sets) > thousands.MAX_SETS:
            return False
        others = [group.place for group in scope.plan.groups]
        alone = relaxations.told("only the landmarks that it is read off", RelaxationKind.ALONE, others)
        step = search.say_step(scope, Step(query.shape, (alone,), thousands.tested_by(scope, query.shape)), listing)
        return search.take(scope, step, listing.sets, lambda it: (read_word(it.text), scope.word(it.text)))
    finally:
        search.why = before
