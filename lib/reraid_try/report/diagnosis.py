"""What the nearest sets look like where nothing passes: their unsound rows, first and last, and the fits of each group."""

import concurrent.futures
import dataclasses
import time
from collections.abc import Sequence

from ..calls.plans import Group, Plan
from ..calls.surveys import Request
from ..checks.rows import Near, Rows
from ..halving import halved
from ..policy.relaxations import OF_MARKS
from ..policy.scope import Scope
from ..policy.shapes import Shape
from .report import Report

# So many sets are asked of each plan, and shown at the end.
FEW, SHOWN = 24, 3
# So many shapes, and groups of each, are looked at, for so many times as long as a step.
MAX_SHAPES, MAX_GROUPS, TIMES = 6, 8, 4
# The next set may have fewer unsound rows than the last one by this part.
NEXT_FEWER = 64
ON_THE_WAY = """  so far no layout is consistent. Of the layouts that landmarks allow, these have the fewest inconsistent rows. If images are \
damaged, the right one may be among them. The search continues. To look at one: reraid-mount LAYOUT DIR IMAGE.. (- in a slot leaves its image out)"""


class Diagnosis:
    """Looks for the nearest sets of a scope: those with the fewest unsound rows of all that landmarks allow, and those of which the most marks
    fit of all that parity allows."""

    def __init__(self, scope: Scope, report: Report, seconds: int, jobs: int) -> None:
        self.scope, self.report, self.seconds, self.jobs = scope, report, seconds, jobs
        self.rows = Rows(scope)
        self.until = 0.0
        self.begin()

    def begin(self) -> None:
        """From now on so long."""
        self.until = time.monotonic() + TIMES * self.seconds

    def sets(self, plan: Plan, most: int) -> list[str]:
        """Return the first sets of a plan that pass; none after the diagnosis's time."""
        if time.monotonic() > self.until:
            return []
        return [it.text for it in self.scope.program.page(plan.text(), most=most).sets]

    def least(self, plan: Plan, below: int) -> int | None:
        """Return the fewest misfits, below this number, with which a plan lists a set; None where there is none."""
        if below < 1 or not self.sets(plan.having(misfits=below - 1), 1):
            return None
        return halved(-1, below - 1, lambda misfits: bool(self.sets(plan.having(misfits=misfits), 1)))

    def fewest(self, plan: Plan, most: int) -> int | None:
        """About the fewest unsound rows of a set that a plan lists; None where all have more than `most`. Each set that is found tells how many the
        next one may have."""
        fewest = None
        while most >= 0 and (found := self.sets(plan.having(badrows=most), 1)):
            near = Near(found[0], plan)
            if not self.rows.ask(near):
                break
            fewest = min(near.told.unsound, most)
            most = fewest - fewest // NEXT_FEWER - 1
        return fewest

    def asked(self, found: Sequence[Near]) -> list[Near]:
        """Of these sets those of which `check` says something."""
        with concurrent.futures.ThreadPoolExecutor(self.jobs) as pool:
            return [near for near, told in zip(found, pool.map(self.rows.ask, found)) if told]

    def shapes(self) -> list[tuple[Shape, Request]]:
        """Return the shapes of which parity tells something, with what is asked for."""
        return [(shape, self.scope.asking.request(shape)) for shape in self.scope.shapes.tiers().all if shape.parity][:MAX_SHAPES]

    def by_rows(self, shapes: Sequence[tuple[Shape, Request]]) -> list[Near]:
        """Of the sets that landmarks allow, all or some of them, those with about the fewest unsound rows, none with more than twice as many as
        others. Those that most marks of a group speak against are the last."""
        found: dict[str, Near] = {}
        most = self.scope.evidence.end
        for shape, request in shapes:
            changed = [relaxation.of(request) for relaxation in self.scope.asking.relaxations(shape) if relaxation.relaxes in OF_MARKS]
            for it in [request, *changed]:
                plan = self.scope.surveys.plan(it).having(levels=shape.telling)
                rows = self.fewest(plan, most) if plan.groups else None
                if rows:
                    most = min(most, 2 * rows)
                    near = self.scope.surveys.plan(request).having(misfits=it.number("misfits"))
                    for word in self.sets(plan.having(badrows=rows), FEW):
                        found.setdefault(word, Near(word, near))
        return sorted(self.asked(list(found.values())), key=lambda it: it.by_rows)

    def by_marks(self) -> list[Near]:
        """Of all sets that parity allows those of which the most groups hold, each group by itself with the fewest misfits."""
        found: dict[str, Near] = {}
        for shape, request in self.shapes():
            whole = self.scope.surveys.plan(request).having(levels=shape.telling)
            if not self.sets(whole.bare(), 1):
                continue
            for group in sorted(whole.groups, key=lambda group: -len(group.marks))[:MAX_GROUPS]:
                for near in self.of_group(whole, group):
                    found.setdefault(near.word, near)
        return sorted(self.asked(list(found.values())), key=lambda it: it.by_marks)

    def of_group(self, whole: Plan, group: Group) -> list[Near]:
        """Return the sets that parity allows of which a group holds, with the fewest misfits."""
        alone = dataclasses.replace(whole, groups=(group,))
        misfits = self.least(alone, len(group.marks))
        if misfits is None:
            return []
        return [Near(word, whole.having(misfits=misfits)) for word in self.sets(alone.having(misfits=misfits), FEW)]

    def show_on_the_way(self) -> None:
        """Prints the sets with the fewest unsound rows of the shapes that hints speak for, where parity allows none at the offsets of the hints."""
        shapes = [shape for shape in self.scope.shapes.tiers().all if self.scope.shapes.speak_for(shape) and self.scope.questions.is_unsound(shape)]
        if self.scope.plan.groups and (rows := self.by_rows([(shape, self.scope.asking.request(shape)) for shape in shapes])):
            self.report.say("on the way", ON_THE_WAY)
            self.lines(rows[:SHOWN])

    def show(self, was_late: bool) -> None:
        """Prints the nearest sets. `was_late` says that some step or question did not come to its end."""
        self.begin()
        rows = self.by_rows(self.shapes())
        self.begin()
        marks = self.by_marks()
        if not rows and not marks:
            self.report.say("diagnosis", f"nearest layouts: {self.none_near(was_late)}")
        if rows:
            self.report.say("diagnosis", "nearest layouts: of those that landmarks allow, these have the fewest inconsistent rows")
            self.lines(rows[:SHOWN])
        if marks:
            self.report.say("diagnosis", "nearest layouts: of those that parity allows, these match the most landmarks")
            self.lines(marks[:SHOWN])

    def none_near(self, was_late: bool) -> str:
        """Return what is said where no set is near."""
        if not self.shapes():
            return "none, since parity rules out no layout at the levels and numbers of missing disks that were searched"
        if was_late:
            return "none is known, since some steps timed out (--time allows more)"
        return "none, since neither landmarks nor parity allow any"

    def lines(self, found: Sequence[Near]) -> None:
        """A line for each of these sets, with the numbers that the images have among all."""
        for near in found:
            bounds, turned = self.rows.bounds(near), self.rows.turned(near)
            word = self.scope.word(near.word).text
            text = dataclasses.replace(near, word=word).line(bounds) + (f"; {turned.text()}" if turned else "")
            self.report.say("near", text, set=word, unsound=near.told.unsound, rows=near.told.rows, first=bounds.first, last=bounds.last,
                            groups=[group.text() for group in near.groups], reshaped=turned.row if turned else None)
