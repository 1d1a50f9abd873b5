"""What is asked of the program before a listing: whether landmarks alone, and parity alone, allow any set. Each is asked once."""

import dataclasses
import itertools
import time
from collections.abc import Callable, Sequence

from ..calls import plans
from ..calls.formats import Page
from ..calls.plans import Bounds, Plan
from ..calls.program import Listing, Program
from ..calls.sets import read_word
from ..calls.surveys import Request, Surveys
from ..errors import Refused
from ..halving import halved
from ..units import listed
from .relaxations import Relaxation, RelaxationKind, relaxed
from .plans import MIN_BAD, Asking
from .shapes import Shape

# Of so many rows, of all sets together, it is asked whether they are bad, where many may be, and so many times as many as before each time.
MAX_ASKED, STEPS = 300_000_000, 4


# Who is told what ran out of its time, and of how many seconds.
Late = Callable[[str, int], None]


@dataclasses.dataclass(frozen=True)
class First:
    """The first set that something allows: none, or its word, or that its time was up before that was known."""

    text: str = ""
    late: bool = False

    @property
    def there(self) -> bool:
        """A set is allowed, or may be."""
        return bool(self.text) or self.late


class Questions:
    """Questions about the shapes of some images. `late` is told of each that ran out of its time, and how many seconds that was; `tied` says that
    parity ties the images, so that it surely allows a set where nothing is relaxed, and this is not asked."""

    def __init__(self, program: Program, surveys: Surveys, asking: Asking, late: Late, tied: bool = False) -> None:
        self.program, self.surveys, self.asking, self.late, self.tied = program, surveys, asking, late, tied
        self.allows: dict[str, First] = {}
        self.pages: dict[str, Page] = {}

    @property
    def seconds(self) -> int:
        """How long a question may take: a part of the time of a step."""
        return min(self.program.seconds, self.asking.shapes.options.question_seconds)

    def first(self, text: str, what: str) -> First:
        """The first set of a plan that passes. `what` says what allows it."""
        if text not in self.allows:
            page = self.program.page(text, most=1, seconds=self.seconds)
            if page.late:
                self.late(what, self.seconds)
            self.allows[text] = First(page.sets[0].text if page.sets and not page.late else "", page.late)
        return self.allows[text]

    def parity_allows(self, plan: Plan, shape: Shape) -> First:
        """The first set that parity alone allows. What is asked of landmarks says nothing there, and makes no other question of the same one."""
        alone = plan.having(levels=shape.telling, origins=0, misfits=0).bare()
        return self.first(alone.text(), "parity allows")

    def landmarks_allow(self, plan: Plan) -> First:
        """The first set that landmarks alone allow."""
        return self.first(plan.having(window=1, badrows=1).text(), "landmarks allow")

    def allowed_by_landmarks(self, plan: Plan) -> int:
        """About how many sets landmarks alone allow, at least one."""
        text = plan.having(window=1, badrows=1).text()
        if text not in self.pages:
            self.pages[text] = self.program.page(text, seconds=self.seconds)
        return max(1, self.pages[text].estimate)

    def has_bad_rows(self, plan: Plan, shape: Shape) -> bool:
        """More rows may be bad than the maps say, and landmarks leave few sets to be asked for theirs. Parity alone is not asked about so many."""
        return bool(plan.groups) and self.asking.shapes.speak_for(shape) and int(plan.values["badrows"]) > self.asking.evidence.unread

    def may_list(self, plan: Plan, shape: Shape) -> bool:
        """Landmarks alone allow a set, and so does parity alone."""
        if plan.groups and not self.landmarks_allow(plan).there:
            return False
        return not shape.parity or self.tied or self.has_bad_rows(plan, shape) or self.parity_allows(plan, shape).there

    def climb(self, plan: Plan) -> Listing:
        """The sets of a plan that pass with some bad rows: few of these at first, and then four times as many, up to the plan's, until some set
        passes. The more sets landmarks allow, the fewer rows are asked for, so that no listing is long."""
        unread = self.asking.evidence.unread
        most = min(int(plan.values["badrows"]), max(MIN_BAD, MAX_ASKED // self.allowed_by_landmarks(plan)) + unread)
        step = MIN_BAD
        while True:
            rows = min(most, unread + step)
            listing = self.program.listing(plan.having(badrows=rows))
            if listing.sets or rows == most or not listing.whole:
                return dataclasses.replace(listing, bad_rows=rows)
            step *= STEPS

    def most_fits(self, plan: Plan, place: int, above: int = 0, beyond: int = 0) -> int | None:
        """The most marks of a group that fit at one set of a plan that passes, or at more than so many, whatever else of the group misfits, by
        halving: bounds of its own ask for so many each time. None where that is no number above another one, or a question, or all of them, ran
        out of the time of one."""
        marks = next(len(group.marks) for group in plan.groups if group.place == place)
        until = time.monotonic() + self.seconds

        def fails(least: int) -> bool | None:
            """No more sets pass with so many fits."""
            text = plan.bounded(place, Bounds(marks, least)).text()
            page = None if time.monotonic() > until else self.program.page(text, most=beyond + 1, seconds=self.seconds)
            if page and not page.late:
                return len(page.sets) <= beyond
            self.late("enough landmarks allow", self.seconds)
            return None
        # Most shapes have no set with more than another one, which one question tells.
        if above and (above >= marks or fails(above + 1) is not False):
            return None
        found = halved(above + 1 if above else 0, marks + 1, fails)
        return found - 1 if found is not None and found - 1 > above else None

    def first_allowed(self, request: Request, shape: Shape) -> int | None:
        """The smallest offset at which parity alone allows a set of a request, or some where no hint speaks for the shape; None where it allows
        none."""
        plan, first = self.surveys.plan(request), None
        offsets = plan.numbers("offsets")
        while offsets:
            found = self.parity_allows(plan.having(offsets=listed(offsets)), shape)
            if not found.there:
                break
            first = min(offsets) if found.late or plan.version == plans.EACH else min(max(offsets), read_word(found.text).offset)
            offsets = [offset for offset in offsets if offset < first and self.asking.shapes.speak_for(shape)]
        return first

    def far_before(self, offset: int, first: int, shape: Shape) -> bool:
        """So many rows are filled from an offset on to another one that bad rows alone cannot be all of them; else the two are the same to parity."""
        filling = self.asking.evidence.filling
        return self.asking.shapes.speak_for(shape) and offset < first and filling.behind(offset, first) > self.asking.most_bad(shape)

    def is_unsound(self, shape: Shape) -> bool:
        """Parity allows no set of a shape at some offset of the hints, nor before it, nor behind it before much is filled."""
        request = self.asking.request(shape)
        first = self.first_allowed(request, shape)
        told = set(self.asking.evidence.offset_values) & set(request.numbers("offsets"))
        return first is None or any(self.far_before(offset, first, shape) for offset in told)

    def needing(self, shape: Shape, chosen: Sequence[Relaxation], asked: Request) -> list[int]:
        """The offsets of a request that need these things relaxed: parity allows no set there, nor at a smaller offset, with less. What it allows
        behind damage says nothing of the offsets before, but that the images share an offset. None where that leaves no offset of the hints. Half the
        window counts for nothing here: what stands at the end of the disks is passed over by large chunks as well, which parity alone then allows."""
        offsets = asked.numbers("offsets")
        free = [relaxation for relaxation in chosen if relaxation.relaxes is not RelaxationKind.WINDOW]
        request = self.asking.request(shape)
        less = [part for count in range(len(chosen)) for part in itertools.combinations(chosen, count) if list(part) != free]
        if self.asking.shapes.speak_for(shape):
            less = [part for part in less if not any(relaxation.relaxes is RelaxationKind.BAD_ROWS for relaxation in part)]
        try:
            for part in less:
                first = self.first_allowed(relaxed(request, part), shape)
                offsets = [offset for offset in offsets if first is None or self.far_before(offset, first, shape)]
                told = set(self.asking.evidence.offset_values) & set(offsets)
                if first is not None and (not told or asked.is_each):
                    return []
        except Refused:
            pass
        return offsets
