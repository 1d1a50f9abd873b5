"""A scope: a search over some of the images, by their evidence; what is listed of each step, and what is passed over."""

import dataclasses
import itertools
from collections.abc import Callable, Iterator, Mapping, Sequence

from ..calls.commands import Runner, quoted
from ..calls.plans import Plan
from ..calls.program import MAX_LINES, Listing, Program
from ..calls.sets import NEAR, Copying, Word, mirrored, read_word
from ..calls.surveys import Request
from ..evidence import gathered
from ..evidence.gathered import Pairs
from ..evidence.images import Image
from ..evidence.places import Places
from ..evidence.surveying import LargeSurveys, Shared, every_kind
from ..options import Options
from ..units import listed
from .relaxations import Relaxation, RelaxationKind, choices, relaxed
from .plans import Asking
from .questions import Late, Questions
from .shapes import Shape, Shapes
from .stages import Stage
from .steps import Step


# Of more sets than these those are left out against which zeros speak, where that can be known.
FEW_SETS = 1


class Scope:
    """A search over these images, behind a start on each. With `pairs` its sets are those of a RAID 0 of one image of each pair; `asked` is asked for
    in each step; `tied` says that parity ties the images; `shared` has the surveys of other scopes. `late` is told of each question that ran out of
    its time; `cut_short` has the plans of which the listing did."""

    def __init__(self, options: Options, commands: Runner, images: Sequence[Image], late: Late, pairs: Pairs | None = None,
                 start: int = 0, asked: Mapping[str, str | int] | None = None, tied: bool = False, shared: Shared | None = None) -> None:
        self.commands = commands
        names = [image.name for image in images]
        self.program = Program(commands, names, options.seconds, options.jobs)
        self.surveys = LargeSurveys(commands, names, shared)
        evidence = gathered.gather(self.surveys, images, options.first, pairs, start)
        self.evidence = dataclasses.replace(evidence, base=evidence.base.having(**(asked or {})))
        self.asking = Asking(self.evidence, options)
        self.questions = Questions(self.program, self.surveys, self.asking, late, tied)
        self.tried: set[str] = set()
        self.cut_short: set[str] = set()
        self.passed_over = 0
        self.places: dict[Shape, Places | None] = {}
        self.ask_places: Callable[[Shape], Places | None] | None = None

    @property
    def shapes(self) -> Shapes:
        """What is searched."""
        return self.asking.shapes

    @property
    def plan(self) -> Plan:
        """The first plan."""
        return self.evidence.plan

    @property
    def near_plan(self) -> Plan:
        """The first plan, with the places of the images in this scope in place of their numbers among all, and with landmarks of later kinds."""
        return self.surveys.plan(self.evidence.base.having(kinds=every_kind()))

    def ways(self, shape: Shape, stage: Stage) -> Iterator[tuple[tuple[Relaxation, ...], Request]]:
        """The requests of a stage for a shape, in order, each with what is relaxed at once. Where parity tells something, what changes it is relaxed
        only as far as parity needs it, and at the offsets that need it; all else too, where every one is asked for."""
        every = stage.every
        request = self.asking.request(shape, every or stage.count == 0)
        found = [relaxation for relaxation in self.asking.relaxations(shape, every, stage.quick) if stage.only is None or stage.only(relaxation)]
        for chosen in choices(found, stage.count):
            asked = relaxed(request, chosen)
            if every or not shape.parity:
                yield chosen, asked
            elif offsets := self.questions.needing(shape, [relaxation for relaxation in chosen if relaxation.rows], asked):
                yield chosen, asked.having(offsets=listed(offsets))

    def to_list(self, shape: Shape, request: Request, last: bool = False) -> Plan | None:
        """The plan that a step lists; None where it is the same as an earlier one, or where nothing would rule sets out."""
        plan = self.surveys.plan(request)
        groups = [group for group in plan.groups if group.marks]
        if not (groups or last or shape.parity and not self.plan.groups):
            return None
        if not groups and not last:
            plan = plan.having(levels=shape.telling)
        text = plan.text()
        if text in self.tried:
            return None
        self.tried.add(text)
        return plan

    def may_list(self, plan: Plan, shape: Shape) -> bool:
        """The step of a plan is not passed over."""
        may = self.questions.may_list(plan, shape)
        self.passed_over += not may
        return may

    def listing(self, shape: Shape, request: Request, plan: Plan) -> Listing:
        """What a step lists, without the sets that rows speak against whose zeros tell where parity lies. Zeros are asked where it lists many."""
        self.tell(request)
        found = self.questions.climb(plan) if self.questions.has_bad_rows(plan, shape) else self.program.listing(plan)
        if not found.whole and len(found.sets) < MAX_LINES:
            self.cut_short.add(plan.text())
        places = self.places_at(shape, few=len(found.sets) <= FEW_SETS)
        if places is None or not found.sets:
            return found
        kept = tuple(itertools.compress(found.sets, places.allowed([self.word(it.text) for it in found.sets])))
        told = f"{len(found.sets) - len(kept)} more contradict rows of zeros" if len(kept) < len(found.sets) else ""
        return dataclasses.replace(found, sets=kept, note="; ".join(filter(None, [found.note, told])))

    def places_at(self, shape: Shape, few: bool = False) -> Places | None:
        """Where parity may lie on the images at a shape; of few sets only what is known of it."""
        if not few and self.ask_places and shape not in self.places:
            self.places[shape] = self.ask_places(shape)
        return self.places.get(shape)

    def ask_again(self) -> None:
        """What was listed in too short a time may be listed once more."""
        self.tried -= self.cut_short
        self.cut_short.clear()

    def tell(self, request: Request) -> None:
        """Shows the commands of a step."""
        names = self.evidence.names
        words = [request.words(names), *request.filters(self.surveys.seen(request)), ["reraid", "list", f"size={MAX_LINES}", "--", *names]]
        self.commands.tell(" | ".join(quoted(it) for it in words))

    def word(self, text: str) -> Word:
        """A set of this scope as one of all images, with one offset where all are the same."""
        word = read_word(text).folded()
        pairs = self.evidence.pairs
        if not pairs:
            return word if word.is_each else word.having(tuple(None if slot is None else self.evidence.images[slot].number for slot in word.slots))
        slots: list[int | None] = []
        for slot in word.images:
            there = (self.evidence.images[slot].number, *pairs.partners[slot])
            slots += [*there, *[None] * (pairs.copies - len(there))]
        return mirrored(Copying(NEAR, pairs.copies), word.chunk, word.offset, tuple(slots))

    def checked_by(self, step: Step) -> Plan | None:
        """The plan with which `check` is asked of a candidate of a step: with all groups, whatever was left out, and over the whole window, where a
        half was listed by; None for RAID 10."""
        if step.request is None:
            return None
        request = dataclasses.replace(step.request, out=())
        halved = any(relaxation.relaxes is RelaxationKind.WINDOW for relaxation in step.relaxations)
        return self.surveys.plan(request.having(window=self.evidence.window) if halved else request)
