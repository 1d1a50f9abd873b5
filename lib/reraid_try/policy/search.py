"""The way from the images to the table: looks, surveys, steps, tests, and where it ends."""

import contextlib
import dataclasses
from collections.abc import Callable, Iterable, Iterator, Sequence

from ..calls import meter
from ..calls.commands import Runner
from ..calls.formats import Ranked
from ..calls.memory import Memory
from ..calls.program import Copied, Listing
from ..calls.sets import NEAR_2, Word, read_word, simplest
from ..calls.surveys import Request
from ..checks import kin, settling
from ..checks.alone import Alone
from ..checks.candidates import Candidate
from ..checks.rows import Rows
from ..checks.tests import Tests
from ..checks.verdicts import Score
from ..checks.volumes import Room
from ..errors import OutsideError, Refused, Stopped, said
from ..evidence import amounts, fills
from ..evidence import images as seen
from ..evidence.image_groups import Reshape
from ..evidence.images import Image
from ..evidence.surveying import Shared
from ..evidence.ties import Ties, Told
from ..options import LEVELS, Options
from ..report import words
from ..report.diagnosis import Diagnosis
from ..report.report import Report
from ..units import ALL, GIB, KIB, MIB, MAX_IMAGES, SECTOR, counted, size_said
from . import relaxations
from .answers import Answer, Answers, Kind
from .relaxations import Relaxation, RelaxationKind
from .evident import Evident
from .scope import Scope
from .mirrors import Grouped, Mirrors, groupings, is_striped
from .plans import FIRST_ROWS
from .shapes import Shape, Tiers
from .stages import Stage, delayed
from .steps import Step

# Images of at most so many times what is read first are read wholly where nothing was found.
SMALL_TIMES = 4
# Pairs of mirrors are searched with up to so many things relaxed.
MAX_PAIRED = 2
# In so many shapes three things are relaxed, whatever they are.
MAX_THRICE = 2


class Search:
    """One run: what is seen, what is tried, and the candidates. `scope` is that over all images, `scopes` are all that were begun, `shapes_tried` of
    which shapes there were steps, `stale` the images that ties name as old, `reshapes` where ties change for good, `said_fills` the lines on texts in
    images, `why` for what reason the next steps are; `solved` says that a candidate says enough of what evidence gave a reason for, so that there is
    no scope over all images; `answer` says what the images are if they are no array; `memory` keeps what is found in volumes, where another run may
    go on with it."""

    tests: Tests
    scope: Scope

    def __init__(self, options: Options, commands: Runner, report: Report, room: Room, memory: Memory | None = None) -> None:
        self.options, self.commands, self.report, self.room, self.memory = options, commands, report, room, memory
        self.images: tuple[Image, ...] = ()
        self.tested: list[Candidate] = []
        self.known: set[str] = set()
        self.number, self.said_on, self.was_late, self.solved = 0, False, False, False
        self.scopes: list[Scope] = []
        self.surveys = Shared()
        self.shapes_tried: set[str] = set()
        self.stale: set[int] = set()
        self.reshapes: list[Reshape] = []
        self.said_fills: set[str] = set()
        self.said_room = False
        self.said_spent: set[bool] = set()
        self.why = ""
        self.answer: Answer | None = None
        self.hopeless: Answer | None = None
        self.asked_late: tuple[Told, tuple[tuple[int, int], ...]] | None = None
        self.asked_ties: Ties | None = None

    def run(self) -> None:
        """Does all of it."""
        self.pass_through()
        if not self.solved and self.best() < Score.KNOWN and self.may_read_all():
            self.report.say("all", "nothing was found in the first part. All images are small, so the search continues over all of them")
            self.options = dataclasses.replace(self.options, first=ALL)
            self.known.clear()
            self.pass_through()
        if not self.solved and self.best() < Score.KNOWN:
            self.without_landmarks()
        if self.best() < Score.CHECKED:
            self.tests.count_late(self.tested)
        if not self.solved and self.best() < Score.CHECKED:
            self.diagnose(lambda it: it.show(self.was_late))
            self.say_reshapes()
        self.say_rows()
        self.say_amount()

    def say_amount(self) -> None:
        """Says how much was read of large images by now, and when the first layout was found that has a rating still."""
        read, rated = meter.read_of_images(), [it.since for it in self.tested if it.since is not None and it.score >= Score.CHECKED]
        first = min(rated, default=None)
        if read and self.is_large:
            self.report.say("read", amounts.in_all(read, len(self.images), first), bytes=read, rated=first)

    def is_read(self) -> bool:
        """Large images were read as far as they may be, and a layout has a rating: no further step begins. A line says so once, or that the search
        continues without a rating."""
        most = self.options.first + meter.MAX_AFTER
        if not meter.is_spent(len(self.images), self.options.first) or not self.is_large:
            return False
        ends = self.best() >= Score.CHECKED
        if ends not in self.said_spent:
            self.said_spent.add(ends)
            then = "ends, since a layout has a rating" if ends else "continues, since no layout has a rating (Ctrl-C ends it)"
            self.report.say("spent", f"  {most / GIB:.3g} GiB of each image is read on average: the search {then}", bytes=most, ends=ends)
        return ends

    @property
    def is_large(self) -> bool:
        """Return whether some image is large."""
        return amounts.first_pass(self.images, self.options.first) is not None

    def say_reshapes(self) -> None:
        """Says once more where ties change for good, where nothing has a rating."""
        for it in self.reshapes if self.best() < Score.CHECKED else ():
            self.report.say("reshape", it.short(), last=it.last, first=it.sector, before=sorted(it.before), after=sorted(it.after))

    def say_rows(self) -> None:
        """Asks of the candidates that are said in words in which rows parity holds, and which images in no slot are but old or damaged."""
        names = words.short([image.called for image in self.images])
        for _, it in self.best_told():
            rows = Rows(it.scope)
            it.rows = rows.whole(it)
            there = {image.number for image in it.scope.evidence.images}
            it.old = tuple(old.text(names) for old in rows.old(it, [self.images[number] for number in sorted(self.stale - there)]))

    def best_told(self) -> list[tuple[int, Candidate]]:
        """The candidates, with their numbers, of which more is told: the best, and those that are encrypted."""
        order = kin.in_order(self.tested, self.images)
        best = words.best(order)[:words.MAX_TOLD]
        return best + [pair for pair in words.encrypted(order) if pair not in best][:words.MAX_TOLD]

    def diagnose(self, show: Callable[[Diagnosis], None]) -> None:
        """Prints of the nearest sets of the scope over all images, as far as nothing is refused."""
        try:
            show(Diagnosis(self.scope, self.report, self.options.seconds, self.options.jobs))
        except Refused as error:
            self.say_refused(error)

    def say_refused(self, error: Refused) -> None:
        """Says what was refused; the run goes on without it."""
        self.report.say("failed", f"  {error}", why=str(error))

    def pass_through(self) -> None:
        """Looks, tries what the images themselves give a reason for, and then surveys and tries all else, in as much of the images as is to be read;
        without landmarks all is read at once, where it may be."""
        self.look()
        if self.are_zeros():
            self.report.say("zeros", "the images hold nothing but zeros: there is nothing to search", zeros=True)
            self.solved, self.tests = True, self.tests_of()
            return
        self.look_for_fills()
        self.tests = self.tests_of()
        if self.answered(lambda answers: answers.early()):
            return
        evident = Evident(self)
        solved = evident.run()
        # A search whose sets are encrypted is at its end without a rating, and says so.
        if self.best() < Score.CHECKED and self.answered(lambda answers: answers.late(evident.told, self.tested)):
            return
        self.solved = solved
        if solved:
            return
        self.report.bar.show("surveys the images")
        self.scope = evident.scope()
        self.say_evidence(self.scope)
        if self.scope.plan.groups or not self.may_read_all():
            self.try_all()

    def tests_of(self) -> Tests:
        """Return the tests of candidates over these images."""
        return Tests(self.options, self.commands, self.report, self.room, self.images, self.memory)

    def are_zeros(self) -> bool:
        """Return whether the images hold nothing but zeros. Of an image that is longer than what is read at both its ends that is not known."""
        read = [image.sectors * SECTOR <= 2 * self.options.first for image in self.images]
        return bool(read) and all(read) and all(image.first is None and image.last is None for image in self.images)

    def answered(self, ask: Callable[[Answers], Answer | None]) -> bool:
        """The images are no array that can be searched, so the search ends with an answer."""
        self.answer = self.asked_for_answer(ask)
        self.solved = self.answer is not None
        return self.solved

    def asked_for_answer(self, ask: Callable[[Answers], Answer | None]) -> Answer | None:
        """What the images are if they are no array; None if levels or members are given: then an array is searched for in any case."""
        if self.options.levels != LEVELS or self.options.members:
            return None
        self.report.bar.show("looks whether the images are an array")
        alone = Alone(self.commands, self.room, self.options.first)
        try:
            return ask(Answers(alone, self.ties, self.images, self.options.jobs, self.supers))
        except OSError as error:
            raise OutsideError(f"an image cannot be read: {said(error)}") from error

    @property
    def ties(self) -> Ties:
        """Who is asked how the images depend on one another; the rows that were read are kept."""
        names = [image.name for image in self.images]
        if self.asked_ties is None or [image.name for image in self.asked_ties.images.values()] != names:
            self.asked_ties = Ties(self.commands, self.images, self.options.seconds)
        return self.asked_ties

    def is_hopeless(self, told: Told) -> bool:
        """More disks are missing than any level bears, or the images are encrypted and parity tells nothing: nothing is relaxed then."""
        return self.late_answer(told) is not None

    def is_closed(self, told: Told) -> bool:
        """The images are encrypted and parity tells nothing: then no set is better than another."""
        found = self.late_answer(told)
        return found is not None and found.kind is Kind.ENCRYPTED

    def late_answer(self, told: Told) -> Answer | None:
        """What the images are by what parity tells of them, and superblocks, asked once of these."""
        if self.asked_late != (told, self.supers):
            self.asked_late, self.hopeless = (told, self.supers), self.asked_for_answer(lambda answers: answers.late(told, ()))
        return self.hopeless

    @property
    def supers(self) -> tuple[tuple[int, int], ...]:
        """The image and the sector of each superblock of XFS that landmarks tell of: it says how long the file system is."""
        marks = (mark for scope in self.scopes for group in scope.plan.groups if group.kind == "xfs" for mark in group.marks)
        return tuple(dict.fromkeys((mark.image, mark.sector) for mark in marks if mark.kind == "super"))

    def say_answer(self) -> None:
        """Says what the images are, if they are no array that can be searched."""
        if self.answer:
            self.report.say("answer", self.answer.lines(), kind=self.answer.kind.value, said=self.answer.text, commands=list(self.answer.commands))

    def may_read_all(self) -> bool:
        """Some image is longer than what was read of it, and none is so much longer that reading all would take very long."""
        longest = max(image.sectors for image in self.images) * SECTOR
        return self.options.first < longest <= SMALL_TIMES * self.options.first

    def look(self) -> None:
        """The images, a line each that was not printed before."""
        self.report.bar.show("looks at the images")
        before = {image.line() for image in self.images}
        self.images = seen.look_at_all(self.options.images, self.options.first, self.options.opened)
        for image in self.images:
            if image.line() not in before:
                self.report.say("image", image.line(), **image.fields())
        total = sum(min(image.sectors * SECTOR, self.options.first) for image in self.images)
        self.report.total = total
        part = "all" if total == sum(image.sectors * SECTOR for image in self.images) else "the first part"
        amount = amounts.first_pass(self.images, self.options.first)
        more = amount.text() + amounts.bound(self.options.first) if amount else ""
        self.report.say("reads", f"reading {part} of the images: {total // MIB} MiB{more}", bytes=total)
        self.say_room()

    def say_room(self) -> None:
        """Say that volumes may need more room than there is, as far as the images tell."""
        held = sum(seen.held(image) for image in self.images)
        if self.room.free() < held and not self.said_room:
            self.said_room = True
            free = self.room.free()
            said = (f"{self.room.base} has {size_said(free)} for volumes, and the images hold {size_said(held)}. Of larger volumes only the "
                    "beginning is checked, or nothing, and the table reports it")
            if self.room.mounts:
                said = (f"{self.room.base} has {size_said(free)} free. A checker that needs a copy of a longer file system does not run, and the "
                        "table reports it")
            self.report.say("room", f"{said} (--room DIR names another folder)", folder=self.room.base, free=free, images=held)

    def look_for_fills(self) -> None:
        """The texts that stand in images in place of what could not be read, a line each that was not printed before; they count as unread."""
        self.report.bar.show("looks for texts in place of what could not be read")
        found = fills.told(self.ties, self.images, self.options.first)
        self.images = fills.counted_unread(self.images, found)
        for it in found:
            if it.line() not in self.said_fills:
                self.said_fills.add(it.line())
                self.report.say("fill", it.line(), **it.fields())

    def say_evidence(self, scope: Scope) -> None:
        """The landmarks and the hints of a scope."""
        self.scopes.append(scope)
        for group in scope.plan.groups:
            first, last = (group.marks[0], group.marks[-1]) if group.marks else (None, None)
            where = f": sector {first.sector} of image {first.image}" if first else ""
            where += f" to {last.sector} of image {last.image}" if last and last != first else ""
            self.report.say("group", f"{group.name()}{where}", group=group.place, kind=group.kind, marks=len(group.marks))
        if not scope.plan.groups:
            self.report.say("group", "no landmarks: only parity rules out layouts")
        for hint in scope.evidence.said:
            self.report.say("hint", hint.line(), what=hint.what.value, value=hint.value, source=hint.source.value, why=hint.why)

    def try_all(self) -> None:
        """All steps, in order, until the volume of a candidate says enough for itself."""
        if not self.first_steps() and not self.further_steps() and self.best() < Score.KNOWN:
            tested = {it.word.text for it in self.tested}
            self.tests.put_off = list({it.word.text: it for it in reversed(self.tests.put_off) if it.word.text not in tested}.values())
            self.keep(self.looked_at(self.tests.put_off, self.tests.test_late))
        if self.scope.passed_over:
            self.commands.note(f"# skipped {counted(self.scope.passed_over, 'step')}: landmarks by themselves, or parity by itself, allow no layout")

    def first_steps(self) -> bool:
        """What is plain, once more where it ran out of its time, and with parity that stays for several rows; then what the hints say, with up to
        three things relaxed where parity tells something, what parity tells of with up to two that are soon told, and the rest with up to one. It
        says whether the search is at its end."""
        tiers = self.scope.shapes.tiers()
        hinted, told = tiers.hinted, tiers.told
        if self.before_damage(hinted + told) or self.plain_steps(tiers):
            return True
        if self.best() < Score.CHECKED and (self.plain_again(tiers) or self.delayed_steps(tiers)):
            return True
        telling = tuple(it for it in hinted if it.parity)
        stages = [Stage(hinted, 1), Stage(hinted, 2), Stage(telling, 3), Stage(told, 1, quick=True), Stage(told, 2, quick=True)]
        for stage in stages:
            if self.take_stage(stage) or self.best() >= Score.CHECKED:
                return True
        if self.best() < Score.KNOWN:
            self.diagnose(Diagnosis.show_on_the_way)
        if self.options.wants("10") and not self.lost_early and self.near_mirrors(self.scope, 1):
            return True
        return any(self.take_stage(stage) or self.best() >= Score.CHECKED for stage in (Stage(tiers.rest, 0), Stage(told + tiers.rest, 1)))

    @property
    def lost_early(self) -> bool:
        """RAID 10 with a disk lost is looked for early: the images are of an odd number."""
        return len(self.images) % 2 == 1

    def plain_steps(self, tiers: Tiers) -> bool:
        """Nothing relaxed: what the hints say, what parity tells of, the rest where none of these is content, and RAID 10, which comes first where
        images are the same. Each step takes no longer than a question. It says whether the search is at its end."""
        exact = tuple(shape for shape in self.scope.shapes.exact() if shape in tiers.told)
        alike = any(image.like is not None for image in self.images)
        with self.in_short():
            first = [Stage(tiers.hinted, 0), Stage(exact, 0), Stage(tiers.told, 0, quick=True)]
            if alike and self.plain_mirrors() or any(map(self.take_stage, first)):
                return True
            return self.best() < Score.CHECKED and (self.take_stage(Stage(tiers.rest, 0)) or not alike and self.plain_mirrors())

    def delayed_steps(self, tiers: Tiers) -> bool:
        """Parity that stays for several rows, nothing else relaxed, in the same order, until a candidate is content; each step takes no longer than
        a question. It says whether the search is at its end."""
        with self.in_short():
            return any(self.best() < Score.CHECKED and self.take_stage(delayed(shape)) for shape in tiers.all)

    @contextlib.contextmanager
    def in_short(self) -> Iterator[None]:
        """Meanwhile a step takes no longer than a question."""
        seconds, self.scope.program.seconds = self.scope.program.seconds, self.options.question_seconds
        try:
            yield
        finally:
            self.scope.program.seconds = seconds

    def plain_again(self, tiers: Tiers) -> bool:
        """What hints say and what parity tells of, nothing relaxed, where its time was up, in the whole time of a step; it says whether the search
        is at its end."""
        self.scope.ask_again()
        return any(map(self.take_stage, [Stage(tiers.hinted, 0), Stage(tiers.told, 0, quick=True)]))

    def plain_mirrors(self) -> bool:
        """RAID 10 with two copies side by side, of an odd number of images with one disk lost too; it says whether the search is at its end."""
        lost = [0, 1] if self.lost_early else [0]
        return self.options.wants("10") and any(self.near_mirrors(self.scope, missing) for missing in lost)

    def before_damage(self, shapes: Iterable[Shape]) -> bool:
        """Where maps tell of bad rows, some may be bad that no map tells of: the first rows alone, none of them bad, with all groups of landmarks
        and then without each. Such sets are tested as others are, over all rows. It says whether the search is at its end."""
        if not self.scope.evidence.unread or not self.scope.plan.groups:
            return False
        telling = [shape for shape in shapes if shape.parity]
        first = relaxations.told(f"only the first {FIRST_ROWS} rows", RelaxationKind.FIRST_ROWS)
        ways: list[tuple[Relaxation, ...]] = [(), *((relaxation,) for relaxation in relaxations.group_relaxations(self.scope.plan, True))]
        for chosen in ways:
            for shape in telling:
                few, all_rows = (relaxations.relaxed(it, chosen) for it in (self.scope.asking.first_rows(shape), self.scope.asking.request(shape)))
                if self.attempt(self.scope, shape, (first, *chosen), few, tested_by=all_rows):
                    return True
        return False

    def further_steps(self) -> bool:
        """With two and three things relaxed: what parity tells of first, and then all else with two."""
        tiers = self.scope.shapes.tiers()
        stages = [Stage(tiers.told, 2), Stage(tiers.told, 3), Stage(tiers.rest, 2), Stage(tiers.all, 2, every=True),
                  Stage(tiers.all[:MAX_THRICE], 3, every=True)]
        return any(self.best() >= Score.KNOWN or self.take_stage(stage) for stage in stages)

    def without_landmarks(self) -> None:
        """What is left where nothing was found: all sets that parity allows; where parity tells nothing, without landmarks alone."""
        for shape in self.scope.shapes.tiers().all:
            if (shape.parity or not self.scope.plan.groups) and self.attempt_bare(self.scope, shape):
                return

    def best(self) -> Score:
        """How much speaks for the best candidate so far."""
        return max((it.score for it in self.tested), default=Score.NOTHING)

    def take_stage(self, stage: Stage, scope: Scope | None = None) -> bool:
        """The steps of a stage; it says whether the search is at its end."""
        over = scope or self.scope
        return any(self.attempt(over, shape, chosen, request) for shape in stage.shapes
                   for chosen, request in over.ways(shape, stage))

    def attempt_bare(self, scope: Scope, shape: Shape) -> bool:
        """The step with all groups left out."""
        return self.attempt(scope, shape, (relaxations.bare(scope.plan),), scope.asking.bare(shape), last=True)

    def attempt(self, scope: Scope, shape: Shape, chosen: tuple[Relaxation, ...], request: Request, last: bool = False,
                tested_by: Request | None = None) -> bool:
        """One step; it says whether a candidate is clean and whole. `tested_by` is the request by which its sets are tested, where that is
        another."""
        if self.is_read():
            return True
        self.why_on()
        step = Step(shape, chosen, request)
        self.report.doing = f"{step.line()}: "
        self.report.bar.show(self.report.doing)
        try:
            plan = scope.to_list(shape, request, last)
            if plan is None:
                return False
            if not last and not scope.may_list(plan, shape):
                if self.options.show:
                    self.report.say("passed over", f"skipped: {step.line()}", loosened=step.relaxed, shape=shape.line())
                return False
            listing = scope.listing(shape, request, plan)
        except Refused as error:
            self.say_refused(error)
            return False
        if listing.bad_rows is not None:
            named = f"badrows {listing.bad_rows}"
            chosen = tuple(dataclasses.replace(it, name=named) if it.relaxes is RelaxationKind.BAD_ROWS else it for it in chosen)
            request = request.having(badrows=listing.bad_rows)
        told = self.say_step(scope, Step(shape, chosen, request), listing)
        told = dataclasses.replace(told, request=tested_by or request)
        return self.take(scope, told, listing.sets, lambda it: (read_word(it.text), scope.word(it.text)))

    def why_on(self) -> None:
        """Says once why it goes on after a checker was content."""
        if self.best() is Score.CHECKED and not self.said_on:
            self.said_on = True
            row = max(it.found.row for it in self.tested if it.score is Score.CHECKED)
            self.report.say("goes on", f"  continuing: only a checker supports the result, and no intact file longer than a stripe ({row // KIB} "
                            "KiB) was found. Ctrl-C ends the search, and prints what it found, with the commands to type", row=row)

    def say_late(self, what: str, seconds: int) -> None:
        """Says that a question ran out of its time, which was so many seconds."""
        self.was_late = True
        self.report.say("late", f"  timed out after {seconds} s: it is not known whether {what} a layout. The search assumes so, and skips no step "
                        "for it (--time allows more)", what=what, seconds=seconds)

    def say_step(self, scope: Scope, step: Step, listing: Listing) -> Step:
        """A step with its number, after it is printed with what it listed."""
        self.number, self.was_late = self.number + 1, self.was_late or not listing.whole
        unread = scope.asking.unread_relaxation(step.shape, step.request)
        step = dataclasses.replace(step, number=self.number, relaxations=(*step.relaxations, *unread))
        self.report.say("trial", f"step {self.number}: {step.line()}: {listing.line()}", number=self.number, shape=step.shape.line(),
                        loosened=step.relaxed, listed=len(listing.sets), total=listing.total, note=listing.note, reason=self.why)
        self.shapes_tried.add(step.shape.line())
        return step

    def take(self, scope: Scope, step: Step, sets: Iterable[Ranked], words_of: Callable[[Ranked], tuple[Word | None, Word]]) -> bool:
        """Tests the new sets of a step, of each its word in the scope and among all images; it says whether one of them is clean and whole."""
        fresh: dict[str, Candidate] = {}
        for it in sets:
            listed, among_all = words_of(it)
            word = simplest(among_all)
            if word.text not in self.known:
                self.known.add(word.text)
                fresh[word.text] = Candidate(word, it.rank, step, scope, listed=listed)
            if word != among_all and word.text in fresh:
                fresh[word.text].alike.append(among_all.text)
        if not fresh:
            return False
        found = list(fresh.values())
        tested = self.looked_at(found, lambda: self.tests.test(found))
        self.known -= self.left_of(step, found)
        telling = scope.evidence.pairs is not None or not step.is_bare
        whole = self.keep([it for it in tested if telling or it.found.findings or it.word.level in step.shape.telling.split(",")])
        return self.keep(self.tests.without_damaged(tested)) or whole

    def left_of(self, step: Step, found: Sequence[Candidate]) -> set[str]:
        """Return the sets of a step that were not looked at and may be listed again: those of too many. What was put off without landmarks may be
        listed with them yet, and then it is known where its volume is to be looked at."""
        same = {text for it in found if it.verdict for text in it.alike}
        kept = set() if step.is_bare else {it.word.text for it in self.tests.put_off}
        return {it.word.text for it in found if it.verdict is None} - kept - same

    def looked_at(self, found: list[Candidate], test: Callable[[], list[Candidate]]) -> list[Candidate]:
        """What a test gives of these; where the run is ended meanwhile, what was looked at until then is kept."""
        try:
            return test()
        except Stopped:
            self.tested += [it for it in found if it.verdict]
            raise

    def keep(self, tested: Sequence[Candidate]) -> bool:
        """Keeps what was tested for the table; it says whether one is clean and whole."""
        self.tested += tested
        for it in tested:
            self.tests.tell(it)
        same = kin.same_images(self.images)
        settling.settle(self.tests, self.tested, lambda one, other: kin.contradict(one, other, same))
        return any(it.found.score is Score.WHOLE or it.found.is_intact for it in tested)

    def near_mirrors(self, scope: Scope, missing: int) -> bool:
        """RAID 10 with two copies side by side; it says whether the search is at its end."""
        members = len(scope.evidence.images) + missing
        return members >= NEAR_2.copies and self.mirrors(scope, Copied((NEAR_2,), members, missing))

    def mirrors(self, scope: Scope, asked: Copied) -> bool:
        """RAID 10 by its copies: the sets, and where these group the images the RAID 0 of one of each group; it says whether the search is at its
        end."""
        if self.is_read():
            return True
        if asked.members > MAX_IMAGES or (self.options.members and asked.members not in self.options.members):
            return False
        try:
            listing = Mirrors(scope, self.commands).listing(asked)
        except Refused as error:
            self.say_refused(error)
            return False
        step = self.say_step(scope, Step(Shape("10", asked.members, asked.missing), copied=asked), listing)
        striped, others = ([it for it in listing.sets if is_striped(it) == wanted] for wanted in (True, False))
        whole = self.take(scope, step, others, lambda it: (None, scope.word(it.text)))
        return any([whole, *(self.grouped(scope, grouped) for grouped in groupings(striped))])

    def grouped(self, over: Scope, grouped: Grouped, counts: Sequence[int] = range(MAX_PAIRED + 1)) -> bool:
        """The RAID 0 of one image of each group of a scope, as a scope of its own, with so many things relaxed; it says whether the search is at its
        end."""
        seen_by, start = over.evidence.images, over.evidence.start
        images = [seen_by[group[0]] for group in grouped.groups]
        scope = Scope(self.options, self.commands, images, self.say_late, grouped.partners(seen_by), start, shared=self.surveys)
        self.report.say("pairs", grouped.line(seen_by), pairs=[list(group) for group in grouped.groups])
        self.say_evidence(scope)
        shapes = scope.shapes.tiers().all
        stages = [Stage(shapes, count) for count in counts]
        bare = bool(shapes) and MAX_PAIRED in counts
        return any(self.take_stage(stage, scope) for stage in stages) or bare and self.attempt_bare(scope, shapes[0])
