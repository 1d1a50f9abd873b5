"""In which order a search does what it does, and where it ends: its parts are stood in for."""

import dataclasses
import types
import unittest
from collections.abc import Callable, Sequence
from typing import Any, cast
from unittest import mock

from reraid_try.calls.formats import Ranked
from reraid_try.calls.program import Copied, Listing
from reraid_try.calls.sets import NEAR_2, Word, read_word
from reraid_try.checks.candidates import Candidate
from reraid_try.checks.verdicts import Score
from reraid_try.errors import Refused, Stopped
from reraid_try.evidence.image_groups import Reshape
from reraid_try.evidence.hints import Hint, Source, What
from reraid_try.evidence.images import Image
from reraid_try.options import Options
from reraid_try.policy import relaxations
from reraid_try.policy.relaxations import RelaxationKind
from reraid_try.policy.mirrors import Grouped
from reraid_try.policy.search import Search
from reraid_try.policy.shapes import Shape, Tiers
from reraid_try.policy.stages import Stage
from reraid_try.policy.steps import Step
from reraid_try.units import ALL, MIB
from tests.standin import InFolder, Standin, Told, plan_of
from tests.test_candidates import candidate, whole
from tests.test_policy import BASE, EXT, XFS

FIVE, SIX, LOST, NONE = Shape("5", 3), Shape("6", 4, 1), Shape("6", 5, 2), Shape("0", 3)


def tested(score: Score, text: str = "5:ls:none:128:2048:0,1,2", row: int = 0) -> Any:
    """A candidate of this score, whose rows have so many bytes."""
    return types.SimpleNamespace(score=score, since=None, word=read_word(text), found=types.SimpleNamespace(row=row))


def search(images: int = 3, **values: Any) -> Search:
    """A search over so many images, of which nothing was looked at."""
    found = Search(Options(tuple(f"i{number}" for number in range(images)), **values), Standin(), Told(), cast(Any, None))
    found.images = tuple(Image(f"i{number}", number, 8000) for number in range(images))
    return found


def said(it: Search) -> list[str]:
    """What was printed."""
    return cast(Told, it.report).lines


def scope(shapes: Any = None, groups: bool = True, **values: Any) -> Any:
    """What stands for a scope."""
    plan = plan_of(XFS, EXT) if groups else plan_of()
    return types.SimpleNamespace(shapes=shapes, plan=plan, **values)


class Runs(unittest.TestCase):
    """The whole of a run."""

    def done(self, best: Score, solved: bool = False, more: bool = False) -> list[str]:
        """What is done where the first pass finds something of this score."""
        it, done = search(first=9), list[str]()

        def passes() -> None:
            done.append(f"pass {'all' if it.options.first == ALL else it.options.first} {len(it.known)}")
            it.solved, it.tested = solved, [tested(best)]
            it.known.add("a set")
        it.tests = cast(Any, types.SimpleNamespace(count_late=lambda tested: done.append(f"files of {len(tested)}")))
        with mock.patch.multiple(it, pass_through=passes, may_read_all=lambda: more, without_landmarks=lambda: done.append("bare"),
                                 diagnose=lambda _: done.append("diagnosis"), say_rows=lambda: done.append("rows")):
            it.run()
        self.assertEqual(any("continues over all of them" in line for line in said(it)), done[1] == "pass all 0")
        return done

    def test_what_follows(self) -> None:
        """More is read, and landmarks left out, only where nothing is known; where nothing has a rating the files that were put off are looked for,
        and a diagnosis stands."""
        self.assertEqual(self.done(Score.NOTHING, more=True), ["pass 9 0", "pass all 0", "bare", "files of 1", "diagnosis", "rows"])
        self.assertEqual(self.done(Score.NOTHING), ["pass 9 0", "bare", "files of 1", "diagnosis", "rows"])
        self.assertEqual(self.done(Score.KNOWN, more=True), ["pass 9 0", "files of 1", "diagnosis", "rows"])
        self.assertEqual(self.done(Score.CHECKED, more=True), ["pass 9 0", "rows"])
        self.assertEqual(self.done(Score.NOTHING, solved=True, more=True), ["pass 9 0", "files of 1", "rows"])

    def test_a_reshape(self) -> None:
        """Where ties change for good is said once more at the end of a run in which nothing has a rating."""
        for best, count in ((Score.KNOWN, 1), (Score.CHECKED, 0)):
            it = search()
            it.tested, it.reshapes = [tested(best)], [Reshape(99, 100, frozenset(range(5)), frozenset(range(4)))]
            it.tests = cast(Any, types.SimpleNamespace(count_late=lambda _: None))
            with mock.patch.multiple(it, pass_through=lambda: None, diagnose=lambda _: None, say_rows=lambda: None, may_read_all=lambda: False):
                it.run()
            self.assertEqual(len(said(it)), count)
            self.assertEqual([line["first"] for line in it.report.record.of("reshape")], [100] * count)
            self.assertTrue(all(line.startswith("perhaps a reshape from 4 to 5 disks stopped between sectors 99 and 100") for line in said(it)))

    def test_best(self) -> None:
        it = search()
        self.assertEqual(it.best(), Score.NOTHING)
        it.tested = [tested(Score.KNOWN), tested(Score.CHECKED), tested(Score.NOTHING)]
        self.assertEqual(it.best(), Score.CHECKED)

    def test_all_may_be_read(self) -> None:
        """Some image is longer than what was read, and none more than four times as long."""
        for sectors, may in (((2048, 100), False), ((2049, 100), True), ((100, 8192), True), ((100, 8193), False)):
            it = search(first=MIB)
            it.images = tuple(Image(f"i{number}", number, count) for number, count in enumerate(sectors))
            self.assertEqual(it.may_read_all(), may)

    def test_a_pass(self) -> None:
        """What evidence says enough of ends it. Without landmarks all is read at once, where it may be, before anything else is tried."""
        for solved, groups, more, wanted in ((True, True, False, ["look"]), (False, True, True, ["look", "evidence", "all"]),
                                             (False, False, False, ["look", "evidence", "all"]), (False, False, True, ["look", "evidence"])):
            it, done = search(), list[str]()
            evident = types.SimpleNamespace(run=lambda solved=solved: solved, scope=lambda groups=groups: scope(groups=groups), told=None)
            with mock.patch("reraid_try.policy.search.Evident", lambda _, evident=evident: evident), \
                    mock.patch("reraid_try.policy.search.Tests"), \
                    mock.patch.multiple(it, look=lambda done=done: done.append("look"), answered=lambda _: False, look_for_fills=lambda: None), \
                    mock.patch.multiple(it, are_zeros=lambda: False, may_read_all=lambda more=more: more,
                                        try_all=lambda done=done: done.append("all"), say_evidence=lambda _, done=done: done.append("evidence")):
                it.pass_through()
            self.assertEqual((it.solved, done), (solved, wanted))

    def test_an_answer_after_encrypted_sets(self) -> None:
        """Where evidence ends the search without a rating, as with encrypted volumes, it is said what the images are; with a rating it is not."""
        for score, asked in ((Score.NOTHING, 2), (Score.CHECKED, 1)):
            it, answers = search(), mock.Mock(side_effect=[False, True])
            evident = types.SimpleNamespace(run=lambda it=it, score=score: it.tested.append(tested(score)) or True, told=None)
            with mock.patch("reraid_try.policy.search.Evident", lambda _, evident=evident: evident), \
                    mock.patch("reraid_try.policy.search.Tests"), \
                    mock.patch.multiple(it, look=lambda: None, answered=answers, look_for_fills=lambda: None, are_zeros=lambda: False):
                it.pass_through()
            self.assertEqual(answers.call_count, asked)

    def test_rows_of_the_best(self) -> None:
        """Of the candidates that are said in words it is asked in which rows parity holds, and beside the images of their scopes those that ties name
        as old."""
        it = search(5)
        images = [types.SimpleNamespace(number=number) for number in (0, 1, 3)]
        best: Any = types.SimpleNamespace(scope=types.SimpleNamespace(evidence=types.SimpleNamespace(images=images)))
        it.stale = {3, 2}
        old = types.SimpleNamespace(text=lambda names: f"{names[2]} is old")
        with mock.patch("reraid_try.policy.search.Rows") as made, mock.patch.object(it, "best_told", return_value=[(0, best)]):
            made.return_value = mock.Mock(whole=lambda _: "parity holds", old=mock.Mock(return_value=[old]))
            it.say_rows()
            self.assertEqual(made.return_value.old.call_args[0], (best, [it.images[2]]))
        self.assertEqual((best.rows, best.old), ("parity holds", ("i2 is old",)))

    def test_of_which_more_is_told(self) -> None:
        """The three best, and as many of those that are encrypted and none of these."""
        it = search()
        best, closed = list(enumerate("abcde")), list(enumerate("abxyzv"))
        with mock.patch("reraid_try.policy.search.words.best", return_value=best), \
                mock.patch("reraid_try.policy.search.words.encrypted", return_value=closed):
            self.assertEqual(it.best_told(), [*best[:3], *closed[2:5]])

    def test_refused_diagnosis(self) -> None:
        """Its line is said, and the run goes on."""
        it = search()
        it.scope = scope()
        with mock.patch("reraid_try.policy.search.Diagnosis") as made:
            it.diagnose(lambda _: None)
            it.diagnose(mock.Mock(side_effect=Refused("reraid: no")))
        self.assertEqual((said(it), made.call_args[0][2:]), (["  reraid: no"], (60, 1)))


class Steps(unittest.TestCase):
    """Which steps there are, in which order."""

    damage, parity = "damage 4", ["5.0+0.0 0", "5.0 0", "6.1+5.0 0 quick"]
    late, again = ["5.0+0.0 0", "6.1+5.0 0 quick"], "again"
    stays = ["5.0 stays", "0.0 stays", "6.1 stays", "5.0 stays", "6.2 stays"]
    relaxed = ["5.0+0.0 1", "5.0+0.0 2", "5.0 3", "6.1+5.0 1 quick", "6.1+5.0 2 quick"]
    rest = ["6.2 0", "6.1+5.0+6.2 1"]

    def order(self, images: int, best: Callable[[list[str]], Score], run: str, exact: Sequence[Shape] = (FIVE,), ends: str = "", alike: bool = False,
              **values: Any) -> tuple[bool, list[str]]:
        """Whether the search is at its end, and what was done, where the best is so good after these, and one of them may be enough. Stages that have
        another time than that of a step are counted."""
        it, done = search(images, **values), list[str]()
        tiers = Tiers((FIVE, NONE), (SIX, FIVE), (LOST,))
        if alike:
            it.images = (*it.images[1:], dataclasses.replace(it.images[0], like=1))
        it.scope = scope(types.SimpleNamespace(tiers=lambda: tiers, exact=lambda: list(exact)), program=types.SimpleNamespace(seconds=60),
                         ask_again=lambda: done.append(self.again))
        self.short = 0

        def keep(what: str) -> bool:
            done.append(what)
            self.assertIn(it.scope.program.seconds, (60, 10))
            self.short += it.scope.program.seconds == 10
            return what == ends

        def stage(what: Stage, _scope: Any = None) -> bool:
            levels = "+".join(f"{shape.levels}.{shape.missing}" for shape in what.shapes)
            count = what.only.__name__ if what.only else what.count
            return keep(f"{levels or 'none'} {count}" + " quick" * what.quick + " every" * (what.every and what.only is None))
        with mock.patch.multiple(it, take_stage=stage, best=lambda: best(done), before_damage=lambda shapes: keep(f"damage {len(shapes)}"),
                                 diagnose=lambda _: done.append("diagnosis"), near_mirrors=lambda _, missing: keep(f"mirrors {missing}")):
            found = bool(getattr(it, run)())
        self.assertEqual(it.scope.program.seconds, 60)
        return found, done

    def test_first_steps(self) -> None:
        """What is plain comes first: parity, the rest, and RAID 10 with a disk lost too of an odd number of images; nothing of that where level 10 is
        not asked for. Each takes a part of the time of a step; parity that needs more has it then, before anything is relaxed."""
        then = [self.again, *self.late, *self.stays, *self.relaxed]
        odd = [self.damage, *self.parity, "6.2 0", "mirrors 0", "mirrors 1", *then, "diagnosis", *self.rest]
        self.assertEqual((self.order(3, lambda _: Score.NOTHING, "first_steps"), self.short), ((False, odd), 11))
        even = [self.damage, *self.parity, "6.2 0", "mirrors 0", *then, "diagnosis", "mirrors 1", *self.rest]
        self.assertEqual((self.order(4, lambda _: Score.NOTHING, "first_steps"), self.short), ((False, even), 10))
        known = [self.damage, *self.parity, "6.2 0", *then, *self.rest]
        self.assertEqual(self.order(4, lambda _: Score.KNOWN, "first_steps", levels=("5",)), (False, known))
        self.assertEqual(self.order(4, lambda _: Score.NOTHING, "first_steps", (LOST,), levels=("5",))[1][2], "none 0")

    def test_images_that_are_the_same(self) -> None:
        """RAID 10 comes before all else that is plain then."""
        done = self.order(3, lambda _: Score.NOTHING, "first_steps", alike=True)[1]
        self.assertEqual(done[:8], [self.damage, "mirrors 0", "mirrors 1", *self.parity, "6.2 0", self.again])

    def test_where_first_trials_end(self) -> None:
        """Where a candidate is content, with something relaxed: what is plain is gone through, but for the rest where parity finds one."""
        few = self.order(4, lambda done: Score.CHECKED if "5.0+0.0 0" in done else Score.NOTHING, "first_steps", levels=("5",))
        self.assertEqual(few, (True, [self.damage, *self.parity, "5.0+0.0 1"]))
        plain = self.order(4, lambda done: Score.CHECKED if "6.2 0" in done else Score.NOTHING, "first_steps")
        self.assertEqual(plain, (True, [self.damage, *self.parity, "6.2 0", "mirrors 0", "5.0+0.0 1"]))
        late = self.order(4, lambda done: Score.CHECKED if self.rest[1] in done else Score.NOTHING, "first_steps", levels=("5",))
        self.assertEqual((late[0], late[1][-1]), (True, self.rest[1]))

    def test_what_is_enough_ends_it(self) -> None:
        """Wherever it is found, the first time that it is asked for."""
        for images, run in ((3, "first_steps"), (4, "first_steps"), (4, "further_steps")):
            done = self.order(images, lambda _: Score.NOTHING, run)[1]
            for place, what in enumerate(done):
                if what not in ("diagnosis", self.again) and what not in done[:place]:
                    self.assertEqual(self.order(images, lambda _: Score.NOTHING, run, ends=what), (True, done[:place + 1]))

    def test_parity_that_stays(self) -> None:
        """It is asked for until a candidate is content."""
        done = self.order(4, lambda done: Score.CHECKED if "6.1 stays" in done else Score.NOTHING, "first_steps", levels=("5",))
        self.assertEqual(done, (True, [self.damage, *self.parity, "6.2 0", self.again, *self.late, *self.stays[:3], "5.0+0.0 1"]))

    def test_further_steps(self) -> None:
        """Until something is known."""
        told = ["6.1+5.0 2", "6.1+5.0 3", "6.2 2", "5.0+0.0+6.1+5.0+6.2 2 every", "5.0+0.0 3 every"]
        self.assertEqual(self.order(3, lambda _: Score.NOTHING, "further_steps"), (False, told))
        self.assertEqual(self.order(3, lambda done: Score.KNOWN if len(done) > 1 else Score.NOTHING, "further_steps"), (True, told[:2]))

    def test_a_step(self) -> None:
        """The ways of each shape in their order, until one is enough."""
        it, tried = search(), list[tuple[Shape, int]]()
        ways = {FIVE: [((), BASE)], SIX: [((), BASE.having(window=1)), ((), BASE.having(window=2))]}

        def attempt(_scope: Any, shape: Shape, _chosen: Any, request: Any) -> bool:
            tried.append((shape, request.number("window")))
            return bool(request.number("window") == 1)
        it.scope = cast(Any, types.SimpleNamespace(ways=lambda shape, *_: ways[shape]))
        other = cast(Any, types.SimpleNamespace(ways=lambda *_: [((), BASE.having(window=9))]))
        with mock.patch.object(it, "attempt", attempt):
            self.assertTrue(it.take_stage(Stage((FIVE, SIX), 1)))
            self.assertFalse(it.take_stage(Stage((FIVE,), 1)))
            self.assertFalse(it.take_stage(Stage((FIVE,), 1), other))
        self.assertEqual(tried, [(FIVE, 0), (SIX, 1), (FIVE, 0), (FIVE, 9)])

    def test_without_landmarks(self) -> None:
        """What parity tells of, and the rest where there are no landmarks anyway, until one is enough."""
        for groups, enough, wanted in ((True, None, [FIVE, SIX]), (False, None, [FIVE, NONE, SIX, LOST]), (False, NONE, [FIVE, NONE])):
            it, tried = search(), list[Shape]()

            def bare(_scope: Any, shape: Shape, tried: list[Shape] = tried, enough: Shape | None = enough) -> bool:
                tried.append(shape)
                return shape == enough
            it.scope = scope(types.SimpleNamespace(tiers=lambda: Tiers((FIVE, NONE), (SIX,), (LOST,))), groups=groups)
            with mock.patch.object(it, "attempt_bare", bare):
                it.without_landmarks()
            self.assertEqual(tried, wanted)

    def test_what_was_put_off(self) -> None:
        """It is tested once all else is tried and nothing is known: each set once, and none that was tested since."""
        one, again, other = (candidate(text, number=number) for text, number in (("5:ls:none:8:0:0,1,2", 1), ("5:ls:none:8:0:0,1,2", 2),
                                                                                 ("5:la:none:8:0:0,1,2", 3)))
        for first, further, score, late in ((False, False, Score.NOTHING, True), (True, False, Score.NOTHING, False),
                                            (False, True, Score.NOTHING, False), (False, False, Score.KNOWN, False)):
            it, kept = search(), list[Candidate]()
            it.tested = [cast(Any, tested(score, "5:la:none:8:0:0,1,2"))]
            it.scope = scope(passed_over=2)
            it.tests = cast(Any, types.SimpleNamespace(put_off=[one, again, other], test_late=lambda: [one]))
            with mock.patch.multiple(it, first_steps=lambda first=first: first, further_steps=lambda further=further: further,
                                     keep=lambda found, kept=kept: kept.extend(found)):
                it.try_all()
            self.assertEqual((kept, it.tests.put_off == [one]), ([one] * late, late))
            self.assertEqual(cast(Standin, it.commands).noted, ["# skipped 2 steps: landmarks by themselves, or parity by itself, allow no layout"])
        it.scope.passed_over = 0
        with mock.patch.multiple(it, first_steps=lambda: True):
            it.try_all()
        self.assertEqual(len(cast(Standin, it.commands).noted), 1)


class Damage(unittest.TestCase):
    """What is tried first where maps tell of bad rows."""

    def tried(self, unread: int, groups: bool = True, ends: int = 0) -> tuple[bool, list[str]]:
        """Whether the search is at its end, and the steps, of which one may be enough."""
        it, done = search(), list[str]()

        def attempt(_scope: Any, shape: Shape, chosen: tuple[relaxations.Relaxation, ...], few: Any, tested_by: Any = None) -> bool:
            names = " and ".join(relaxation.name for relaxation in chosen)
            done.append(f"{shape.levels} {names}: {few.number('window')} {few.out} by {tested_by.number('window')}")
            return len(done) == ends
        asking = types.SimpleNamespace(first_rows=lambda _: BASE.having(window=65536), request=lambda _: BASE.having(window=90000))
        it.scope = scope(groups=groups, asking=asking, evidence=types.SimpleNamespace(unread=unread))
        with mock.patch.object(it, "attempt", attempt):
            return it.before_damage((FIVE, NONE, SIX)), done

    def test_the_first_rows(self) -> None:
        """With all groups of landmarks and then without each, of the shapes of which parity tells; tested over all rows."""
        first = "only the first 65536 rows"
        ext, xfs = "without landmark group 1 (ext, 1 landmark)", "without landmark group 0 (xfs, 2 landmarks)"
        wanted = [f"5 {first}: 65536 () by 90000", f"6 {first}: 65536 () by 90000",
                  f"5 {first} and {ext}: 65536 (1,) by 90000", f"6 {first} and {ext}: 65536 (1,) by 90000",
                  f"5 {first} and {xfs}: 65536 (0,) by 90000", f"6 {first} and {xfs}: 65536 (0,) by 90000"]
        self.assertEqual(self.tried(9), (False, wanted))
        self.assertEqual(self.tried(9, ends=2), (True, wanted[:2]))
        self.assertEqual(self.tried(0), (False, []))
        self.assertEqual(self.tried(9, groups=False), (False, []))


class Mirrored(unittest.TestCase):
    """RAID 10 by its copies."""

    def test_near(self) -> None:
        """Two members at least."""
        it = search()
        with mock.patch.object(it, "mirrors", return_value=True) as asked:
            told = [it.near_mirrors(cast(Any, types.SimpleNamespace(evidence=types.SimpleNamespace(images=range(images)))), missing)
                    for images, missing in ((1, 0), (1, 1), (2, 0), (3, 1))]
        self.assertEqual(told, [False, True, True, True])
        self.assertEqual([call[0][1] for call in asked.call_args_list],
                         [Copied((NEAR_2,), 2, 1), Copied((NEAR_2,), 2, 0), Copied((NEAR_2,), 4, 1)])

    def test_members(self) -> None:
        """No more than there are images at most, and those that are asked for."""
        for members, asked, wanted in ((24, None, 1), (25, None, 0), (4, (4, 6), 1), (5, (4, 6), 0)):
            it = search(members=asked)
            with mock.patch("reraid_try.policy.search.Mirrors") as made, mock.patch.object(it, "take", return_value=False):
                made.return_value.listing.return_value = Listing((), 0, True)
                over = types.SimpleNamespace(asking=types.SimpleNamespace(unread_relaxation=lambda *_: ()))
                self.assertFalse(it.mirrors(cast(Any, over), Copied((NEAR_2,), members)))
            self.assertEqual(made.return_value.listing.call_count, wanted)

    def listed(self, *texts: str, take: bool = False, grouped: bool = False) -> tuple[bool, list[str]]:
        """Whether the search is at its end, and what was done with these sets."""
        it, done = search(), list[str]()

        def taken(_scope: Any, step: Step, sets: Sequence[Ranked], _words: Any) -> bool:
            done.append(f"take {step.line()} {' '.join(one.text for one in sets)}")
            return take

        def group(_scope: Any, found: Any) -> bool:
            done.append(f"groups {found.groups}")
            return grouped
        with mock.patch("reraid_try.policy.search.Mirrors") as made, mock.patch.multiple(it, take=taken, grouped=group):
            made.return_value.listing.return_value = Listing(tuple(map(Ranked, range(9), texts)), 9, True)
            over = types.SimpleNamespace(asking=types.SimpleNamespace(unread_relaxation=lambda *_: ()))
            return it.mirrors(cast(Any, over), Copied((NEAR_2,), 4, 1)), done

    def test_what_is_listed(self) -> None:
        """What is a RAID 0 of one of each pair is searched as such, and the others are tested; all of it, also where one is enough."""
        step = "take RAID 10 of 4 disks, 1 missing, copies near2; relaxed: nothing"
        self.assertEqual(self.listed("near2:8:0:0,1,2,-", "near2:8:0:0,1,2"), (False, [f"{step} near2:8:0:0,1,2", "groups ((0, 1), (2,))"]))
        self.assertEqual(self.listed("near2:8:0:0,1,2,-", take=True), (True, [f"{step} ", "groups ((0, 1), (2,))"]))
        self.assertEqual(self.listed("near2:8:0:0,1,2,-", grouped=True)[0], True)

    def test_refused(self) -> None:
        it = search()
        with mock.patch("reraid_try.policy.search.Mirrors") as made:
            made.return_value.listing.side_effect = Refused("reraid: no")
            self.assertFalse(it.mirrors(cast(Any, None), Copied((NEAR_2,), 4)))
        self.assertEqual(said(it), ["  reraid: no"])


class Attempts(unittest.TestCase):
    """One step."""

    def attempt(self, plan: Any = "plan", may: bool = True, listing: Listing | Refused = Listing((), 9, True), last: bool = False,
                tested_by: Any = BASE.having(window=7), **values: Any) -> tuple[bool, list[str], list[Step]]:
        """What a step gives, what was asked, and what was taken, of a scope that says this."""
        it, asked, taken = search(**values), list[str](), list[Step]()

        def listed(*_: Any) -> Listing:
            asked.append("listing")
            if isinstance(listing, Refused):
                raise listing
            return listing

        def take(_scope: Any, step: Step, *_: Any) -> bool:
            taken.append(step)
            return True

        def may_list(*_: Any) -> bool:
            asked.append("may")
            return may
        asking = types.SimpleNamespace(unread_relaxation=lambda *_: ())
        over = types.SimpleNamespace(to_list=lambda *_: plan, may_list=may_list, listing=listed, asking=asking)
        with mock.patch.object(it, "take", take):
            told = it.attempt(cast(Any, over), FIVE, (relaxations.bad_rows(99, (0,)), relaxations.misfits()), BASE, last, tested_by)
        self.printed = said(it)
        self.search = it
        return told, asked, taken

    def test_what_is_asked(self) -> None:
        """A plan that was listed before is not, nor one that is passed over; the last one is not asked about."""
        self.assertEqual(self.attempt(plan=None), (False, [], []))
        self.assertEqual((self.attempt(may=False), self.printed), ((False, ["may"], []), []))
        self.attempt(may=False, show=True)
        self.assertEqual(self.printed, ["skipped: RAID 5 of 3 disks; relaxed: badrows 99 and 8 mismatches"])
        self.assertEqual(self.attempt(may=False, last=True)[1], ["listing"])
        told, asked, (step,) = self.attempt()
        self.assertEqual((told, asked, step.number, step.relaxed, step.request),
                         (True, ["may", "listing"], 1, ["badrows 99", "8 mismatches"], BASE.having(window=7)))
        self.assertEqual(self.printed, ["step 1: RAID 5 of 3 disks; relaxed: badrows 99 and 8 mismatches: 0 of 9 layouts pass"])
        self.assertEqual((self.search.shapes_tried, self.search.was_late), ({"RAID 5 of 3 disks"}, False))

    def test_bad_rows_that_were_found(self) -> None:
        """The step names how many rows it took."""
        _, _, (step,) = self.attempt(listing=Listing((), 9, False, "late", bad_rows=32))
        self.assertEqual((step.relaxed, self.search.was_late), (["badrows 32", "8 mismatches"], True))
        _, _, (step,) = self.attempt(listing=Listing((), 9, False, "late", bad_rows=32), tested_by=None)
        self.assertEqual(step.request, BASE.having(badrows=32))
        _, _, (step,) = self.attempt(tested_by=None)
        self.assertEqual(step.request, BASE)

    def test_refused(self) -> None:
        self.assertEqual(self.attempt(listing=Refused("reraid: no"))[0], False)
        self.assertEqual(self.printed, ["  reraid: no"])

    def test_late(self) -> None:
        """Once something did not come to its end that is so for good."""
        it = search()
        self.assertEqual((it.number, it.said_on, it.was_late, it.solved), (0, False, False, False))
        over = cast(Any, types.SimpleNamespace(asking=types.SimpleNamespace(unread_relaxation=lambda *_: ())))
        late = [(it.say_step(over, Step(FIVE), Listing((), 9, whole)).number, it.was_late) for whole in (True, False, True)]
        self.assertEqual(late, [(1, False), (2, True), (3, True)])
        it = search()
        it.say_late("parity allows", 1)
        self.assertTrue(it.was_late)
        self.assertIn("timed out after 1 s: it is not known whether parity allows a layout", said(it)[0])

    def test_why_before_a_step(self) -> None:
        """Why it goes on stands before the next step, which is shown while it is at work."""
        it = search()
        over = types.SimpleNamespace(to_list=lambda *_: None)
        with mock.patch.object(it, "why_on") as why, mock.patch.object(it.report.bar, "show") as show:
            it.attempt(cast(Any, over), FIVE, (), BASE)
        why.assert_called_once_with()
        show.assert_called_once_with("RAID 5 of 3 disks; relaxed: nothing: ")

    def test_why_it_goes_on(self) -> None:
        """It is said once, where a checker alone is content, with the longest row of those."""
        for best, lines in ((Score.KNOWN, 0), (Score.WHOLE, 0), (Score.CHECKED, 1)):
            it = search()
            it.tested = [tested(Score.KNOWN, row=9 << 20), tested(best, row=1 << 16), tested(min(best, Score.CHECKED), row=1 << 15)]
            for _ in range(2):
                it.why_on()
            self.assertEqual(len(said(it)), lines)
        self.assertIn("(64 KiB)", said(it)[0])


class Seen(InFolder):
    """What is looked at, and said before anything is tried."""

    def test_images(self) -> None:
        """Each has a line, but not again where nothing else is seen of it later; then how much is read."""
        names = tuple(self.file(name, name.encode() * (3 * MIB)) for name in "ab")
        it = Search(Options(names, first=MIB), Standin(), Told(), cast(Any, types.SimpleNamespace(free=lambda: ALL)))
        it.look()
        self.assertEqual(([line.split()[:2] for line in said(it)[:2]], said(it)[2:]),
                         ([["image", "0"], ["image", "1"]], ["reading the first part of the images: 2 MiB"]))
        it.options = dataclasses.replace(it.options, first=ALL)
        it.look()
        self.assertEqual(said(it)[3:], ["reading all of the images: 6 MiB"])
        self.assertEqual((it.report.total, len(it.images)), (6 * MIB, 2))

    def test_evidence(self) -> None:
        """The groups with their first and last marks, and the hints; that there are no landmarks."""
        it, hint = search(), Hint(What.OFFSET, 2048, Source.MARK, "a mark")
        both = [scope(groups=groups, evidence=types.SimpleNamespace(said=[hint])) for groups in (True, False)]
        for one in both:
            it.say_evidence(one)
        self.assertEqual(said(it), ["landmark group 0 (xfs, 2 landmarks): sector 2048 of image 0 to 26624 of image 1",
                                    "landmark group 1 (ext, 1 landmark): sector 7426 of image 2", "hint: data offset 2048 sectors, from a mark",
                                    "no landmarks: only parity rules out layouts", "hint: data offset 2048 sectors, from a mark"])
        self.assertEqual(it.scopes, both)

    def test_groups_of_copies(self) -> None:
        """They are said, and searched as a RAID 0 of one image of each: with up to two things relaxed, and then without landmarks."""
        over = types.SimpleNamespace(evidence=types.SimpleNamespace(images=search(4).images, start=64))
        grouped = Grouped(((0, 2), (1,)), 2, (2048,))
        stages = ["evidence", "step 0", "step 1", "step 2"]
        for shapes, ends, wanted in (((NONE, FIVE), 9, [*stages, "bare 0"]), ((), 9, stages), ((NONE,), 2, stages[:2])):
            it, done = search(), list[str]()

            def stage(what: Stage, _scope: Any, done: list[str] = done, ends: int = ends) -> bool:
                done.append(f"step {what.count}")
                return len(done) == ends

            def bare(_scope: Any, shape: Shape, done: list[str] = done) -> bool:
                done.append(f"bare {shape.levels}")
                return True
            with mock.patch("reraid_try.policy.search.Scope") as made, \
                    mock.patch.multiple(it, take_stage=stage, attempt_bare=bare, say_evidence=lambda _, done=done: done.append("evidence")):
                made.return_value.shapes.tiers.return_value = Tiers(rest=shapes)
                self.assertEqual(it.grouped(cast(Any, over), grouped), bool(shapes))
            self.assertEqual((done, said(it)), (wanted, ["  pairs 0=2 image 1 without a copy: a RAID 0 of 2 disks"]))
            words = made.call_args[0]
            self.assertEqual(([image.number for image in words[2]], words[4].partners, words[5]), ([0, 1], ((2,), ()), 64))


class Taken(unittest.TestCase):
    """What becomes of the sets of a step."""

    def take(self, step: Step, texts: Sequence[str], known: Sequence[str] = (), pairs: object = None, found: bool = True, end: bool = False,
             unseen: Sequence[str] = (), late: Sequence[str] = ()) -> tuple[bool, Search, list[Candidate]]:
        """Whether one is clean and whole, the search, and the candidates that were tested; in their volumes something may be found. Those of some
        sets are not looked at, and some of these are put off."""
        it, asked = search(), list[Candidate]()
        it.known = set(known)

        def test(candidates: list[Candidate]) -> list[Candidate]:
            asked.extend(candidates)
            for one in candidates:
                if one.word.text not in unseen:
                    one.verdict = whole() if found else dataclasses.replace(whole(), findings=[])
            return [one for one in candidates if one.verdict]

        def lesser(candidates: Sequence[Candidate]) -> list[Candidate]:
            return [candidate("6:ls:after-q:8:0:0,1,-,2", whole())] if end else []
        it.tests = cast(Any, types.SimpleNamespace(test=test, without_damaged=lesser, tell=lambda _: None, room=types.SimpleNamespace(mounts=False),
                                                   put_off=[candidate(text) for text in late]))
        over = types.SimpleNamespace(evidence=types.SimpleNamespace(pairs=pairs, start=0, end=9))

        def words(one: Ranked) -> tuple[Word | None, Word]:
            return None, read_word(one.text)
        return it.take(cast(Any, over), step, list(map(Ranked, range(9), texts)), words), it, asked

    def test_too_many(self) -> None:
        """Sets that were not looked at since they were too many may be listed again; those that are put off, and those that give a volume that was
        looked at, may not."""
        texts = [f"5:ls:none:8:{offset}:0,1,2" for offset in (0, 8, 16)]
        _, it, _ = self.take(Step(FIVE), texts, unseen=texts[1:], late=texts[2:])
        self.assertEqual(it.known, {texts[0], texts[2]})
        one, other = candidate(texts[0], whole()), candidate(texts[1])
        one.alike.append(texts[1])
        self.assertEqual(it.left_of(Step(FIVE), [one, other]), set())

    def test_the_simplest_once(self) -> None:
        """Sets of one volume are one candidate, and none that is known is tested again."""
        texts = ["6:ls-6:after-q:8:0:0,1,2,-", "5:ls:none:8:0:0,1,2", "5:la:none:8:0:0,1,2"]
        told, it, asked = self.take(Step(FIVE), texts)
        self.assertEqual((told, [(one.word.text, one.alike, one.rank) for one in asked]),
                         (True, [("5:ls:none:8:0:0,1,2", ["6:ls-6:after-q:8:0:0,1,2,-"], 0), ("5:la:none:8:0:0,1,2", [], 2)]))
        self.assertEqual((it.known, it.tested), ({"5:ls:none:8:0:0,1,2", "5:la:none:8:0:0,1,2"}, asked))
        again = self.take(Step(FIVE), texts, ["5:ls:none:8:0:0,1,2", "5:la:none:8:0:0,1,2"])
        self.assertEqual((again[0], again[2]), (False, []))
        one = self.take(Step(FIVE), texts, ["5:ls:none:8:0:0,1,2"])[2]
        self.assertEqual([(it.word.text, it.alike) for it in one], [("5:la:none:8:0:0,1,2", [])])

    def test_what_is_kept_without_landmarks(self) -> None:
        """What shows nothing is kept where parity speaks for it alone, or copies do; what was put off may be listed again."""
        bare = (relaxations.told("no landmarks", RelaxationKind.BARE),)
        for shape, pairs, kept in ((FIVE, None, 1), (NONE, None, 0), (NONE, object(), 1)):
            text = "5:ls:none:8:0:0,1,2" if shape is FIVE else "0:plain:none:8:0:0,1,2"
            self.assertEqual(len(self.take(Step(shape, bare), [text], pairs=pairs, found=False)[1].tested), kept)
        self.assertEqual(len(self.take(Step(NONE, bare), ["0:plain:none:8:0:0,1,2"])[1].tested), 1)
        self.assertEqual(len(self.take(Step(NONE), ["0:plain:none:8:0:0,1,2"], found=False)[1].tested), 1)
        texts = ["5:ls:none:8:0:0,1,2", "5:la:none:8:0:0,1,2"]
        self.assertEqual(self.take(Step(FIVE, bare), texts, unseen=texts[:1])[1].known, {texts[1]})
        self.assertEqual(self.take(Step(FIVE), texts, unseen=texts[:1], late=texts[:1])[1].known, set(texts))

    def test_without_damaged_images(self) -> None:
        """What is whole without an image that makes rows unsound ends it too."""
        text = "6:ls:after-q:8:0:0,1,3,2"
        self.assertEqual([self.take(Step(SIX), [text], found=False, end=end)[0] for end in (False, True)], [False, True])
        self.assertEqual(len(self.take(Step(SIX), [text], end=True)[1].tested), 2)

    def test_stopped(self) -> None:
        """What was looked at until then is kept."""
        it = search()
        seen, unseen = candidate(verdict=whole()), candidate()
        with self.assertRaises(Stopped):
            it.looked_at([seen, unseen], mock.Mock(side_effect=Stopped))
        self.assertEqual(it.tested, [seen])
        self.assertEqual((it.looked_at([seen], lambda: [unseen]), it.tested), ([unseen], [seen]))

    def test_kept(self) -> None:
        """Each is told of, and one alone that is whole ends it."""
        for scores, told in (((Score.CHECKED, Score.KNOWN), False), ((Score.KNOWN, Score.WHOLE), True), ((), False)):
            it = search()
            tell = mock.Mock()
            it.tests = cast(Any, types.SimpleNamespace(tell=tell))
            found = [cast(Any, types.SimpleNamespace(score=score, found=types.SimpleNamespace(score=score, is_intact=False), volume=1))
                     for score in scores]
            self.assertEqual((it.keep(found), it.tested, tell.call_count), (told, found, len(scores)))


if __name__ == "__main__":
    unittest.main()
