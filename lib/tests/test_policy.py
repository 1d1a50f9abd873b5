"""Shapes, relaxations, what is asked for, questions, scopes and mirrors."""

import dataclasses
import unittest
from unittest import mock

from reraid_try.calls.commands import Answer
from reraid_try.calls.plans import Plan
from reraid_try.calls.program import LAST, Copied, Program
from reraid_try.calls.surveys import KINDS, Request, Surveys
from reraid_try.evidence.filling import Filling
from reraid_try.evidence.gathered import Evidence, Pairs
from reraid_try.evidence.hints import Hint, Source, What
from reraid_try.evidence.images import Image
from reraid_try.options import Options
from reraid_try.policy.relaxations import RelaxationKind
from reraid_try.policy.scope import Scope
from reraid_try.policy import relaxations, mirrors
from reraid_try.policy.mirrors import Mirrors, groupings, is_striped, there
from reraid_try.policy.plans import Asking
from reraid_try.policy.questions import First, Questions
from reraid_try.policy.shapes import Shape, Shapes
from reraid_try.policy.stages import Stage, delayed, of_kinds
from reraid_try.policy.steps import Step
from reraid_try.calls.formats import Ranked
from reraid_try.calls.sets import NEAR_2, Copying, read_word
from reraid_try.units import SECTOR
from tests.standin import OPTIONS, InFolder, Reply, Standin, plan_of, put

Marked = tuple[str, list[tuple[str, int, int, str]]]
XFS = ("xfs", [("super", 0, 2048, "every:49152:4:0"), ("super", 1, 26624, "every:49152:4:0")])
EXT = ("ext", [("ext", 2, 7426, "at:262144")])
NTFS = ("ntfs", [("boot", 1, 2048, "either:0:9000"), ("record", 1, 2056, "at:8"), ("record", 2, 2058, "at:8")])
# Four members with two copies side by side, one missing.
TWO = Copied((NEAR_2,), 4, 1)
BASE = Request().having(kinds=KINDS, offsets="0,2048", end=100000, origins="0,2048")


class Filled(Filling):
    """So many filled sectors behind each offset; behind others none."""

    def __init__(self, behind: dict[int, int]) -> None:
        super().__init__([], [], 100000, 100000)
        self.told = behind

    def behind(self, offset: int, before: int | None = None) -> int:
        """How many, less those behind the other offset."""
        return self.told.get(offset, 0) - (self.told.get(before, 0) if before else 0)


def evidence(count: int = 3, data: tuple[tuple[int, int], ...] = (), level: int | None = None, groups: tuple[Marked, ...] = (XFS, EXT),
             bad: int = 0, pairs: Pairs | None = None, offsets: tuple[int, ...] = (2048,), filled: dict[int, int] | None = None) -> Evidence:
    """What is known of so many images: data disks with how many images show them, the level, and the groups."""
    seen = tuple(Image(f"i{k}", k, 100000) for k in range(count))
    plan = plan_of(*groups, lengths=(100000,) * count)
    told = tuple(Hint(What.DATA, value, Source.DISTANCES, "", shown) for value, shown in data)
    levels = (Hint(What.LEVEL, level, Source.COPIES, ""),) if level is not None else ()
    found = tuple(Hint(What.OFFSET, value, Source.MARK, "") for value in offsets)
    return Evidence(seen, pairs, BASE, plan, found, told, levels, bad, (), 100000, 100000, Filled(filled or {0: 90000, 2048: 90000}), (0, 2048))


def nobody(_what: str, _seconds: int) -> None:
    """Who is told that something was late, and forgets it."""


class OfShapes(unittest.TestCase):
    def shapes(self, known: Evidence, **values: object) -> Shapes:
        """The shapes of an evidence."""
        return Shapes(known, dataclasses.replace(OPTIONS, **values))

    def test_line_and_what_parity_tells(self) -> None:
        self.assertEqual(Shape("5,6", 5, 1, 2).line(), "RAID 5 or 6 of 5 disks, 1 missing, 2 images left out")
        self.assertEqual([Shape("0,5,6,10", 4, missing).telling for missing in (0, 1, 2)], ["5,6", "6", ""])
        self.assertEqual([Shape("6", 4, missing).parity for missing in (1, 2)], [True, False])

    def test_hinted(self) -> None:
        self.assertEqual(self.shapes(evidence(3, ((2, 3),), 6)).hinted(), [Shape("6", 4, 1), Shape("5", 3), Shape("0", 2, 0, 1)])
        self.assertEqual(self.shapes(evidence(5, ((2, 3),))).hinted(), [Shape("5", 3, 0, 2), Shape("6", 4, 0, 1)])
        self.assertEqual(self.shapes(evidence(3, ((9, 3),))).hinted(), [])

    def test_what_one_image_says_comes_last(self) -> None:
        shapes = self.shapes(evidence(4, ((3, 2), (2, 1))))
        self.assertEqual((shapes.data_told(), shapes.data_told(True)), ([3], [2]))
        self.assertEqual(self.shapes(evidence(4, ((3, 1), (2, 1)))).data_told(), [3, 2])
        self.assertEqual(shapes.tiers().rest[-1], Shape("0", 2, 0, 2))

    def test_tiers(self) -> None:
        tiers = self.shapes(evidence(4, ((3, 2),), 5)).tiers()
        self.assertEqual(tiers.hinted, (Shape("5", 4),))
        self.assertEqual(tiers.told, (Shape("6", 4), Shape("6", 5, 1), Shape("5", 3, 0, 1)))
        self.assertEqual(tiers.rest[:4], (Shape("0", 4), Shape("5", 5, 1), Shape("6", 6, 2), Shape("0", 3, 0, 1)))
        self.assertEqual(len(set(tiers.all)), len(tiers.all))

    def test_told_alone_levels_and_members(self) -> None:
        self.assertEqual({shape.levels for shape in self.shapes(evidence(4), levels=("6",)).tiers().all}, {"6"})
        self.assertEqual({shape.members for shape in self.shapes(evidence(4), members=(5,)).tiers().all}, {5})
        self.assertEqual(self.shapes(evidence(24)).allowed(Shape("5", 25, 1)), None)
        self.assertEqual(self.shapes(evidence(3)).allowed(Shape("5,6", 3)), Shape("5", 3))

    def test_pairs_are_a_raid_0(self) -> None:
        self.assertEqual(self.shapes(evidence(2, pairs=Pairs(((), ()), ()))).tiers().all, (Shape("0", 2),))

    def test_speak_for(self) -> None:
        shapes = self.shapes(evidence(4, ((3, 2),)))
        self.assertEqual([shapes.speak_for(it) for it in (Shape("5", 4), Shape("6", 5, 1), Shape("6", 4), Shape("0", 3, 0, 1))],
                         [True, True, False, False])


class OfRelaxations(unittest.TestCase):
    def setUp(self) -> None:
        self.plan = plan_of(XFS, EXT, NTFS)
        self.asked = relaxations.Asked(256, [2048], [[0, 2048]], [16], False, False)

    def test_order(self) -> None:
        names = [relaxation.name for relaxation in relaxations.in_order(self.plan, self.asked)]
        self.assertEqual(names, ["half the test range", "end before a superblock", "file records of number 0 left out",
                                 "without landmark group 1 (ext, 1 landmark)", "without landmark group 0 (xfs, 2 landmarks)",
                                 "without landmark group 2 (ntfs, 3 landmarks)", "only landmark group 2 (ntfs, 3 landmarks)",
                                 "only landmark group 0 (xfs, 2 landmarks)", "8 mismatches", "delays 16", "badrows 256",
                                 "more offsets", "more origins", "offsets 0,2048, each image its own"])

    def test_what_one_image_alone_shows(self) -> None:
        """It is left out where others show something, and not where it is all there is."""
        one, both = ("ext", [("ext", 1, 7426, "at:262144")]), ("xfs", [("super", 0, 2048, "at:0"), ("super", 1, 2048, "at:0")])
        self.assertEqual([(it.number, it.out) for it in relaxations.image_relaxations(plan_of(both, one))], [(1, frozenset({1}))])
        self.assertEqual(list(relaxations.image_relaxations(plan_of(one))), [])

    def test_most_of_the_marks_only_where_all_is_tried(self) -> None:
        plan = plan_of(XFS, EXT)
        self.assertEqual([relaxation.number for relaxation in relaxations.group_relaxations(plan, False)], [1])
        self.assertEqual([relaxation.number for relaxation in relaxations.group_relaxations(plan, True)], [1, 0])

    def test_groups_of_two_file_systems_of_one_kind(self) -> None:
        """Either may be of an older one, though one has more marks; not a stray mark beside many, nor one of another kind."""
        def ext(count: int) -> Marked:
            return "ext", [("ext", k, 7426 * count + k, "at:262144") for k in range(count)]
        for groups, numbers in [((ext(4), ext(2)), [1, 0]), ((ext(5), ext(2)), [1]), ((ext(4), XFS), [1])]:
            self.assertEqual([relaxation.number for relaxation in relaxations.group_relaxations(plan_of(*groups), False)], numbers)

    def test_what_one_image_shows(self) -> None:
        found = list(relaxations.image_relaxations(self.plan))
        self.assertEqual([(it.name, it.out, it.number) for it in found], [("without what only image 2 shows", frozenset({1}), 2)])
        foreign = dataclasses.replace(self.asked, foreign=True)
        self.assertEqual(relaxations.in_order(self.plan, foreign)[0].relaxes, RelaxationKind.IMAGE)

    def test_requests(self) -> None:
        request = BASE.having(window=5000)
        self.assertEqual(relaxations.half_window(self.plan).of(request).get("window"), "2500")
        self.assertEqual(relaxations.half_window(self.plan).of(BASE).get("window"), "50000")
        # 100,000 sectors: the last whole 64 KiB begin at 99,968, and controllers have some more.
        self.assertEqual(relaxations.before_superblock(self.plan).of(BASE).get("end"), str(99968 - 384))
        # An end that comes earlier stays.
        self.assertEqual(relaxations.before_superblock(self.plan).of(BASE.having(end=5000)).get("end"), "5000")
        large = plan_of(XFS, lengths=[(1 << 22) + 1] * 3)
        self.assertEqual(relaxations.before_superblock(large).of(BASE.having(end=1 << 22)).get("end"), str((1 << 22) + 1 - 65536 - 384))
        self.assertTrue(relaxations.no_records().of(BASE).records)
        self.assertEqual(relaxations.misfits().of(BASE).get("misfits"), "8")
        self.assertEqual(relaxations.bad_rows(7, [2048, 4096]).of(BASE).operands, BASE.having(badrows=7, offsets=2048).operands)
        self.assertEqual(relaxations.bad_rows(7, [4096]).of(BASE).get("offsets"), "0,2048")
        self.assertEqual(relaxations.more_offsets([16, 100000]).of(BASE).get("offsets"), "0,16,2048")
        self.assertEqual((relaxations.delays().of(BASE).get("delays"), relaxations.delays().rows), ("16", False))
        self.assertIn(",63,", relaxations.more_origins().of(BASE).get("origins"))
        each = relaxations.offsets_each([0, 2048]).of(BASE)
        self.assertEqual((each.is_each, each.get("window"), relaxations.offsets_each([0]).slow), (True, "8192", True))
        self.assertEqual(relaxations.bare(self.plan).of(BASE).out, (0, 1, 2))
        self.assertEqual(relaxations.group_relaxations(self.plan, True)[0].of(BASE).out, (1,))
        self.assertEqual(relaxations.alone(self.plan, self.plan.groups[1]).of(BASE).out, (0, 2))

    def test_which_go_together(self) -> None:
        found = {relaxation.name: relaxation for relaxation in relaxations.in_order(self.plan, self.asked)}

        def go(*names: str) -> bool:
            return relaxations.go_together([next(relaxation for name, relaxation in found.items() if name.startswith(begin)) for begin in names])
        out, only = "without landmark group", "only landmark group"
        self.assertTrue(go(f"{out} 1", f"{out} 0") and go("half", "8 mismatches") and go("half", "end") and go("end", "delays"))
        for one, other in (("file records", "8 mismatches"), (f"{out} 1", f"{only} 2"), ("badrows", "half"), ("badrows", "end"),
                           ("badrows", "offsets 0"), ("delays", "offsets 0"), ("more offsets", "offsets 0"), (f"{only} 2", f"{only} 0")):
            self.assertFalse(go(one, other), (one, other))

    def test_choices(self) -> None:
        found = relaxations.in_order(self.plan, self.asked)
        self.assertEqual(relaxations.choices(found, 0), [()])
        self.assertEqual(relaxations.choices(found, 1)[-1][0].slow, True)
        both = relaxations.choices(found, 2)
        self.assertTrue(any(relaxation.slow for relaxation in both[-1]) and not any(relaxation.slow for relaxation in both[0]))

    def test_relaxed(self) -> None:
        request = relaxations.relaxed(BASE, [relaxations.misfits(), relaxations.bad_rows(9, [0])])
        self.assertEqual((request.get("misfits"), request.get("badrows")), ("8", "9"))

    def test_step(self) -> None:
        plan = plan_of(XFS, EXT)
        step = Step(Shape("5", 3), (relaxations.group_relaxations(plan, True)[1], relaxations.misfits()), BASE.having(misfits=8))
        self.assertEqual(step.line(), "RAID 5 of 3 disks; relaxed: without landmark group 0 (xfs, 2 landmarks) and 8 mismatches")
        self.assertEqual((step.out, step.lenient, step.has_bad_rows, step.is_bare), (frozenset({0}), True, False, False))
        self.assertEqual(Step(Shape("5", 3)).line(), "RAID 5 of 3 disks; relaxed: nothing")
        self.assertTrue(Step(Shape("5", 3), (relaxations.bare(plan),), BASE).is_bare)
        bad = Step(Shape("5", 3), (), BASE.having(badrows=1))
        self.assertEqual((bad.has_bad_rows, bad.lenient), (True, True))
        self.assertFalse(Step(Shape("10", 4)).lenient)


class OfAsking(unittest.TestCase):
    def test_request(self) -> None:
        request = Asking(evidence(), OPTIONS).request(Shape("5", 4, 1, 2))
        self.assertEqual({name: request.get(name) for name in ("levels", "members", "missing", "foreign", "offsets", "badrows")},
                         {"levels": "5", "members": "4", "missing": "1", "foreign": "2", "offsets": "0,2048", "badrows": ""})

    def test_offsets_with_little_behind_them_come_last(self) -> None:
        asking = Asking(evidence(filled={0: 90000, 2048: 90000 // 16 - 1}), OPTIONS)
        self.assertEqual(asking.request(Shape("5", 3)).get("offsets"), "0")
        self.assertEqual(asking.request(Shape("5", 3), True).get("offsets"), "0,2048")
        bare = dataclasses.replace(asking.evidence, plan=plan_of())
        self.assertEqual(Asking(bare, OPTIONS).request(Shape("5", 3), True).get("offsets"), "0")

    def test_unread_rows(self) -> None:
        asking = Asking(evidence(bad=100), OPTIONS)
        shape = Shape("5", 3)
        self.assertEqual(asking.request(shape).number("badrows"), 100)
        self.assertEqual(asking.request(Shape("0", 3)).number("badrows"), 0)
        self.assertEqual([relaxation.name for relaxation in asking.unread_relaxation(shape, asking.request(shape))], ["badrows 100 from the maps"])
        self.assertEqual(asking.unread_relaxation(shape, BASE.having(badrows=200)), ())
        self.assertEqual(len(asking.unread_relaxation(Shape("10", 4), None)), 1)
        self.assertEqual(asking.unread_relaxation(Shape("0", 4), None), ())
        self.assertEqual(Asking(evidence(bad=30000), OPTIONS).request(shape).number("badrows"), 0)
        few = Asking(evidence(bad=100, filled={0: 90000, 2048: 200}), OPTIONS)
        self.assertEqual((few.tells(2048), few.tells(0)), (False, True))

    def test_first_rows_and_bare(self) -> None:
        asking = Asking(evidence(bad=100), OPTIONS)
        self.assertEqual(asking.first_rows(Shape("5", 3)).operands, asking.request(Shape("5", 3)).having(window=65536, badrows=0).operands)
        self.assertEqual(asking.bare(Shape("5", 3)).out, (0, 1))

    def test_most_bad(self) -> None:
        asking = Asking(evidence(data=((2, 2),)), OPTIONS)
        self.assertEqual(asking.most_bad(Shape("5", 3)), 90000 // 4)
        self.assertEqual(asking.most_bad(Shape("6", 3)), 100000 // 64)
        self.assertEqual(Asking(evidence(filled={0: 16}), OPTIONS).most_bad(Shape("6", 3)), 128)

    def test_relaxations_that_make_sense(self) -> None:
        asking = Asking(evidence(), OPTIONS)

        def image_groups(shape: Shape, every: bool = False, quick: bool = False) -> set[RelaxationKind]:
            return {relaxation.relaxes for relaxation in asking.relaxations(shape, every, quick)}
        self.assertNotIn(RelaxationKind.BAD_ROWS, image_groups(Shape("0", 3)))
        self.assertNotIn(RelaxationKind.WINDOW, image_groups(Shape("0", 3)))
        self.assertIn(RelaxationKind.BAD_ROWS, image_groups(Shape("5", 3)))
        self.assertNotIn(RelaxationKind.BAD_ROWS, image_groups(Shape("6", 4, 1), quick=True))
        self.assertIn(RelaxationKind.BAD_ROWS, image_groups(Shape("6", 4, 1)))
        self.assertFalse(any(it.slow for it in asking.relaxations(Shape("5", 3), quick=True) + asking.relaxations(Shape("5", 2, 0, 1))))
        self.assertTrue(any(relaxation.slow for relaxation in asking.relaxations(Shape("5", 3))))
        self.assertFalse(any(relaxation.kind for relaxation in asking.relaxations(Shape("5", 3))))
        self.assertTrue(any(relaxation.kind for relaxation in Asking(evidence(groups=(NTFS,)), OPTIONS).relaxations(Shape("5", 3))))
        self.assertNotIn(RelaxationKind.ORIGINS, {it.relaxes for it in Asking(evidence(groups=()), OPTIONS).relaxations(Shape("5", 3))})
        # Parity may stay where there is some, also where as many disks are lost as the level bears, and soon tells.
        shapes = Shape("0", 3), Shape("5", 3), Shape("5", 4, 1), Shape("6", 5, 2), Shape("5,6", 4)
        self.assertEqual([RelaxationKind.DELAYS in image_groups(shape, quick=True) for shape in shapes], [False, True, True, True, True])

    def test_unlike_offsets(self) -> None:
        self.assertEqual(Asking(evidence(), OPTIONS).unlike_offsets(), [[2048, 4096], [0, 2048]])
        self.assertEqual(Asking(evidence(offsets=(4096, 2048, 9)), OPTIONS).unlike_offsets(), [[2048, 4096], [4096, 6144]])
        self.assertEqual(Asking(evidence(offsets=(99000,)), OPTIONS).unlike_offsets(), [[96952, 99000]])
        within = [dataclasses.replace(evidence(offsets=(4096,)), start=start) for start in (2048, 2049)]
        self.assertEqual([Asking(it, OPTIONS).unlike_offsets() for it in within], [[[4096, 6144], [2048, 4096]], [[4096, 6144]]])


class Asked(unittest.TestCase):
    """Questions over a program that answers by the plan's text."""

    def questions(self, answer: Reply, known: Evidence | None = None) -> tuple[Questions, Standin, list[str]]:
        """Questions with an answer to each page, and what was late."""
        known = known or evidence(data=((2, 2),))
        standin = Standin(("reraid list", answer), ("reraid survey", put(known.plan.text())))
        late: list[str] = []
        program = Program(standin, known.names, 5, 1)

        def tell(what: str, seconds: int) -> None:
            late.append(f"{what} in {seconds} s")
        return Questions(program, Surveys(standin, known.names), Asking(known, OPTIONS), tell), standin, late

    def plan(self, **values: str | int) -> Plan:
        """A plan with groups."""
        return plan_of(XFS, EXT).having(levels="5", **values)

    def test_asked_once(self) -> None:
        questions, standin, late = self.questions(lambda *_: put("3 5:la:none:8:0:0,1,2\nnext 4 of 9\n"))
        for _ in range(2):
            self.assertEqual(questions.landmarks_allow(self.plan()).text, "5:la:none:8:0:0,1,2")
        self.assertTrue(questions.parity_allows(self.plan(misfits=8), Shape("5", 3)).there)
        self.assertTrue(questions.parity_allows(self.plan(misfits=0), Shape("5", 3)).there)
        self.assertEqual((standin.count("reraid list"), late), (2, []))
        self.assertNotIn("group", standin.asked[1][1])
        self.assertIn("origins 0\n", standin.asked[1][1])
        self.assertIn("window 1\n", standin.asked[0][1])

    def test_late_counts_as_allowed(self) -> None:
        questions, _, late = self.questions(lambda *_: Answer(None))
        self.assertTrue(questions.may_list(self.plan(), Shape("6", 3)))
        self.assertEqual(late, ["landmarks allow in 5 s", "parity allows in 5 s"])
        # What was put before its time was up is no first set: an earlier one may pass.
        questions, _, _ = self.questions(lambda *_: Answer(None, b"3 5:la:none:8:0:0,1,2\n"))
        self.assertEqual(questions.first("a", "x"), First("", True))

    def test_time_of_a_question(self) -> None:
        """It is a part of that of a step, and five seconds at least, and no more than that of the step that is at work."""
        for seconds, work, part in ((60, 60, 10), (60, 5, 5), (9, 9, 5), (3, 3, 3)):
            questions, standin, late = self.questions(lambda *_: Answer(None))
            questions.program.seconds = work
            setattr(questions.asking.shapes, "options", dataclasses.replace(OPTIONS, seconds=seconds))
            with mock.patch.object(standin, "run", wraps=standin.run) as run:
                questions.first("a", "x")
                questions.allowed_by_landmarks(self.plan())
                questions.most_fits(self.plan(), 1)
            self.assertEqual([call.args[2] for call in run.call_args_list], [part] * 3)
            self.assertEqual(late, [f"x in {part} s", f"enough landmarks allow in {part} s"])
        self.assertEqual(dataclasses.replace(OPTIONS, question=7).question_seconds, 7)

    def test_passed_over_where_landmarks_or_parity_allow_none(self) -> None:
        def answer(none: str) -> Reply:
            some = "1 5:la:none:8:0:0,1,2\nnext 2 of 9\n"
            return lambda _, text: put("next 9 of 9\n" if ("group" in text) == (none == "landmarks") else some)
        for none in ("landmarks", "parity"):
            questions, _, _ = self.questions(answer(none))
            self.assertFalse(questions.may_list(self.plan(), Shape("6", 3)))
        questions, standin, _ = self.questions(answer("parity"))
        questions.tied = True
        self.assertTrue(questions.may_list(self.plan(), Shape("6", 3)))
        self.assertEqual(standin.count("reraid list"), 1)
        questions, _, _ = self.questions(answer("parity"))
        self.assertTrue(questions.may_list(self.plan(), Shape("0", 3)))
        self.assertTrue(questions.may_list(self.plan(badrows=9), Shape("5", 3)))

    def test_climb(self) -> None:
        def answer(words: list[str], text: str) -> Answer:
            if f"from={LAST}" in words:
                return put("", 6, "reraid: cursor 1 is past 9")
            rows = int(text.split("badrows ")[1].split()[0])
            return put(("4 5:la:none:8:0:0,1,2\n" if rows >= 500 else "") + "next 9 of 9\n")
        questions, standin, _ = self.questions(answer)
        self.assertEqual(questions.climb(self.plan(badrows=9999)).bad_rows, 512)
        asked = [text.split("badrows ")[1].split()[0] for words, text in standin.asked if "from=0" in words]
        self.assertEqual(asked, ["1", "128", "512"])
        self.assertEqual(self.questions(answer)[0].climb(self.plan(badrows=200)).bad_rows, 200)

    def test_climb_of_many_sets(self) -> None:
        """The more sets landmarks allow, the fewer rows may be bad, beside those that maps tell of: 300 million rows of 300,000 sets; 128 at
        least."""
        for total, most in ((1_200_000, 1000), (1_200_000_000, 128)):
            def answer(words: list[str], text: str, total: int = total) -> Answer:
                if f"from={LAST}" in words:
                    return put("", 6, "reraid: cursor 1 is past 9")
                return put(f"3 5:la:none:8:0:0,1,2\nnext 4 of {total}\n" if "window 1\n" in text else "next 9 of 9\n")
            questions, standin, _ = self.questions(answer, evidence(data=((2, 2),), bad=9))
            self.assertEqual(questions.climb(self.plan(badrows=9999)).bad_rows, most + 9)
            asked = [int(text.split("badrows ")[1].split()[0]) for words, text in standin.asked if "from=0" in words and "window 1\n" not in text]
            self.assertEqual(asked, [rows for rows in (137, 521) if rows < most + 9] + [most + 9])

    def test_climb_that_is_late(self) -> None:
        """Where a listing does not come to its end no more rows are asked for."""
        def answer(words: list[str], text: str) -> Answer:
            if f"from={LAST}" in words:
                return put("", 6, "reraid: cursor 1 is past 9")
            return put("next 9 of 9\n") if "window 1\n" in text else Answer(None)
        questions, _, _ = self.questions(answer)
        self.assertEqual(questions.climb(self.plan(badrows=9999)).bad_rows, 128)

    def test_smallest_offset_that_parity_allows(self) -> None:
        def answer(_words: list[str], text: str) -> Answer:
            offsets = text.split("offsets ")[1].split("\n")[0].split(",")
            return put(f"1 5:la:none:8:{offsets[-1]}:0,1,2\nnext 2 of 9\n")
        questions, _, _ = self.questions(answer)
        asking = questions.asking
        # Of a shape that hints speak for it asks on, for smaller ones; of another it takes the first.
        self.assertEqual(questions.first_allowed(asking.request(Shape("5", 3)), Shape("5", 3)), 0)
        self.assertEqual(questions.first_allowed(asking.request(Shape("6", 3)), Shape("6", 3)), 2048)
        none, _, _ = self.questions(lambda *_: put("next 9 of 9\n"))
        self.assertIsNone(none.first_allowed(asking.request(Shape("5", 3)), Shape("5", 3)))

    def test_needing(self) -> None:
        allows, _, _ = self.questions(lambda *_: put("1 5:la:none:8:0:0,1,2\nnext 2 of 9\n"))
        refuses, _, _ = self.questions(lambda *_: put("next 9 of 9\n"))
        end = relaxations.before_superblock(plan_of(XFS))
        for questions, found in ((allows, []), (refuses, [0, 2048])):
            request = end.of(questions.asking.request(Shape("5", 3)))
            self.assertEqual(questions.needing(Shape("5", 3), [end], request), found)
        half = relaxations.half_window(plan_of(XFS))
        self.assertEqual(allows.needing(Shape("5", 3), [half], half.of(allows.asking.request(Shape("5", 3)))), [0, 2048])
        self.assertEqual((allows.is_unsound(Shape("5", 3)), refuses.is_unsound(Shape("5", 3))), (False, True))

    def test_what_parity_allows_with_less(self) -> None:
        """Where each image has an offset of its own any set that parity allows with less is enough; where it allows none all offsets stay, also those
        that are none of the hints'."""
        end = relaxations.before_superblock(plan_of(XFS))
        for offsets, mode, first, wanted in (((0, 2048), "common", 2048, [0]), ((0, 2048), "each", 2048, []), ((), "common", None, [0, 2048]),
                                             ((), "common", 2048, []), ((), "each", None, [0, 2048])):
            questions, _, _ = self.questions(lambda *_: put(""), evidence(data=((2, 2),), offsets=offsets))
            request = end.of(questions.asking.request(Shape("5", 3))).having(mode=mode)
            with mock.patch.multiple(questions, first_allowed=lambda *_, first=first: first, far_before=lambda offset, *_: offset == 0):
                self.assertEqual(questions.needing(Shape("5", 3), [end], request), wanted)

    def test_unsound_by_the_offsets_that_are_asked_for(self) -> None:
        """An offset of the hints behind which little is filled is not asked for, and says nothing."""
        for filled, unsound in ((90000, True), (1, False)):
            questions, _, _ = self.questions(lambda *_: put(""), evidence(data=((2, 2),), offsets=(0, 2048), filled={0: filled, 2048: 90000}))
            with mock.patch.multiple(questions, first_allowed=lambda *_: 4096, far_before=lambda offset, *_: offset == 0):
                self.assertEqual(questions.is_unsound(Shape("5", 3)), unsound)

    def test_bad_rows_that_maps_do_not_tell_of(self) -> None:
        """Where hints speak for a shape, there are landmarks, and more rows may be bad than the maps say."""
        questions, _, _ = self.questions(lambda *_: put(""), evidence(data=((2, 2),), bad=9))
        told = [questions.has_bad_rows(plan, shape) for plan, shape in (
            (self.plan(badrows=10), Shape("5", 3)), (self.plan(badrows=9), Shape("5", 3)), (self.plan(badrows=10), Shape("6", 3)),
            (self.plan(badrows=10).bare(), Shape("5", 3)))]
        self.assertEqual(told, [True, False, False, False])

    def test_landmarks_are_asked_only_where_there_are_some(self) -> None:
        questions, standin, _ = self.questions(lambda *_: put("1 5:la:none:8:0:0,1,2\nnext 2 of 9\n"))
        self.assertTrue(questions.may_list(self.plan().bare(), Shape("5", 3)))
        self.assertEqual([text.count("badrows 0\n") for _, text in standin.asked], [1])

    def test_how_many_sets_landmarks_allow(self) -> None:
        """By the part of the plan that a page had room for: 2 sets in 4 of 40; at least one, and asked once."""
        for page, count in (("1 a\n3 5:la:none:8:0:0,1,2\n4 5:ls:none:8:0:0,1,2\nnext 4 of 40\n", 20), ("next 40 of 40\n", 1)):
            questions, standin, _ = self.questions(lambda *_, page=page: put(page))
            self.assertEqual([questions.allowed_by_landmarks(self.plan()) for _ in range(2)], [count, count])
            self.assertEqual(standin.count("reraid list"), 1)

    def test_late_and_each_its_own(self) -> None:
        """Where time was up, or each image has an offset of its own, the smallest offset may be the one."""
        late, _, _ = self.questions(lambda *_: Answer(None))
        request = late.asking.request(Shape("6", 3))
        self.assertEqual(late.first_allowed(request, Shape("6", 3)), 0)
        each, _, _ = self.questions(lambda *_: put("1 6:la:by-data:8:2048+0+0:0,1,2\nnext 2 of 9\n"))
        self.assertEqual([each.first_allowed(it, Shape("6", 3)) for it in (request, request.having(mode="each"))], [2048, 0])

    def test_bad_rows_are_no_less_where_hints_speak(self) -> None:
        """Parity that holds once many rows may be bad says nothing against relaxing the end besides; of another shape it is enough by itself."""
        def answer(_words: list[str], text: str) -> Answer:
            return put("next 9 of 9\n" if "badrows 0\n" in text else "1 5:la:none:8:0:0,1,2\nnext 2 of 9\n")
        questions, _, _ = self.questions(answer)
        chosen = [relaxations.bad_rows(500, (0, 2048)), relaxations.before_superblock(plan_of(XFS))]
        for shape, offsets in ((Shape("5", 3), [0, 2048]), (Shape("6", 3), [])):
            self.assertEqual(questions.needing(shape, chosen, relaxations.relaxed(questions.asking.request(shape), chosen)), offsets)

    def test_most_fits_of_a_group(self) -> None:
        """Found by halving: the most with which a set passes, with bounds of its own for that group alone."""
        marks = [("super", 0, 2048 + number, "every:49152:4:0") for number in range(9)]
        plan = plan_of(XFS, ("xfs", marks))
        for fits, wanted in ((0, None), (1, 1), (5, 5), (8, 8), (9, 9)):
            def answer(_words: list[str], text: str, fits: int = fits) -> Answer:
                self.assertEqual(text.split("\n")[:2], ["reraid-plan 3", "mode common"])
                misfits, least = text.split("bounds ")[1].split("\n")[0].split()
                self.assertEqual((misfits, text.count("bounds"), text.index("bounds") > text.index("group xfs")), ("9", 1, True))
                return put(("3 5:la:none:8:0:0,1,2\n" if int(least) <= fits else "") + "next 9 of 9\n")
            questions, standin, _ = self.questions(answer)
            self.assertEqual(questions.most_fits(plan, 1), wanted)
            self.assertLessEqual(standin.count("reraid list"), 4)
        self.assertIsNone(self.questions(lambda *_: Answer(None))[0].most_fits(plan, 1))

    def bounded(self, *counts: int) -> tuple[Questions, Standin, Plan]:
        """Questions over a group of nine marks, of which so many fit at each of these sets."""
        plan = plan_of(("xfs", [("super", 0, 2048 + number, "every:49152:4:0") for number in range(9)]))

        def answer(words: list[str], text: str) -> Answer:
            least = int(text.split("bounds ")[1].split()[1])
            sets = [f"{number} 5:la:none:8:{number}:0,1,2\n" for number, fits in enumerate(counts) if fits >= least]
            size = next(int(word[5:]) for word in words if word.startswith("size="))
            return put("".join(sets[:size]) + "next 9 of 9\n")
        questions, standin, _ = self.questions(answer)
        return questions, standin, plan

    def test_most_fits_beyond_some_sets(self) -> None:
        """With how many more sets pass than so many, of which no more lines are asked for than tell it."""
        for beyond, wanted in ((0, 8), (1, 7), (2, 7), (3, 2), (4, None)):
            questions, standin, plan = self.bounded(8, 7, 7, 2)
            self.assertEqual(questions.most_fits(plan, 0, beyond=beyond), wanted)
            self.assertTrue(all(f"size={beyond + 1}" in words for words, _ in standin.asked))

    def test_most_fits_above_another_number(self) -> None:
        """Where no set has more one question tells that, and none where there are no more marks."""
        for above, wanted, count in ((8, None, 1), (7, 8, 2), (6, 8, 3), (1, 8, 4), (9, None, 0)):
            questions, standin, plan = self.bounded(8, 3)
            self.assertEqual((questions.most_fits(plan, 0, above), standin.count("reraid list")), (wanted, count))
        questions, standin, plan = self.bounded(9)
        self.assertEqual(questions.most_fits(plan, 0, 8), 9)

    def test_most_fits_in_the_time_of_a_question(self) -> None:
        """All of its questions together take no longer than one."""
        questions, standin, plan = self.bounded(8)
        with mock.patch("reraid_try.policy.questions.time.monotonic", side_effect=[100, 104, 106]):
            self.assertIsNone(questions.most_fits(plan, 0))
        self.assertEqual(standin.count("reraid list"), 1)

    def test_what_is_refused_asks_for_nothing_less(self) -> None:
        """Where a question is refused all offsets stay."""
        questions, _, _ = self.questions(lambda *_: put("", 5, "reraid: the product has more than 18446744073709551615 sets"))
        end = relaxations.before_superblock(plan_of(XFS))
        self.assertEqual(questions.needing(Shape("5", 3), [end], end.of(questions.asking.request(Shape("5", 3)))), [0, 2048])

    def test_far_before(self) -> None:
        questions, _, _ = self.questions(put(""), evidence(data=((2, 2),), filled={0: 90000, 2048: 50000}))  # type: ignore[arg-type]
        self.assertTrue(questions.far_before(0, 2048, Shape("5", 3)))
        self.assertFalse(questions.far_before(0, 2048, Shape("6", 3)))
        self.assertFalse(questions.far_before(2048, 0, Shape("5", 3)))
        with mock.patch.object(questions.asking, "most_bad", return_value=questions.asking.evidence.filling.behind(0, 2048)):
            self.assertFalse(questions.far_before(0, 2048, Shape("5", 3)))


class Scopes(InFolder):
    def scope(self, answer: Reply, groups: tuple[Marked, ...] = (XFS, EXT), pairs: Pairs | None = None) -> tuple[Scope, Standin]:
        """A scope over three images of which reraid says this."""
        names = [self.file(f"{k}.img", b"x" * 8000 * SECTOR) for k in range(3)]
        text = plan_of(*groups, lengths=(8000,) * 3).text()
        standin = Standin(("reraid survey", put(text)), ("reraid list", answer))
        seen = [Image(name, k, 8000) for k, name in enumerate(names)]
        return Scope(Options(tuple(names)), standin, seen, nobody, pairs), standin

    def test_what_is_asked_in_each_step(self) -> None:
        """What is known stands in each request, also in those of relaxations."""
        scope, standin = self.scope(lambda *_: put("next 9 of 9\n"))
        known = Scope(Options(scope.program.names), standin, scope.evidence.images, nobody, asked={"chunks": "64", "window": 500})
        for count in (0, 1):
            _, request = next(known.ways(Shape("0", 3), Stage((), count)))
            self.assertEqual((request.get("chunks"), request.get("window")), ("64", "500"))

    def test_listed_once(self) -> None:
        scope, _ = self.scope(lambda *_: put("next 9 of 9\n"))
        request = scope.asking.request(Shape("5", 3))
        self.assertIsNotNone(scope.to_list(Shape("5", 3), request))
        self.assertIsNone(scope.to_list(Shape("5", 3), request))

    def test_nothing_that_rules_sets_out(self) -> None:
        scope, _ = self.scope(lambda *_: put(""))
        bare = scope.asking.bare(Shape("5,6", 4, 1))
        self.assertIsNone(scope.to_list(Shape("5,6", 4, 1), bare))
        last = scope.to_list(Shape("5,6", 4, 1), bare, last=True)
        self.assertEqual(last and last.values["levels"], "5,6")
        none, _ = self.scope(lambda *_: put(""), ())
        self.assertIsNone(none.to_list(Shape("0", 3), none.asking.request(Shape("0", 3))))
        plan = none.to_list(Shape("5,6", 4, 1), none.asking.request(Shape("5,6", 4, 1)))
        self.assertEqual(plan and plan.values["levels"], "6")

    def test_a_step_is_neither_hasty_nor_asks_for_all(self) -> None:
        """A stage has all relaxations but those for what is mostly wrong, where nothing else is said."""
        stage = Stage((Shape("5", 4, 1),), 1)
        scope, _ = self.scope(lambda *_: put("next 9 of 9\n"))
        names = [relaxation.name for relaxation in scope.asking.relaxations(stage.shapes[0], stage.every, stage.quick)]
        self.assertEqual((any("each image its own" in name for name in names), stage.every), (True, False))
        self.assertFalse(any("each image its own" in relaxation.name for relaxation in scope.asking.relaxations(stage.shapes[0], quick=True)))

    def test_passed_over_is_counted(self) -> None:
        scope, _ = self.scope(lambda *_: put("next 9 of 9\n"))
        plan = scope.to_list(Shape("5", 3), scope.asking.request(Shape("5", 3)))
        assert plan
        self.assertEqual((scope.may_list(plan, Shape("5", 3)), scope.passed_over), (False, 1))

    def test_ways(self) -> None:
        scope, _ = self.scope(lambda *_: put("next 9 of 9\n"))
        self.assertEqual([chosen for chosen, _ in scope.ways(Shape("0", 3), Stage((), 0))], [()])
        names = [chosen[0].name for chosen, _ in scope.ways(Shape("5", 3), Stage((), 1))]
        self.assertIn("end before a superblock", names)
        allows, _ = self.scope(lambda *_: put("1 5:la:none:8:0:0,1,2\nnext 2 of 9\n"))
        names = [chosen[0].name for chosen, _ in allows.ways(Shape("5", 3), Stage((), 1))]
        self.assertNotIn("end before a superblock", names)
        self.assertIn("8 mismatches", names)
        self.assertIn("end before a superblock", [chosen[0].name for chosen, _ in allows.ways(Shape("5", 3), Stage((), 1, every=True))])

    def test_ways_of_one_kind(self) -> None:
        """Of parity that stays alone: one way where there is parity, at any offset, and none else. Of what NTFS needs: where there is one."""
        scope, _ = self.scope(lambda *_: put("next 9 of 9\n"))
        none: list[str] = []
        for shape, wanted in ((Shape("5", 4, 1), ["delays 16"]), (Shape("6", 3), ["delays 16"]), (Shape("0", 3), none)):
            with mock.patch.object(scope.asking, "request", wraps=scope.asking.request) as asked:
                found = list(scope.ways(shape, delayed(shape)))
            self.assertEqual([relaxation.name for chosen, _ in found for relaxation in chosen], wanted)
            self.assertEqual([request.get("delays") for _, request in found], ["16"] * len(wanted))
            self.assertEqual(asked.call_args_list[0][0], (shape, True))
        for plan, wanted in ((plan_of(NTFS), ["file records of number 0 left out"]), (scope.plan, none)):
            with mock.patch.object(scope.asking, "evidence", dataclasses.replace(scope.evidence, plan=plan)):
                found = list(scope.ways(Shape("0", 3), of_kinds(Shape("0", 3))))
            self.assertEqual([relaxation.name for chosen, _ in found for relaxation in chosen], wanted)

    def test_ways_without_parity(self) -> None:
        """Where parity tells nothing it is not asked which offsets need a relaxation."""
        scope, standin = self.scope(lambda *_: put("next 9 of 9\n"))
        found = [chosen[0].relaxes for chosen, _ in scope.ways(Shape("0", 3), Stage((), 1))]
        self.assertEqual((RelaxationKind.END in found, standin.count("reraid list")), (True, 0))

    def test_listing_is_told(self) -> None:
        scope, standin = self.scope(lambda words, _: put("", 6, "reraid: cursor 1 is past 0") if f"from={LAST}" in words else put("next 9 of 9\n"))
        request = dataclasses.replace(scope.asking.request(Shape("6", 3)), out=(1,))
        plan = scope.to_list(Shape("6", 3), request)
        assert plan
        self.assertEqual(scope.listing(Shape("6", 3), request, plan).total, 0)
        self.assertRegex(standin.told[0], r"^reraid survey .* \| awk .*n==2.* \| reraid list size=20000 -- ")

    def test_listed_again_where_its_time_was_up(self) -> None:
        def answer(words: list[str], _: str) -> Answer:
            return put("", 6, "reraid: cursor 1 is past 9") if f"from={LAST}" in words else put("1 5:la:none:8:0:0,1,2\n", None)
        for most, again in ((20000, True), (1, False)):
            scope, _ = self.scope(answer)
            shape, request = Shape("5", 3), scope.asking.request(Shape("5", 3))
            plan = scope.to_list(shape, request)
            assert plan
            with mock.patch("reraid_try.policy.scope.MAX_LINES", most):
                self.assertFalse(scope.listing(shape, request, plan).whole)
            self.assertEqual((scope.cut_short, scope.to_list(shape, request)), ({plan.text()} if again else set(), None))
            scope.ask_again()
            self.assertEqual((scope.cut_short, scope.to_list(shape, request)), (set(), plan if again else None))

    def test_offsets_with_little_behind_them(self) -> None:
        """They are asked for with nothing relaxed, and where every one is."""
        scope, _ = self.scope(lambda *_: put("next 9 of 9\n"))
        for count, every, wanted in ((0, False, True), (1, False, False), (1, True, True)):
            with mock.patch.object(scope.asking, "request", wraps=scope.asking.request) as asked:
                next(scope.ways(Shape("0", 3), Stage((), count, every)))
            self.assertEqual(asked.call_args_list[0][0], (Shape("0", 3), wanted))

    def test_zeros_are_asked_of_many_sets(self) -> None:
        """Of more than one, once, and those alone are left that they allow; of one where it is known already."""
        many = [f"5:ls:none:8:{8 * number}:0,1,2" for number in range(9)]
        for count, known, allowed, asked in ((1, False, 1, 0), (2, False, 1, 1), (9, False, 1, 1), (2, True, 1, 0), (1, True, 1, 0), (0, True, 0, 0)):
            listed = "".join(f"{number} {text}\n" for number, text in enumerate(many[:count]))

            def answer(words: list[str], _: str, listed: str = listed) -> Answer:
                return put("", 6, "reraid: cursor 1 is past 84") if f"from={LAST}" in words else put(listed + "next 84 of 84\n")
            scope, _ = self.scope(answer)
            places = mock.Mock(allowed=lambda words: [it.offset == 0 for it in words])
            scope.ask_places = ask = mock.Mock(return_value=places)
            scope.places = {Shape("5", 3): places} if known else {}
            for _ in range(2):
                found = scope.listing(Shape("5", 3), BASE, scope.plan)
                self.assertEqual(len(found.sets), allowed)
            self.assertEqual(ask.call_args_list, [mock.call(Shape("5", 3))] * asked)
            left_out = count - allowed
            self.assertEqual(found.note, f"{left_out} more contradict rows of zeros" if left_out else "")

    def test_zeros_beside_what_was_late(self) -> None:
        """Both are said of a listing."""
        def answer(words: list[str], _: str) -> Answer:
            late = Answer(None, b"1 5:la:none:8:0:0,1,2\n2 5:la:none:8:8:0,1,2\n")
            return put("", 6, "reraid: cursor 1 is past 84") if f"from={LAST}" in words else late
        scope, _ = self.scope(answer)
        scope.places = {Shape("5", 3): mock.Mock(allowed=lambda words: [it.offset == 0 for it in words])}
        note = "timed out after 60 s, before all were tested; 1 more contradict rows of zeros"
        self.assertEqual(scope.listing(Shape("5", 3), BASE, scope.plan).note, note)

    def test_words(self) -> None:
        scope, _ = self.scope(lambda *_: put(""))
        images = tuple(dataclasses.replace(it, number=it.number + 4) for it in scope.evidence.images)
        scope.evidence = dataclasses.replace(scope.evidence, images=images)
        self.assertEqual([scope.word(text).text for text in ("5:la:none:8:7+0+7:2,0,1", "5:la:none:8:7:2,-,1")],
                         ["5:la:none:8:7+0+7:2,0,1", "5:la:none:8:7:6,-,5"])
        scope, _ = self.scope(lambda *_: put(""))
        self.assertEqual(scope.word("5:la:none:8:7+7+7:0,1,2").text, "5:la:none:8:7:0,1,2")
        pairs, _ = self.scope(lambda *_: put(""), pairs=Pairs(((5,), (), (4,)), (2048,)))
        self.assertEqual(pairs.word("0:plain:none:8:2048:2,0,1").text, "near2:8:2048:2,4,0,5,1,-")
        threes, _ = self.scope(lambda *_: put(""), pairs=Pairs(((5, 6), (), (4,)), (2048,), copies=3))
        self.assertEqual(threes.word("0:plain:none:8:2048:2,0,1").text, "near3:8:2048:2,4,-,0,5,6,1,-,-")

    def test_checked_by_all_groups(self) -> None:
        scope, _ = self.scope(lambda *_: put(""))
        plan = scope.checked_by(Step(Shape("5", 3), (), scope.asking.bare(Shape("5", 3))))
        self.assertEqual(plan and len(plan.groups), 2)
        self.assertIsNone(scope.checked_by(Step(Shape("10", 4))))

    def test_checked_over_the_whole_window(self) -> None:
        """What was listed by half of the window is checked over all of it."""
        scope, _ = self.scope(lambda *_: put(""))
        half = relaxations.half_window(scope.plan)
        request = half.of(scope.asking.request(Shape("5", 3)))
        plan = scope.checked_by(Step(Shape("5", 3), (half,), request))
        self.assertEqual((2 * request.number("window"), plan and int(plan.values["window"])), (scope.evidence.window, scope.evidence.window))

    def test_mirrors(self) -> None:
        scope, _ = self.scope(lambda *_: put(""))
        standin = Standin(("reraid mirrors", put("5 near2:8:2048:0,1,2,-\n7 near2:8:4096:1,0,-,2\nnext 9 of 9\n")))
        scope.program.commands = standin
        listing = Mirrors(scope, standin).listing(TWO)
        self.assertEqual((len(listing.sets), listing.total, listing.whole), (2, 9, True))
        self.assertEqual(standin.count("reraid mirrors"), 1)
        found = groupings(listing.sets)
        self.assertEqual([(it.groups, it.offsets) for it in found], [(((0, 1), (2,)), (2048, 4096))])
        images = [Image("a", 0, 9), Image("b", 1, 9, like=0), Image("c", 2, 9)]
        self.assertEqual(found[0].line(images), "  pairs 0=1 image 2 without a copy: a RAID 0 of 2 disks")
        self.assertEqual(found[0].partners(images), Pairs(((1,), ()), (2048, 4096), True))
        self.assertFalse(found[0].partners([Image("a", 0, 9), Image("b", 1, 9), Image("c", 2, 9)]).same)
        self.assertEqual((there((None, 3)), there((4, 2)), there((None, None))), ((3,), (2, 4), ()))

    def test_groups_of_more_copies(self) -> None:
        found = groupings([Ranked(0, "near3:8:0:4,0,2,-,1,3"), Ranked(1, "near3:8:0:3,1,-,0,2,4"), Ranked(2, "near2:8:0:0,1,2,3,4,-")])
        self.assertEqual([(it.groups, it.copies) for it in found], [(((0, 2, 4), (1, 3)), 3), (((0, 1), (2, 3), (4,)), 2)])
        images = [Image(str(number), number, 9) for number in range(5)]
        self.assertEqual(found[0].line(images), "  copies 0=2=4 1=3: a RAID 0 of 2 disks")
        self.assertEqual(found[0].partners(images), Pairs(((2, 4), (3,)), (0,), False, 3))
        texts = "near3:8:0:0,1,2,3,4,-", "near3:8:0:0,1,2", "near4:8:0:0,1,2,3,4,5", "far2:8:0:0,1"
        self.assertEqual([is_striped(Ranked(0, text)) for text in texts], [True, False, False, False])

    def test_what_is_asked_of_copies_side_by_side(self) -> None:
        """Of three images: what lacks no member first. Of four members with two copies and two missing nothing would be compared."""
        asked = [(it.layouts[0].text, it.members, it.missing) for it in mirrors.near(3)]
        self.assertEqual(asked, [("near2", 3, 0), ("near3", 3, 0), ("near2", 4, 1), ("near3", 4, 1), ("near4", 4, 1), ("near2", 5, 2),
                                 ("near3", 5, 2), ("near4", 5, 2), ("near3", 6, 3), ("near4", 6, 3)])
        self.assertEqual([it.layouts[0].text for it in mirrors.near(4, 4)][:3], ["near4", "near2", "near3"])
        # Two of three images are the same: of two copies over three members none would be, of three all.
        alike = [(it.layouts[0].text, it.members, it.missing) for it in mirrors.near(3, 2)]
        self.assertEqual((alike[:4], sorted(alike)), ([("near2", 4, 1), ("near3", 6, 3), ("near4", 6, 3), ("near2", 3, 0)], sorted(asked)))
        self.assertEqual([(it.layouts[0].text, it.members) for it in mirrors.near(2)],
                         [("near2", 2), ("near2", 3), ("near3", 3), ("near3", 4), ("near4", 4), ("near3", 5), ("near4", 5)])

    def test_what_is_asked_of_copies_that_lie_apart(self) -> None:
        """A distance that is a chunk is one of layout offset, or far; one that is none is far, by where the images end, and then by itself."""
        def told(distance: int) -> list[tuple[str, int, int, tuple[int, ...], int | None, tuple[int, ...]]]:
            return [(it.line(), it.members, it.missing, it.chunks, it.end, it.offsets) for it in mirrors.moved(3, distance, evidence())]
        self.assertEqual(told(128)[0], ("copies offset2,offset3", 3, 0, (128,), None, ()))
        self.assertEqual(told(128)[1], ("copies far2,far3", 3, 0, (128, 64, 32, 16, 8), None, ()))
        # The members end at sector 100,000; behind sector 2048 three times 32,672 sectors are more.
        self.assertEqual(told(32672)[:4], [("copies far2,far3", 3, 0, (32, 16, 8), None, ()), ("copies far2", 3, 0, (32, 16, 8), 65344, (0,)),
                                           ("copies far2", 3, 0, (32, 16, 8), 67392, (2048,)), ("copies far3", 3, 0, (32, 16, 8), 98016, (0,))])
        self.assertEqual(told(32672)[4], ("copies far2,far3,far4", 4, 1, (32, 16, 8), None, ()))
        self.assertEqual(told(32673), [])

    def test_far_copies_end_where_their_distance_is_told(self) -> None:
        scope, _ = self.scope(lambda *_: put(""))
        standin = Standin(("reraid mirrors", put("next 9 of 9\n")))
        scope.program.commands = standin
        Mirrors(scope, standin).listing(Copied((Copying("far", 2),), 3, 0, (8,), 67392, (2048,)))
        words = standin.asked[0][0]
        self.assertTrue({"layouts=far2", "end=67392", "offsets=2048", "chunks=8"} <= set(words))

    def test_mirrors_that_were_late(self) -> None:
        scope, _ = self.scope(lambda *_: put(""))
        scope.program.commands = Standin(("reraid mirrors", put("5 near2:8:2048:0,1,2,-\n", None)))
        listing = Mirrors(scope, scope.program.commands).listing(TWO)
        self.assertEqual((len(listing.sets), listing.whole, listing.note), (1, False, "timed out after 60 s, before all were tested"))

    def test_pairings_of_none(self) -> None:
        self.assertEqual(groupings([Ranked(0, read_word("near2:8:0:0,1").text)])[0].groups, ((0, 1),))


if __name__ == "__main__":
    unittest.main()
