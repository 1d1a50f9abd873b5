"""The nearest sets of a scope in which nothing passes."""

import types
import unittest
from collections.abc import Sequence
from typing import cast
from unittest import mock

from reraid_try.calls.commands import Answer
from reraid_try.calls.formats import Checked, Held
from reraid_try.calls.plans import Plan
from reraid_try.calls.surveys import Request
from reraid_try.checks.rows import Bounds, Near, Turned
from reraid_try.evidence.images import Image
from reraid_try.policy import relaxations
from reraid_try.policy.shapes import Shape, Tiers
from reraid_try.report.diagnosis import Diagnosis
from tests.standin import Reply, Standin, Told, plan_of, put
from tests.test_candidates import SET, OfPlan, scope_of
from tests.test_policy import BASE, EXT, XFS


def with_five(_: list[str], text: str) -> Answer:
    """A set passes where five rows may be unsound, and by parity alone."""
    bad = int(text.split("badrows ")[1].split()[0])
    return put((f"1 {SET}\n" if bad >= 5 or text.count("group ") < 2 else "") + "next 9 of 9\n")


class Nearest(unittest.TestCase):
    def test_least_and_fewest(self) -> None:
        def listed(_: list[str], text: str) -> Answer:
            misfits, bad = (int(text.split(f"{name} ")[1].split()[0]) for name in ("misfits", "badrows"))
            return put((f"1 {SET}\n" if misfits >= 5 and bad >= 100 else "") + "next 9 of 9\n")

        def check(_: list[str], _text: str) -> Answer:
            return put("unsound 100 of 1000\nfail\n")
        found = Diagnosis(scope_of(("reraid list", listed), ("reraid check", check)), Told(), 60, 1)
        plan = plan_of(XFS)
        self.assertEqual(found.least(plan.having(badrows=100), 12), 5)
        self.assertIsNone(found.least(plan.having(badrows=100), 5))
        self.assertEqual(found.fewest(plan.having(misfits=9), 8000), 100)
        self.assertIsNone(found.fewest(plan, 8000))
        found.until = 0
        self.assertEqual(found.sets(plan.having(misfits=9, badrows=999), 5), [])

    def test_none_at_all(self) -> None:
        """A set that passes with no misfit, or with no unsound row, is known to."""
        passes = put(f"1 {SET}\nnext 9 of 9\n")
        found = Diagnosis(scope_of(("reraid list", passes), ("reraid check", put("unsound 7 of 1000\nfail\n"))), Told(), 60, 1)
        self.assertEqual([found.least(plan_of(XFS), below) for below in (0, 1, 2)], [None, 0, 0])
        self.assertEqual([found.fewest(plan_of(XFS), most) for most in (-1, 0)], [None, 0])

    def of_scope(self, listed: Reply, *shapes: Shape, groups: bool = True, unsound: bool = True,
                 check: Reply = lambda *_: put("unsound 5 of 1000\nfail\n")) -> tuple[Diagnosis, Standin, Told]:
        """A diagnosis of a scope over these shapes, which may have landmarks, of which `reraid` lists this, and mostly says 5 of 1,000 rows."""
        scope, report = scope_of(("reraid list", listed), ("reraid check", check)), Told()
        plan = plan_of(XFS, EXT) if groups else plan_of()

        def made(request: Request) -> Plan:
            return plan.without(request.out).having(misfits=request.number("misfits"), window=request.number("window", 100000))
        told = types.SimpleNamespace(tiers=lambda: Tiers(shapes), speak_for=lambda shape: shape.members == 3)
        asking = types.SimpleNamespace(request=lambda _: BASE, relaxations=lambda _: [relaxations.half_window(plan), relaxations.misfits()])
        for name, value in (("surveys", types.SimpleNamespace(plan=made)), ("asking", asking), ("plan", plan), ("shapes", told),
                            ("questions", types.SimpleNamespace(is_unsound=lambda _: unsound)),
                            ("evidence", types.SimpleNamespace(images=[Image(f"i{k}", k, 8000) for k in range(4)], end=1000))):
            setattr(scope, name, value)
        return Diagnosis(scope, report, 60, 1), cast(OfPlan, scope).standin, report

    def test_by_rows(self) -> None:
        """What landmarks allow with nothing relaxed, and with what leaves out landmarks or lets them contradict, and nothing else; only where there
        are landmarks."""
        found, standin, _ = self.of_scope(with_five, Shape("5", 3))
        near, = found.by_rows(found.shapes())
        self.assertEqual((near.word, near.told.unsound, near.misfits), (SET, 5, 0))
        asked = [text for words, text in standin.asked if words[1] == "list"]
        self.assertEqual({text.split("misfits ")[1].split()[0] for text in asked}, {"0", "8"})
        self.assertEqual({text.split("window ")[1].split()[0] for text in asked}, {"100000"})
        found, standin, _ = self.of_scope(with_five, Shape("5", 3), groups=False)
        self.assertEqual((found.by_rows(found.shapes()), standin.count("reraid list")), ([], 0))

    def test_far_worse_ones_are_left_out(self) -> None:
        """Of another shape no set is taken with more than twice as many unsound rows as one that is near."""
        def listed(_: list[str], text: str) -> Answer:
            most, six = int(text.split("badrows ")[1].split()[0]), "levels 6\n" in text
            word, rows = ("6:ls:after-q:8:0:0,1,2,3", of_six) if six else (SET, 5)
            return put((f"1 {word}\n" if most >= rows else "") + "next 9 of 9\n")

        def check(words: list[str], _: str) -> Answer:
            return put(f"unsound {of_six if 'set=6' in words[2] else 5} of 1000\nfail\n")
        for of_six, count in ((10, 2), (11, 1)):
            found, _, _ = self.of_scope(listed, Shape("5", 3), Shape("6", 4), check=check)
            self.assertEqual(len(found.by_rows(found.shapes())), count)

    def test_what_is_not_answered(self) -> None:
        """A set of which `check` says nothing is none of the nearest."""
        found, _, _ = self.of_scope(with_five, Shape("5", 3), check=lambda *_: Answer(9))
        self.assertEqual(found.asked([Near(SET, plan_of(XFS))]), [])

    def test_by_marks(self) -> None:
        """Each group by itself, the largest first, with the fewest misfits; nothing where parity allows no set."""
        def listed(_: list[str], text: str) -> Answer:
            groups, misfits = text.count("group "), int(text.split("misfits ")[1].split()[0])
            holds = "group xfs" in text and misfits >= 1
            return put((f"1 {SET}\n" if not groups or groups == 1 and holds else "") + "next 9 of 9\n")
        found, standin, _ = self.of_scope(listed, Shape("5", 3))
        near, = found.by_marks()
        self.assertEqual((near.word, near.misfits, len(near.plan.groups)), (SET, 1, 2))
        self.assertFalse(any("misfits None" in text for _, text in standin.asked))
        self.assertEqual([text.split("group ")[1].split()[0] for _, text in standin.asked if "group " in text][:1], ["xfs"])
        found, standin, _ = self.of_scope(lambda *_: put("next 9 of 9\n"), Shape("5", 3))
        self.assertEqual((found.by_marks(), standin.count("reraid list")), ([], 1))

    def test_which_shapes(self) -> None:
        """Those of which parity tells something, the first six."""
        found, _, _ = self.of_scope(lambda *_: put(""), Shape("0", 3), *(Shape("6", members) for members in range(4, 12)))
        self.assertEqual([shape.members for shape, _ in found.shapes()], [4, 5, 6, 7, 8, 9])

    def test_on_the_way(self) -> None:
        """Sets of shapes that hints speak for, where parity allows none of them, and there are landmarks."""
        for shape, groups, unsound, lines in ((Shape("5", 3), True, True, 2), (Shape("5", 3), False, True, 0), (Shape("5", 3), True, False, 0),
                                              (Shape("5", 4), True, True, 0)):
            found, _, report = self.of_scope(with_five, shape, groups=groups, unsound=unsound)
            found.show_on_the_way()
            self.assertEqual(len(report.lines), lines)

    def test_what_is_shown(self) -> None:
        """Sets by their rows, and by their marks; else why there are none."""
        found, _, report = self.of_scope(with_five, Shape("5", 3))
        found.show(False)
        heads = [line for line in report.lines if line.startswith("nearest layouts: ")]
        both = ["nearest layouts: of those that landmarks allow, these have the fewest inconsistent rows",
                "nearest layouts: of those that parity allows, these match the most landmarks"]
        self.assertEqual((heads, [line.split(":")[0] for line in report.lines if line not in heads]), (both, ["  5", "  5"]))

        def by_rows(words: list[str], text: str) -> Answer:
            return with_five(words, text) if text.count("group ") == 2 else put("next 9 of 9\n")

        def by_marks(words: list[str], text: str) -> Answer:
            return put("next 9 of 9\n") if text.count("group ") == 2 else with_five(words, text)
        for listed, wanted in ((by_rows, both[:1]), (by_marks, both[1:])):
            found, _, report = self.of_scope(listed, Shape("5", 3))
            found.show(False)
            self.assertEqual([line for line in report.lines if line.startswith("nearest layouts: ")], wanted)
        nothing = "none, since parity rules out no layout at the levels and numbers of missing disks that were searched"
        for shape, late, said in ((Shape("0", 3), True, nothing),
                                  (Shape("5", 3), True, "none is known, since some steps timed out (--time allows more)"),
                                  (Shape("5", 3), False, "none, since neither landmarks nor parity allow any")):
            found, _, report = self.of_scope(lambda *_: put("next 9 of 9\n"), shape)
            found.show(late)
            self.assertEqual(report.lines, [f"nearest layouts: {said}"])

    def test_about_the_fewest(self) -> None:
        """Of sets with 64, 60 and 32 unsound rows the listing gives the worst that may pass, and each says how many the next may have."""
        def listed(_: list[str], text: str) -> Answer:
            most = int(text.split("badrows ")[1].split()[0])
            return put("".join(f"1 5:ls:none:8:{rows}:0,1,2\n" for rows in (64, 60, 32) if rows <= most) + "next 9 of 9\n")

        def check(words: list[str], _: str) -> Answer:
            return put(f"unsound {words[2].split(':')[-2]} of 1000\nfail\n")
        found = Diagnosis(scope_of(("reraid list", listed), ("reraid check", check)), Told(), 60, 1)
        self.assertEqual([found.fewest(plan_of(XFS), most) for most in (1000, 63, 31)], [32, 32, None])
        # One that has hardly fewer is not asked for: 6400 less a sixty-fourth is more than 6301.
        found = Diagnosis(scope_of(("reraid list", put("1 5:ls:none:8:6400:0,1,2\nnext 9 of 9\n")), ("reraid check", check)), Told(), 60, 1)
        with mock.patch.object(found, "sets", side_effect=[["5:ls:none:8:6400:0,1,2"], []]) as asked:
            self.assertEqual(found.fewest(plan_of(XFS), 9000), 6400)
        self.assertEqual(asked.call_args[0][0].values["badrows"], "6299")

    def test_how_many_are_looked_at_and_shown(self) -> None:
        """24 sets are asked of a plan, the eight largest groups are looked at, and three sets are shown of either kind, each kind in four times the
        time of a step."""
        found, standin, report = self.of_scope(with_five, Shape("5", 3))
        found.by_rows(found.shapes())
        found.of_group(found.scope.plan, found.scope.plan.groups[0])
        sizes = [next(word for word in words if word.startswith("size=")) for words, _ in standin.asked if words[1] == "list"]
        self.assertEqual((set(sizes), sizes.count("size=24")), ({"size=1", "size=24"}, 3))
        many = plan_of(*(("xfs", [("super", 0, 2048 * place + mark, "at:0") for mark in range(place + 1)]) for place in range(10)))
        setattr(found.scope, "surveys", types.SimpleNamespace(plan=lambda _: many))
        with mock.patch.object(found, "sets", return_value=[SET]), mock.patch.object(found, "of_group", return_value=[]) as of_group:
            found.by_marks()
        self.assertEqual([call.args[1].place for call in of_group.call_args_list], [9, 8, 7, 6, 5, 4, 3, 2])
        near = [Near(SET, many, Checked(5, 1000, seconds=9))] * 5
        with mock.patch.multiple(found, by_rows=lambda _: near, by_marks=lambda: near), mock.patch.object(found, "begin") as begin:
            found.show(False)
            report.lines.clear()
            found.show_on_the_way()
        self.assertEqual(begin.call_count, 2)
        with mock.patch("reraid_try.report.diagnosis.time", types.SimpleNamespace(monotonic=lambda: 1000)):
            found.begin()
        self.assertEqual(found.until, 1000 + 4 * 60)
        self.assertEqual(len(report.lines), 4)
        self.assertEqual(len(list(report.record.of("near"))), 9)

    def test_what_is_near_goes_down(self) -> None:
        """No shape raises again how many rows may be unsound in the next one."""
        found, _, _ = self.of_scope(with_five, Shape("5", 3), Shape("5", 4), Shape("5", 5))
        with mock.patch.object(found, "fewest", side_effect=[5, None, 8, None, None, None]) as fewest:
            found.by_rows(found.shapes())
        self.assertEqual([call.args[1] for call in fewest.call_args_list], [1000, 10, 10, 10, 10, 10])

    def test_by_what_it_was_found(self) -> None:
        """A set that misfits alone allow is tested with as many; what `check` says of more rows than may be unsound counts as so many."""
        def listed(_: list[str], text: str) -> Answer:
            return with_five(_, text) if "misfits 8\n" in text else put("next 9 of 9\n")
        found, _, _ = self.of_scope(listed, Shape("5", 3))
        self.assertEqual([it.misfits for it in found.by_rows(found.shapes())], [8])
        with mock.patch.object(found, "sets", side_effect=[[SET], []]):
            self.assertEqual(found.fewest(plan_of(XFS), 3), 3)

    def test_in_which_order(self) -> None:
        """Those by rows begin with the fewest unsound ones, those by marks with the most that fit."""
        def check(words: list[str], _: str) -> Answer:
            number = int(words[2].split(":")[-2])
            return put(f"unsound {9 - number} of 10\ngroup 0 xfs origin 0 fits {number} misfits 0\nfail\n")

        def listed(_: list[str], text: str) -> Answer:
            some = "".join(f"{k} 5:ls:none:8:{k}:0,1,2\n" for k in (3, 8, 5))
            return put((some if "badrows 0\n" not in text or text.count("group ") < 2 else "") + "next 9 of 9\n")
        found, _, _ = self.of_scope(listed, Shape("5", 3), check=check)
        for near in (found.by_rows(found.shapes()), found.by_marks()):
            self.assertEqual([it.word.split(":")[-2] for it in near], ["8", "5", "3"])
        mixed = [Near(SET, plan_of(XFS), Checked(unsound, 10, (Held("xfs", 0, fits, 0),))) for unsound, fits in ((9, 9), (0, 3))]
        with mock.patch.object(found, "asked", return_value=mixed):
            self.assertEqual(([it.told.unsound for it in found.by_rows([])], [it.told.unsound for it in found.by_marks()]), ([0, 9], [9, 0]))

    def test_fields_of_a_line(self) -> None:
        """Programs are told the first and the last unsound row."""
        found, _, report = self.of_scope(with_five, Shape("5", 3))
        with mock.patch.object(found.rows, "bounds", return_value=Bounds(7, 999)), mock.patch.object(found.rows, "turned", return_value=None):
            found.lines([Near(SET, plan_of(XFS), Checked(5, 1000))])
        said, = report.record.of("near")
        self.assertEqual((said["set"], said["unsound"], said["rows"], said["first"], said["last"]), (SET, 5, 1000, 7, 999))

    def test_order(self) -> None:
        plan = plan_of(XFS)
        near = [Near(SET, plan, Checked(5, 1000, (Held("xfs", 0, 3, 0),))), Near(SET, plan, Checked(50, 1000, (Held("xfs", 0, 9, 0),))),
                Near(SET, plan, Checked(0, 1000, (Held("xfs", 0, 3, 4),)))]
        self.assertLess(near[0].by_rows, near[1].by_rows)
        self.assertLess(near[1].by_rows, near[2].by_rows)
        self.assertEqual(min(it.by_marks for it in near), near[1].by_marks)

    def lines(self, images: Sequence[Image]) -> list[str]:
        """What is said of a set of a scope over these images, of which 5 of 1,000 rows are unsound."""
        scope, report = scope_of(("reraid check", put("unsound 5 of 1000\nfail\n"))), Told()
        setattr(scope, "evidence", types.SimpleNamespace(images=images))
        found = Diagnosis(scope, report, 60, 1)
        near = Near(SET, plan_of(XFS), Checked(5, 1000, (Held("xfs", 0, 3, 0),), seconds=9))
        found.lines([near])
        self.assertEqual((near.word, cast(OfPlan, scope).standin.asked), (SET, []))
        return report.lines

    def test_where_marks_turn(self) -> None:
        """A line says besides up to which row marks fit, where that is so."""
        found, _, report = self.of_scope(with_five, Shape("5", 3))
        near = Near(SET, plan_of(XFS), Checked(0, 1000, (Held("xfs", 0, 3, 0),)))
        with mock.patch.object(found.rows, "turned", side_effect=[Turned(640, 4, 5), None]):
            found.lines([near, near])
        self.assertEqual([line.partition("; 4 landmarks match before row 640, and 5 from there on do not")[1] != "" for line in report.lines],
                         [True, False])
        self.assertEqual([it["reshaped"] for it in report.record.of("near")], [640, None])

    def test_numbers_of_images(self) -> None:
        """Where a scope has some of the images, a set is printed with the numbers that they have among all."""
        for numbers, word in (((0, 1, 2), SET), ((1, 3, 4), "5:ls:none:128:2048:1,3,4")):
            said = self.lines([Image(f"i{number}", number, 8000) for number in numbers])
            self.assertEqual(said, [f"  {word}: 5 of 1000 rows inconsistent; xfs origin 0 fits 3 misfits 0"])


if __name__ == "__main__":
    unittest.main()
