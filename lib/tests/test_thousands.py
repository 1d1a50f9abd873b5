"""What landmarks by the thousand tell: which shapes and sets they speak for, and when they are asked."""

import dataclasses
import types
import unittest
from collections.abc import Mapping, Sequence
from typing import Any, cast

from reraid_try.calls.commands import Answer
from reraid_try.calls.plans import Plan
from reraid_try.calls.program import LAST
from reraid_try.checks.verdicts import Score
from reraid_try.evidence.heads import Head
from reraid_try.evidence.images import Image
from reraid_try.options import Options
from reraid_try.policy import plain, thousands
from reraid_try.policy.evident import Evident
from reraid_try.policy.scope import Scope
from reraid_try.policy.plain import Target, Span
from reraid_try.policy.shapes import Shape
from reraid_try.policy.steps import Step
from reraid_try.units import SECTOR
from tests.standin import InFolder, Standin, Told, plan_of, put
from tests.test_policy import NTFS, XFS

ZERO, FIVE, SIX = Shape("0", 3), Shape("5", 4, 1), Shape("6", 5, 2)
SHAPES = ZERO, FIVE, SIX
BOTH = ("xfs5", "btrfstree")
WHOLE = Target((0, 1, 2), Span(0, 8000), "why", SHAPES)


def inode_group(count: int) -> tuple[str, list[tuple[str, int, int, str]]]:
    """A group of so many inodes."""
    return "xfs5", [("xfs5", 0, 2176 + 128 * number, f"at:{128 + 128 * number}") for number in range(count)]


def tree_group(count: int) -> tuple[str, list[tuple[str, int, int, str]]]:
    """A group of so many tree blocks, each of which lies twice."""
    return "btrfstree", [("btrfstree", 1, 2176 + 128 * number, f"either:{128 * number}:{4096 + 128 * number}") for number in range(count)]


def pair_group(count: int) -> tuple[str, list[tuple[str, int, int, str]]]:
    """A group of so many pairs of inodes of an ext4."""
    return "extinode", [("extinode", 2, 2176 + 16 * number, f"at:{143 + 16 * number}") for number in range(count)]


def record_group(count: int) -> tuple[str, list[tuple[str, int, int, str]]]:
    """A group of so many file records of an NTFS, of which the first lies in the copy of the table's start too."""
    return "mft", [("mft", number % 3, 2056 + 8 * number, f"at:{8 * number}" if number else "either:0:4096") for number in range(count)]


def surveyed(*counts: int) -> tuple[Plan, Plan]:
    """The plan of a survey, and that of one that looks for inodes too, of which there are groups of so many."""
    return plan_of(XFS, lengths=(8000,) * 3), plan_of(XFS, *map(inode_group, counts), lengths=(8000,) * 3)


class Thousands(InFolder):
    def scope(self, fits: Mapping[str, Sequence[int]], *counts: int, late: bool = False) -> Scope:
        """A scope over three images, of which the sets of a level have so many fits each, and the groups of inodes so many marks."""
        names = [self.file(f"{k}.img", b"x" * 8000 * SECTOR) for k in range(3)]
        without, with_them = surveyed(*counts)

        def listed(words: list[str], text: str) -> Answer:
            """The sets with as many fits as the bounds of the one group ask for."""
            if late:
                return Answer(None)
            level = text.split("levels ")[1].split("\n")[0]
            least = int(text.split("bounds ")[1].split("\n")[0].split()[1])
            if f"from={LAST}" in words:
                return put("next 9 of 9\n")
            size = int(next(word for word in words if word.startswith("size="))[5:])
            self.assertEqual((text.count("group "), text.count("group xfs5\n")), (1, 1))
            found = [f"{rank} {level}:ls:none:128:2048:0,1,2{',-' * (level == '5')}\n" for rank, it in enumerate(fits[level]) if it >= least]
            return put("".join(found[:size]) + "next 9 of 9\n")

        def survey(words: list[str], _text: str) -> Answer:
            """The landmarks of the kinds that are asked for."""
            return put((with_them if any(word.endswith(",xfs5,btrfstree") for word in words) else without).text())
        self.standin = Standin(("reraid survey", survey), ("reraid list", listed))
        self.late: list[str] = []
        images = [Image(name, k, 8000) for k, name in enumerate(names)]
        return Scope(Options(tuple(names)), self.standin, images, lambda what, _: self.late.append(what))

    def most(self, scope: Scope) -> list[tuple[str, int]]:
        """The levels whose sets the most inodes of the first group speak for, and how many these are."""
        group, = thousands.groups_of(scope, ZERO, BOTH)
        return [(it.shape.levels, it.fits) for it in thousands.most_of(scope, SHAPES, group, BOTH)]

    def test_shapes(self) -> None:
        """That with the most fits; all of them where they are as many."""
        self.assertEqual(self.most(self.scope({"0": [5, 3], "5": [14, 9], "6": [9]}, 16)), [("5", 14)])
        self.assertEqual(self.most(self.scope({"0": [5], "5": [14], "6": [14, 14]}, 16)), [("5", 14), ("6", 14)])
        self.assertEqual(self.most(self.scope({"0": [16], "5": [15], "6": [16]}, 16)), [("0", 16), ("6", 16)])
        self.assertEqual(self.most(self.scope({"0": [], "5": [], "6": []}, 16)), [])

    def test_one_question_of_a_worse_shape(self) -> None:
        """After five of the first, of 16 marks: 8, 12, 14, 15, 16, or less."""
        self.most(self.scope({"0": [16], "5": [4], "6": [3]}, 16))
        self.assertEqual([text.split("bounds ")[1].split("\n")[0] for words, text in self.standin.asked if "list" in words][-2:], ["16 16", "16 16"])
        self.assertLessEqual(self.standin.count("reraid list"), 7)

    def test_late(self) -> None:
        """What ran out of its time tells nothing, and that is said."""
        self.assertEqual(self.most(self.scope({}, 16, late=True)), [])
        self.assertEqual(self.late, ["enough landmarks allow"] * 3)

    def test_groups(self) -> None:
        """Two at most, with twelve inodes at least, the largest first."""
        for counts, places in (((11,), []), ((12,), [1]), ((12, 16, 11), [2, 1]), ((13, 12, 13), [1, 3])):
            self.assertEqual([group.place for group in thousands.groups_of(self.scope({}, *counts), ZERO, BOTH)], places)

    def test_kinds(self) -> None:
        """Groups of the kinds that are asked for; what is said of each kind."""
        scope = self.scope({}, 16)
        plan = plan_of(XFS, inode_group(13), tree_group(16), tree_group(12), lengths=(8000,) * 3)
        self.standin.rows = (("reraid survey", put(plan.text())),)
        for kinds, places in ((BOTH, [2, 1]), (BOTH[:1], [1]), (BOTH[1:], [2, 3])):
            self.assertEqual([group.place for group in thousands.groups_of(scope, ZERO, kinds)], places)
        self.assertEqual(thousands.Most(ZERO, plan, plan.groups[2], 14).line(9),
                         "14 of 16 tree blocks of a btrfs lie at the places that the chunk tree states; with the next layout, 9 do")
        plan = plan_of(XFS, pair_group(361), inode_group(13), lengths=(8000,) * 3)
        self.standin.rows = (("reraid survey", put(plan.text())),)
        self.assertEqual([group.place for group in thousands.groups_of(scope, ZERO, ("extinode",))], [1])
        self.assertEqual(thousands.Most(ZERO, plan, plan.groups[1], 300).line(None),
                         "300 of 361 inode pairs of an ext4 lie at the places that the block group descriptors state")
        plan = plan_of(NTFS, record_group(750), record_group(11), record_group(760), lengths=(8000,) * 3)
        self.standin.rows = (("reraid survey", put(plan.text())),)
        self.assertEqual([group.place for group in thousands.groups_of(scope, ZERO, ("mft",))], [3, 1])
        self.assertEqual(thousands.Most(ZERO, plan, plan.groups[3], 700).line(640),
                         "700 of 760 file records of an NTFS lie at the places that the runs of record 0 state; with the next layout, 640 do")

    def test_bounds(self) -> None:
        """Of what is listed so many landmarks of the group match at least as do at most, and all others may match nowhere."""
        plan = plan_of(record_group(750), lengths=(8000,) * 3)
        text = thousands.Most(ZERO, plan, plan.groups[0], 600).bounded.text()
        self.assertEqual(text.split("group mft\n")[1].splitlines()[:2], ["bounds 750 600", "mark mft 0 2056 either:0:4096"])

    def test_seen(self) -> None:
        """The kinds of file systems whose superblocks were seen; of an NTFS whose clusters are large, whose boot sector was."""
        def kinds(groups: Sequence[str], heads: Sequence[str]) -> list[str]:
            image = Image("a", 1, 9, heads=tuple(Head(kind, 1, 0) for kind in heads))
            scope: Any = types.SimpleNamespace(plan=types.SimpleNamespace(groups=[types.SimpleNamespace(kind=kind) for kind in groups]),
                                               evidence=types.SimpleNamespace(images=(Image("b", 0, 9), image)))
            return thousands.seen(scope)
        for groups, heads, wanted in (((), (), []), (("gpt", "lvm"), ("mbr",), []), (("ntfs",), (), ["mft"]), ((), ("ntfs",), ["mft"]),
                                      (("ntfs",), ("ntfs",), ["mft"]), ((), ("ext", "luks"), []), (("ext", "ntfs"), (), ["extinode", "mft"]),
                                      (("btrfs", "xfs"), ("ntfs",), ["xfs5", "btrfstree", "mft"])):
            self.assertEqual(kinds(groups, heads), wanted)

    def attempted(self, scope: Scope, whole: bool = False) -> tuple[bool, list[str], list[tuple[Step, list[str]]]]:
        """Whether the search is at its end, what was said, and the steps with the sets that were tested."""
        report, tested = Told(), list[tuple[Step, list[str]]]()

        def take(_scope: Scope, step: Step, sets: Any, words_of: Any) -> bool:
            tested.append((step, [words_of(it)[1].text for it in sets]))
            return whole

        def say_step(_scope: Scope, step: Step, _listing: Any) -> Step:
            report.put(search.why)
            return step
        search: Any = types.SimpleNamespace(report=report, why="before", take=take, say_step=say_step, say_refused=report.put)
        done = thousands.attempt_all(search, scope, SHAPES, BOTH)
        self.assertEqual(search.why, "before")
        return done, report.lines, tested

    def test_step(self) -> None:
        """The sets with the most are tested, with their reason, by what is asked for where nothing is relaxed."""
        scope = self.scope({"0": [5], "5": [14, 9, 14], "6": [9]}, 16)
        done, said, tested = self.attempted(scope)
        why = "14 of 16 inodes of an XFS lie at the places that their numbers state; with the next layout, 9 do"
        self.assertEqual((done, said), (False, [f"  {why}", why]))
        (step, words), = tested
        self.assertEqual((step.line(), words), ("RAID 5 of 4 disks, 1 missing; relaxed: only the inodes of an XFS, as many as match",
                                                ["5:ls:none:128:2048:0,1,2,-"] * 2))
        # What a fresh NTFS numbers 0 is left out of what is tested.
        request = dataclasses.replace(scope.asking.request(FIVE), records=True)
        self.assertEqual((step.request, step.out, step.is_bare), (request, frozenset({0}), False))

    def test_end(self) -> None:
        """A set that is whole ends the search; where no other set has any fits, none is named."""
        done, said, tested = self.attempted(self.scope({"0": [], "5": [14], "6": [14]}, 16), whole=True)
        self.assertEqual((done, said[0], len(tested)), (True, "  14 of 16 inodes of an XFS lie at the places that their numbers state", 1))

    def test_too_many(self) -> None:
        """Of more than 64 sets inodes tell nothing."""
        self.assertEqual(self.attempted(self.scope({"0": [], "5": [14] * 65, "6": []}, 16)), (False, [], []))
        self.assertEqual(len(self.attempted(self.scope({"0": [], "5": [14] * 64, "6": []}, 16))[2][0][1]), 64)

    def test_few(self) -> None:
        """Sets at which fewer than a tenth of a group lie where they say are not tried: far copies have as many by chance."""
        for marks, steps in ((20, 1), (21, 0)):
            self.assertEqual(len(self.attempted(self.scope({"0": [], "5": [2], "6": []}, marks))[2]), steps)

    def test_refused(self) -> None:
        """What the program refuses is said, and the search goes on."""
        scope = self.scope({}, 16)
        self.standin.rows = (("reraid survey", put("", 1, "reraid: no")),)
        self.assertEqual(self.attempted(scope)[0], False)


class Asked(unittest.TestCase):
    """Of which targets landmarks by the thousand are asked."""

    def by_thousands(self, kinds: tuple[str, ...], groups: tuple[str, ...], shapes: tuple[Shape, ...] = SHAPES) -> list[str]:
        """What is asked where the program knows these kinds and these groups are seen, in a search that has a candidate with a rating already."""
        asked: list[str] = []

        def plan(_request: Any) -> Plan:
            asked.append("survey")
            return surveyed(11)[1]
        bar = types.SimpleNamespace(show=lambda _: None)
        search = types.SimpleNamespace(options=Options(("a",)), report=types.SimpleNamespace(bar=bar),
                                       tested=[types.SimpleNamespace(score=Score.CHECKED)])
        request = types.SimpleNamespace(having=lambda **values: values)
        scope: Any = types.SimpleNamespace(plan=types.SimpleNamespace(groups=[types.SimpleNamespace(kind=kind) for kind in groups]),
                                           surveys=types.SimpleNamespace(plan=plan), asking=types.SimpleNamespace(request=lambda _: request),
                                           evidence=types.SimpleNamespace(images=(Image("a", 0, 9),), pairs=None, end=9))
        it = Evident(cast(Any, search))
        it.__dict__["later_kinds"] = kinds
        self.assertFalse(it.by_thousands(scope, Target((0, 1, 2), Span(0, 9), "why", by_thousands=shapes), 1))
        self.assertTrue(not asked or it.by_thousands(scope, Target((0, 1, 2), Span(0, 9), "why", by_thousands=shapes), 0))
        return asked

    def test_known(self) -> None:
        """Only where the program knows the kind and a superblock was seen is anything asked; what is content ends the steps of the target."""
        for kinds, groups in ((("xfs5",), ("gpt", "xfs")), (("btrfstree",), ("btrfs",)), (("xfs5", "btrfstree"), ("btrfs", "xfs")),
                              (("extinode",), ("ext",)), (("mft",), ("gpt", "ntfs")), (("xfs5", "mft"), ("ntfs",))):
            self.assertEqual(self.by_thousands(kinds, groups)[:1], ["survey"])
        for kinds, groups, shapes in (((), ("xfs",), SHAPES), (("extinode",), ("xfs",), SHAPES), (("xfs5",), ("ext",), SHAPES),
                                      (("xfs5",), ("btrfs",), SHAPES), (("btrfstree",), ("xfs",), SHAPES), (("xfs5",), ("xfs",), ()),
                                      (("xfs5",), ("ntfs",), SHAPES), (("mft",), ("xfs",), SHAPES), (("mft",), ("ntfs",), ())):
            self.assertEqual(self.by_thousands(kinds, groups, shapes), [])

    def asked(self, targets: Sequence[Target], untied: tuple[Shape, ...] = ()) -> list[tuple[Shape, ...]]:
        """The shapes at which each of these asks them."""
        return [target.by_thousands for target in plain.with_thousands(targets, untied)]

    def test_targets(self) -> None:
        """Once where nothing ties the images, before copies that lie apart are looked for; and of what is tied where parity tells nothing."""
        apart = Target((0, 1, 2), Span(0, 9), "why", copied=True, apart=2048)
        each = Target((0, 1, 2), Span(0, 9), "why", (FIVE,), (("mode", "each"),), tied=True)
        self.assertEqual(self.asked([apart, WHOLE], WHOLE.shapes), [SHAPES, ()])
        self.assertEqual(self.asked([each, WHOLE], WHOLE.shapes), [(), SHAPES])
        self.assertEqual(self.asked([apart]), [()])
        self.assertEqual(self.asked([dataclasses.replace(apart, by_thousands=(FIVE,))]), [(FIVE,)])
        lost, there, loose = (Target((0, 1, 2), Span(0, 9), "why", shapes, tied=True)
                              for shapes in ((FIVE,), (Shape("5", 3),), (Shape("6", 4, 1), Shape("6", 4, 2, 1))))
        self.assertEqual(self.asked([lost, there, loose]), [(FIVE,), (), ()])


if __name__ == "__main__":
    unittest.main()
