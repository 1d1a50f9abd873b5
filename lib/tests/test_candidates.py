"""Candidates, their tests, damage, kin, rows, and what is printed of them."""

import dataclasses
import json
import time
import types
import unittest
from collections.abc import Sequence
from typing import cast
from unittest import mock

from reraid_try.calls.commands import Answer
from reraid_try.calls.formats import Checked, Held
from reraid_try.calls.program import Copied, Program
from reraid_try.calls.sets import NEAR_2, Word, read_word
from reraid_try.calls.surveys import Request
from reraid_try.checks import damage, kin, rows
from reraid_try.checks.candidates import Candidate, Inside, left_most
from reraid_try.checks.lvm import Piece
from reraid_try.checks.members import named
from reraid_try.checks.rows import Bounds, Near, Rows
from reraid_try.checks.tests import Tests, in_classes
from reraid_try.checks.verdicts import Finding, Score, Verdict
from reraid_try.checks.volumes import Room
from reraid_try.checks.wholes import Wholes
from reraid_try.containers import Container
from reraid_try.errors import Stopped
from reraid_try.evidence.images import Image
from reraid_try.evidence.maps import Map
from reraid_try.opening import Opened
from reraid_try.options import Options
from reraid_try.policy import relaxations
from reraid_try.policy.scope import Scope
from reraid_try.policy.shapes import Shape
from reraid_try.policy.steps import Step
from reraid_try.report import report, table, words
from reraid_try.report.report import Report
from reraid_try.units import SECTOR
from tests.standin import InFolder, Standin, Told, plan_of, put
from tests.test_policy import BASE, EXT, NTFS, XFS

SET = "5:ls:none:128:2048:0,1,2"


class Known:
    """What stands for the evidence of a scope."""

    filled, window, start, end, unread = 1000, 8000, 0, 8000, 0
    images = tuple(Image(f"i{k}", k, 8000) for k in range(4))


class Over:
    """What stands for a scope."""

    def __init__(self, *answers: tuple[str, object]) -> None:
        self.standin = Standin(*answers)  # type: ignore[arg-type]
        self.program = Program(self.standin, ("i0", "i1", "i2", "i3"), 60, 1)
        self.plan = plan_of(XFS, EXT)
        self.evidence = Known()
        self.surveys = self

    def seen(self, _: Request) -> object:
        """The survey of a request."""
        return self.plan

    def checked_by(self, _: Step) -> object:
        """The plan with which `check` is asked."""
        return self.plan

    def word(self, text: str) -> Word:
        """A set of this scope, over all images."""
        word = read_word(text)
        return word.having(tuple(None if slot is None else self.evidence.images[slot].number for slot in word.slots))


class OfPlan(Over):
    """What stands for a scope, and for its surveys."""

    def __init__(self, *answers: tuple[str, object]) -> None:
        super().__init__(*answers)
        self.surveys = cast(Over, self.Made(self.plan))

    @dataclasses.dataclass
    class Made:
        """What stands for surveys."""

        made: object

        def plan(self, _: Request) -> object:
            """The plan of a request."""
            return self.made


def scope_of(*answers: tuple[str, object]) -> Scope:
    """A scope of which `reraid` says this."""
    return cast(Scope, OfPlan(*answers))


def whole(clean: bool | None = True, longest: int = 1 << 20, kind: str = "xfs") -> Verdict:
    """What was found in a good volume of 1,000 bytes."""
    return Verdict([Finding("", kind, clean, "said", (Piece(0, 1000),))], Wholes(1, int(longest > 0), longest), [], 1000, 10, 100)


def candidate(text: str = SET, verdict: Verdict | None = None, chosen: Sequence[relaxations.Relaxation] = (), number: int = 1, rank: int = 0,
              **values: object) -> Candidate:
    """A candidate of a step."""
    word = read_word(text)
    step = Step(Shape(word.level, len(word.slots), word.lost), tuple(chosen), BASE, number)
    scope = cast(Scope, values.pop("scope", None) or scope_of())
    return Candidate(word, rank, step, scope, listed=None if word.is_mirrored else word, verdict=verdict, **values)  # type: ignore[arg-type]


def place(it: Candidate) -> tuple[int, int, tuple[int, str, int], tuple[int, int, int]]:
    """What a candidate is printed by."""
    return it.place


class OfCandidates(unittest.TestCase):
    def test_doubtful(self) -> None:
        self.assertFalse(candidate(unsound=500).mostly_unsound)
        self.assertTrue(candidate(unsound=501).doubtful)
        self.assertTrue(candidate(groups=(Held("xfs", 0, 2, 3),)).doubtful)
        self.assertFalse(candidate(groups=(Held("xfs", 0, 3, 3), Held("gpt"))).doubtful)
        self.assertEqual(candidate(groups=(Held("gpt", 0, 3, 3), Held("xfs", 8, 1, 0), Held("ext"))).origins, [8])

    def test_most_marks_left_out(self) -> None:
        plan = plan_of(XFS, EXT)
        out = Step(Shape("5", 3), (relaxations.group_relaxations(plan, True)[1],))
        self.assertEqual(out.out, frozenset({0}))
        self.assertTrue(left_most(out, plan, (Held("xfs"), Held("ext", 0, 1, 0))))
        self.assertTrue(left_most(out, plan, (Held("xfs", 0, 1, 2), Held("ext"))))
        self.assertFalse(left_most(out, plan, (Held("xfs", 0, 2, 0), Held("ext"))))
        self.assertFalse(left_most(Step(Shape("5", 3)), plan, (Held("xfs"), Held("ext"))))
        self.assertFalse(left_most(Step(Shape("5", 3), (relaxations.group_relaxations(plan, False)[0],)), plan, (Held("xfs"), Held("ext"))))

    def test_less_than_half_of_the_marks_left_out(self) -> None:
        plan = plan_of(XFS, NTFS)
        out = Step(Shape("5", 3), (relaxations.group_relaxations(plan, True)[0],))
        self.assertEqual((out.out, left_most(out, plan, (Held("xfs"), Held("ntfs")))), (frozenset({0}), False))

    def test_one_plus_less_then(self) -> None:
        self.assertEqual([candidate(verdict=whole(longest=size), left_most=True).score for size in (1 << 20, 50)], [Score.CHECKED, Score.KNOWN])
        self.assertEqual(candidate(verdict=whole(), left_most=True).doubts, ["a landmark group with most landmarks was left out"])
        self.assertEqual(candidate(verdict=whole(False), left_most=True).score, Score.NOTHING)

    def test_files_that_tell_the_order_of_chunks_keep_one_plus(self) -> None:
        verdict = whole(longest=50)
        verdict.files.long = Wholes(16, 12, 50, joined=10)
        kept = candidate(verdict=verdict, left_most=True)
        self.assertEqual((kept.score, kept.doubts), (Score.CHECKED, []))
        verdict.files.long.joined = 9
        lost = candidate(verdict=verdict, left_most=True)
        self.assertEqual((lost.score, lost.doubts), (Score.KNOWN, ["a landmark group with most landmarks was left out"]))

    def test_no_rating_against_marks_without_a_whole_file(self) -> None:
        """A checker that reads little of a file system may be content with a wrong order; marks that do not fit and files that are broken are not."""
        broken = whole(longest=0)
        for held, count, score in ((Held("xfs", 0, 12, 6), 1, Score.KNOWN), (Held("xfs", 0, 12, 0), 1, Score.CHECKED),
                                   (Held("xfs", 0, 12, 6), 0, Score.CHECKED)):
            broken.files.found = count
            self.assertEqual(candidate(verdict=broken, groups=(held,)).score, score)
        broken.files.found = 1
        self.assertEqual(candidate(verdict=broken, groups=(Held("xfs", 0, 12, 6),)).doubts,
                         ["some landmarks contradict it, and no file that was found is intact"])
        self.assertEqual(candidate(verdict=whole(), groups=(Held("xfs", 0, 12, 6),)).score, Score.WHOLE)

    def test_longer_images_at_level_0(self) -> None:
        long = Verdict([Finding("", "vfat", pieces=(Piece(0, 1024),), told=2048, there=1024)], Wholes(1, 1, 1 << 20), length=1024)
        for text, lengths, verdict, said in (("0:plain:none:8:0:0,1", (8000, 9000), long, 2), ("0:plain:none:8:0:0,1", (8000, 8000), long, 1),
                                             (SET, (8000, 9000), long, 1), ("0:plain:none:8:0:0,1", (8000, 9000), whole(), 0)):
            scope = scope_of()
            evidence = types.SimpleNamespace(images=[Image("i", k, length) for k, length in enumerate(lengths)], filled=1000)
            setattr(scope, "evidence", evidence)
            it = candidate(text, verdict, scope=scope)
            self.assertEqual((len(it.doubts), it.score), (said, Score.KNOWN if said else Score.WHOLE))
            self.assertEqual([doubt for doubt in it.doubts if doubt.startswith("the images differ")], it.doubts[1:])

    def test_end_of_far_copies(self) -> None:
        """What was asked for with another end than that of the images is read with it, where the volume depends on it."""
        ends = []
        for text in ("far2:8:0:0,1", "near2:8:0:0,1"):
            it = candidate(text)
            it.step = dataclasses.replace(it.step, copied=Copied((NEAR_2,), 2, end=77))
            ends.append(it.end)
        self.assertEqual((ends, candidate("far2:8:0:0,1").end), ([77, None], None))

    def test_printed_by_rating_fits_and_members(self) -> None:
        fits = (Held("xfs", 0, 12, 0),)
        order = [candidate(verdict=whole(), number=9), candidate(verdict=whole(longest=50), number=8, groups=fits),
                 candidate(verdict=whole(longest=50), number=1), candidate(verdict=whole(None, 0), number=7, groups=fits),
                 candidate(verdict=whole(False), groups=(Held("xfs", 0, 12, 1),)), candidate()]
        self.assertEqual(sorted(reversed(order), key=place), order)
        two = [candidate(SET, number=2), candidate("5:ls:none:128:2048:0,1,2,-", number=1)]
        self.assertEqual(sorted(two, key=place), two)

    def test_alike_said(self) -> None:
        self.assertEqual(candidate().alike_said, "")
        self.assertEqual(candidate(alike=["a", "b", "c", "d", "e"]).alike_said, "same volume, cannot be told apart: a b c and 2 more")


class Kin(unittest.TestCase):
    images = [Image(f"i{k}", k, 9) for k in range(5)] + [Image("i5", 5, 9, like=0)]

    def same(self, *texts: str) -> list[int | None]:
        """Of sets, in this order, with which other one each has the same volume."""
        order = kin.in_order([candidate(text, number=number) for number, text in enumerate(texts)], self.images)
        return [it.same for it in order]

    def test_same_volume(self) -> None:
        self.assertEqual(self.same(SET, "5:ls:none:128:2048:5,1,2"), [None, 0])
        self.assertEqual(self.same(SET, "5:ls:none:128:2048:1,0,2"), [None, None])
        self.assertEqual(self.same("0:plain:none:8:0:0,1", "near2:8:0:0,2,1,-"), [None, 0])
        self.assertEqual(self.same("0:plain:none:8:0:0,1", "near2:8:0:-,0,1,3"), [None, 0])
        self.assertEqual(self.same("near2:8:0:0,1,2", "near2:8:0:0,2,1"), [None, None])
        self.assertEqual(self.same("0:plain:none:8:0:0,1", "near3:8:0:-,0,3,1,-,-"), [None, 0])
        # Four copies on six disks: two side by side may change places, others not.
        self.assertEqual(self.same("near4:8:0:0,1,2,3,4,5", "near4:8:0:1,0,2,3,5,4", "near4:8:0:2,1,0,3,4,5"), [None, 0, None])
        self.assertEqual(self.same("far2:8:0:0,1", "far2:8:0:1,0", "offset2:8:0:0,1"), [None, None, None])
        self.assertEqual(self.same("5:ls:none:8:0:0,1,2,-", "6:ls-6:after-q:8:0:0,1,2,-,-"), [None, 0])
        self.assertEqual(self.same("0:plain:none:8:0:0,1", "5:parity-first:none:8:0:-,0,1"), [None, 0])

    def inside(self, *texts: str) -> list[Inside | None]:
        """In which other one's volume each begins."""
        return [it.inside for it in kin.in_order([candidate(text, number=number) for number, text in enumerate(texts)], self.images)]

    def test_inside_of_another(self) -> None:
        self.assertEqual(self.inside("0:plain:none:8:0:0,1", "0:plain:none:8:24:0,1"), [None, Inside(0, 3)])
        # From one row to the next the slots of the symmetric patterns turn.
        self.assertEqual(self.inside("5:ls:none:8:0:0,1,2", "5:ls:none:8:8:2,0,1"), [None, Inside(0, 1)])
        self.assertEqual(self.inside("5:rs:none:8:0:0,1,2", "5:rs:none:8:8:1,2,0"), [None, Inside(0, 1)])
        self.assertEqual(self.inside("5:ls:none:8:0:0,1,2", "5:ls:none:8:8:0,1,2"), [None, None])
        self.assertEqual(self.inside("5:la:none:8:0:0,1,2", "5:la:none:8:24:0,1,2"), [None, Inside(0, 3)])
        # Parity that stays for four rows moves every four rows.
        self.assertEqual(self.inside("5:ls*4:none:8:0:0,1,2", "5:ls*4:none:8:32:2,0,1"), [None, Inside(0, 4)])
        self.assertEqual(self.inside("5:ls*4:none:8:0:0,1,2", "5:ls*4:none:8:8:2,0,1"), [None, None])
        self.assertEqual(self.inside("5:la*4:none:8:0:0,1,2", "5:la*4:none:8:96:0,1,2"), [None, Inside(0, 12)])
        self.assertEqual(self.inside("5:la*4:none:8:0:0,1,2", "5:la*4:none:8:24:0,1,2"), [None, None])
        self.assertEqual(self.inside("6:la-6*4:after-q:8:0:0,1,2,3", "6:la-6*4:after-q:8:96:0,1,2,3"), [None, Inside(0, 12)])
        self.assertEqual(self.inside("5:la*4:none:8:0:0,1,2", "5:la:none:8:96:0,1,2"), [None, None])
        self.assertEqual(self.inside("5:la:none:8:0:0,1,2", "5:la:none:8:8:0,1,2"), [None, None])
        self.assertEqual(self.inside("6:ls:by-slot:8:0:0,1,2,3", "6:ls:by-slot:8:8:3,0,1,2"), [None, None])
        self.assertEqual(self.inside("6:ls-6:after-q:8:0:0,1,2,3", "6:ls-6:after-q:8:24:0,1,2,3"), [None, Inside(0, 3)])
        self.assertEqual(self.inside("0:plain:none:8:0:0,1", "0:plain:none:8:7:0,1"), [None, None])
        self.assertEqual(self.inside("near2:8:0:0,1,2", "near2:8:8:0,1,2"), [None, None])

    def ratings(self, good: str, *texts: str, start: int = 0) -> list[str]:
        """Of sets with a content checker what rating each has beside one with long whole files, whose part of the disks begins at some sector."""
        ratings = []
        for text in texts:
            other = scope_of()
            setattr(other, "evidence", types.SimpleNamespace(start=start, end=9000, filled=1000))
            first, content = candidate(good, whole(), scope=other), candidate(text, self.found())
            order = kin.in_order([content, first], self.images)
            self.assertEqual((order[0], first.score), (first, Score.WHOLE))
            self.assertEqual([it.score for it in kin.in_order(order, self.images)], [it.score for it in order])
            ratings.append(content.score.rating)
        return ratings

    def found(self, files: int = 0, whole_ones: int = 0) -> Verdict:
        """A volume with a content checker, and so many files, some of them whole."""
        return Verdict([Finding("", "xfs", True, "said", (Piece(0, 1000),))], Wholes(files, whole_ones, 20 * whole_ones), length=1000)

    def test_contradicted_by_one_with_long_whole_files(self) -> None:
        others = ("5:rs:none:128:2048:0,1,2", "5:ls:none:64:2048:0,1,2", "5:ls:none:128:2048:1,0,2", "0:plain:none:128:2048:5,3",
                  "5:ls:none:128:0:0,1,2")
        self.assertEqual(self.ratings(SET, *others), [""] * 5)
        # The same volume, one that begins inside the other, either way, the same with a disk left out, and other images.
        related = (SET, "5:ls:none:128:2048:5,1,2", "5:ls:none:128:2176:2,0,1", "5:ls:none:128:1920:1,2,0", "5:ls:none:128:2048:0,-,2",
                   "0:plain:none:128:2048:3,4")
        self.assertEqual(self.ratings(SET, *related), ["+"] * 6)
        self.assertEqual(self.ratings(SET, *others, start=8000), ["+"] * 5)
        # An image that stands in another slot, and the same with fewer images.
        self.assertEqual(self.ratings("5:ls:none:128:2048:0,1,-,2", "5:ls:none:128:2048:0,1,2,-", "5:ls:none:128:2048:0,-,1,2"), ["", ""])
        self.assertEqual(self.ratings("6:ls:after-q:128:2048:0,1,-,2", "6:ls:after-q:128:2048:0,1,-,-", "6:ls:after-q:128:2048:0,1,3,-"), ["+", "+"])
        doubted = candidate("5:rs:none:128:2048:0,1,2", Verdict([Finding("", "xfs", True, "said", (Piece(0, 1000),))], length=1000))
        kin.in_order([doubted, candidate(SET, whole())], self.images)
        self.assertEqual((doubted.score, doubted.doubts), (Score.KNOWN, ["another layout of these images, which contradicts it, has long intact "
                                                                         "files"]))

    def test_contradicted_by_one_with_whole_files(self) -> None:
        """Of two sets with one plus, that in which files were found and none is whole has none beside one with a whole file."""
        broken = candidate(SET, self.found(3, 0))
        kin.in_order([broken, candidate("5:la*16:none:128:2048:0,1,2", self.found(3, 1))], self.images)
        self.assertEqual(broken.doubts, ["another layout of these images, which contradicts it, has intact files, and this one has none"])

    def test_contradicted_by_one_with_as_much(self) -> None:
        """Of two sets with one plus that has none beside which the other has as many whole files and as many fits, so that neither has one where they
        are as many."""
        right, same = "5:la*16:none:128:2048:0,1,2", "5:ls:none:128:2048:5,1,2"
        for files, other, text, fits, ratings in (((3, 0), (3, 1), right, (), ("", "+")), ((0, 0), (3, 1), right, (), ("", "+")),
                                                  ((3, 0), (3, 0), right, (), ("", "")), ((3, 1), (3, 1), right, (), ("", "")),
                                                  ((3, 0), (3, 1), same, (), ("+", "+")), ((3, 1), (3, 1), right, (9, 8), ("+", "")),
                                                  ((3, 1), (3, 1), right, (8, 9), ("", "+")), ((4, 1), (9, 2), right, (9, 8), ("+", "+"))):
            some = [candidate(SET, self.found(*files)), candidate(text, self.found(*other))]
            for it, count in zip(some, fits):
                it.groups = (Held("xfs", 0, count, 0),)
            for _ in range(2):
                kin.in_order(some, self.images)
                self.assertEqual(tuple(it.score.rating for it in some), ratings)
        alike = [candidate(text, self.found()) for text in (SET, right)]
        kin.in_order(alike, self.images)
        why = "another layout of these images, which contradicts it, is supported as well: at most one of them is right"
        self.assertEqual([it.doubts for it in alike], [[why], [why]])

    def test_rows_of_nothing_before_the_volume(self) -> None:
        """Of sets of which one has rows before the volume of another, with nothing known in them, that has the rating whose volume begins with
        something."""
        row = 256 * SECTOR

        def found(first: int, table: bool = False, clean: bool = True) -> Verdict:
            """A file system at a byte of a volume, maybe in a partition, with a long whole file."""
            findings = [Finding("", "gpt", table=True)] if table else []
            findings.append(Finding(f"at {first // SECTOR}", "xfs", clean, "said", (Piece(first, 100 * row),)))
            return Verdict(findings, Wholes(1, 1, 1 << 20), [], 110 * row, row // 2, row)
        later, earlier = "5:ls:none:128:2048:0,1,2", "5:ls:none:128:1024:2,0,1"
        for verdicts, ratings in (((found(0), found(8 * row)), ("++", "")), ((found(0), found(8 * row, True)), ("++", "++")),
                                  ((found(0), found(0)), ("++", "++")), ((found(8 * row), found(16 * row)), ("++", "++")),
                                  ((found(0, clean=False), found(8 * row)), ("", "++"))):
            some = [candidate(text, verdict) for text, verdict in zip((later, earlier), verdicts)]
            for _ in range(2):
                kin.in_order(some, self.images)
                self.assertEqual(tuple(it.score.rating for it in some), ratings)
        some = [candidate(later, found(0)), candidate(earlier, found(8 * row))]
        kin.in_order(some, self.images)
        self.assertEqual(some[1].doubts, ["what is found in it begins after its first 8 stripes, at the start of the volume of another layout"])
        self.assertEqual((Verdict().begins, found(512).begins, found(512, True).begins), (None, 512, 0))

    def test_contradicted_by_parity(self) -> None:
        """Of two sets with long whole files that has no rating with which parity breaks in more than a fourth of the 1,000 filled rows more. If it
        does not, nothing tells them apart, and neither has the highest rating."""
        for unsound, scores in ((None, (Score.CHECKED, Score.CHECKED)), (260, (Score.CHECKED, Score.CHECKED)), (261, (Score.WHOLE, Score.KNOWN))):
            good, other = candidate(SET, whole(), unsound=10), candidate("5:rs:none:128:2048:0,1,2", whole(), unsound=unsound)
            for _ in range(2):
                kin.in_order([other, good], self.images)
                self.assertEqual((good.score, other.score), scores)
        self.assertEqual((bool(good.doubts), bool(other.doubts)), (False, True))

    def test_text(self) -> None:
        self.assertEqual(kin.text(candidate(same=3)), "the same volume as candidate 3")
        self.assertEqual(kin.text(candidate(inside=Inside(3, 7))), "the volume of candidate 3 without its first 7 stripes")
        self.assertEqual(kin.text(candidate()), "")


class Damaged(unittest.TestCase):
    def test_doubted(self) -> None:
        six = "6:ls:by-data:128:2048:0,1,2,3"
        some = [candidate(six, unsound=9), candidate(six, unsound=5), candidate(six, unsound=0), candidate(six, unsound=501),
                candidate("5:ls:none:128:2048:0,1,-", unsound=5), candidate("6:ls:by-data:128:2048+0+0+0:0,1,2,3", unsound=5)]
        self.assertEqual([it.unsound for it in damage.doubted(some, False)], [5, 9])
        good = candidate(six, whole(), unsound=7)
        self.assertEqual([it.unsound for it in damage.doubted([*some, good], False)], [7])
        self.assertEqual(damage.doubted([*some, good], True), [])
        self.assertEqual([it.unsound for it in damage.doubted([candidate(SET, whole(), unsound=7)], False)], [7])
        self.assertEqual(len(damage.doubted([candidate(unsound=5)] * 9, False)), 3)

    def test_blamed(self) -> None:
        self.assertEqual(damage.blamed(candidate(unsound=9), {0: 9, 1: 5, 2: 2, 3: 11}), [2, 1])
        for sound in (0, None):
            self.assertEqual(damage.blamed(candidate(unsound=sound), {0: 0, 1: 3}), [])

    def test_lesser(self) -> None:
        it = damage.lesser(candidate("6:ls-6:after-q:128:2048:0,1,2,3", unsound=9), frozenset({3}))
        self.assertEqual((it.word.text, it.listed and it.listed.text), (SET, "6:ls-6:after-q:128:2048:0,1,2,-"))
        self.assertEqual((it.step.relaxed, it.step.shape.missing, it.unsound, it.whole and it.whole.unsound), (["without image 3"], 1, None, 9))

    def test_no_rating_beside_one_without_unsound_rows(self) -> None:
        """A set has no rating where it has none of its unsound rows without an image, as long as parity still tells, and no less speaks for that."""
        for text, without, unsound, verdict, ratings in (("6:ls:after-q:128:2048:0,1,2,3", 2, 0, whole(), ("", "++")),
                                                         ("6:ls:after-q:128:2048:0,1,2,3", 2, 1, whole(), ("++", "++")),
                                                         ("6:ls:after-q:128:2048:0,1,2,3", 2, 0, whole(longest=0), ("++", "+")),
                                                         (SET, 2, 0, whole(), ("++", "++"))):
            it = candidate(text, whole(), unsound=7)
            lesser = damage.lesser(it, frozenset({without}))
            lesser.verdict, lesser.unsound = verdict, unsound
            self.assertEqual(damage.is_sounder(lesser, it), ratings[0] == "")
            kin.in_order([it, lesser], Known.images)
            self.assertEqual((it.score.rating, lesser.score.rating), ratings)
        it = candidate("6:ls:after-q:128:2048:0,1,2,3", whole(), unsound=7)
        lesser = damage.lesser(it, frozenset({2}))
        lesser.verdict, lesser.unsound = whole(), 0
        kin.in_order([it, lesser], Known.images)
        self.assertEqual(it.doubts, ["7 inconsistent rows, and none without image 2, which is old, damaged or from another array there"])

    def test_no_rating_beside_one_with_more_whole_files(self) -> None:
        """A set with unsound rows has no rating where more files are whole without an image, whether parity tells then or not."""
        for text, more, score, ratings in ((SET, 1, 9, ("", "++")), ("6:ls:after-q:128:2048:0,1,2,3", 1, 9, ("", "++")), (SET, 0, 9, ("++", "++")),
                                           (SET, 1, 0, ("++", "+"))):
            it = candidate(text, whole(), unsound=7)
            lesser = damage.lesser(it, frozenset({2}))
            lesser.verdict, lesser.unsound = whole(longest=score and it.found.files.longest), 3
            lesser.verdict.files = dataclasses.replace(lesser.verdict.files, whole=it.found.files.whole + more, found=it.found.files.found + more)
            kin.in_order([it, lesser], Known.images)
            self.assertEqual((it.score.rating, lesser.score.rating), ratings)
        it = candidate(SET, whole(), unsound=7)
        lesser = damage.lesser(it, frozenset({2}))
        lesser.verdict = whole()
        lesser.verdict.files = dataclasses.replace(lesser.verdict.files, whole=it.found.files.whole + 1, found=it.found.files.found + 1)
        kin.in_order([it, lesser], Known.images)
        self.assertEqual(it.doubts, ["7 inconsistent rows, and fewer files are intact than without image 2"])


class OfRows(unittest.TestCase):
    @staticmethod
    def unsound(*bad: int) -> tuple[str, object]:
        """What `check` says of a set of which these rows of 1,000 are unsound."""
        def answer(_: list[str], text: str) -> Answer:
            window = min(1000, int(text.split("window ")[1].split()[0]))
            return put(f"unsound {sum(row < window for row in bad)} of {window}\nfail\n")
        return "reraid check", answer

    def test_bounds(self) -> None:
        found = Rows(scope_of(self.unsound(7, 300, 999)))
        near = Near(SET, plan_of(XFS))
        self.assertTrue(found.ask(near))
        self.assertEqual((near.told.unsound, found.bounds(near)), (3, Bounds(7, 999)))
        self.assertEqual(near.line(Bounds(7, 999)), f"  {SET}: 3 of 1000 rows inconsistent, first 7 and last 999; no landmarks")
        near.told = dataclasses.replace(near.told, seconds=rows.SLOW)
        self.assertEqual(found.bounds(near), Bounds())
        self.assertFalse(Rows(scope_of(("reraid check", Answer(None)))).ask(near))
        self.assertEqual(near.told.unsound, 3)

    def test_in_words(self) -> None:
        told = Checked(3, 1000)
        self.assertEqual(rows.rows_in_words(Checked(0, 1000), Bounds()), "parity is consistent in all 1000 rows")
        self.assertEqual(rows.rows_in_words(told, Bounds()), "3 of 1000 rows inconsistent")
        self.assertEqual(rows.rows_in_words(told, Bounds(7, 999)), "parity is consistent in rows 0 to 6; 3 of 1000 rows inconsistent, all from row "
                                                                   "7 on")
        self.assertEqual(rows.rows_in_words(told, Bounds(0, 12)), "3 of 1000 rows inconsistent, all in rows 0 to 12")
        self.assertEqual([Bounds(0, 12).text(), Bounds(7).text(), Bounds(None, 7).text()], [", first 0 and last 12", "", ""])

    def test_whole(self) -> None:
        found = Rows(scope_of(self.unsound()))
        self.assertEqual(found.whole(candidate()), "parity is consistent in all 1000 rows")
        self.assertEqual(found.whole(candidate("5:ls:none:8:0:0,1,-")), "no parity is left to test with 1 empty slot")
        self.assertEqual(found.whole(candidate("0:plain:none:8:0:0,1")), "RAID 0 has no parity to test")
        self.assertEqual(found.whole(candidate("near2:8:0:0,1")), "")
        left_out = candidate("5:ls:none:8:0:0,1,-", whole=candidate(unsound=5))
        self.assertEqual(found.whole(left_out), "with what is left out for bad rows, 5 rows tested inconsistent")

    def test_old_image(self) -> None:
        scope = scope_of(self.unsound(600, 601, 700))
        found = Rows(scope).old(candidate("6:ls:by-data:128:2048:0,-,1,2"))
        self.assertEqual([it.text(["a", "b", "c", "d.img"]) for it in found],
                         ["d.img is old or damaged from row 600 on, or from another array. In slot 1, parity is consistent with it in all but 3 of "
                          "1000 rows"])
        asked = cast(OfPlan, scope).standin.asked[0][0]
        self.assertIn("set=6:ls:by-data:128:2048:0,3,1,2", asked)
        self.assertEqual(Rows(scope).old(candidate("6:ls:by-data:128:2048:0,3,1,2")), [])
        # With another one missing at level 5 parity tells nothing; where most rows are unsound, or none is, the image is not old.
        self.assertEqual(Rows(scope_of(self.unsound())).old(candidate("6:ls:by-data:128:2048:0,-,1,2")), [])
        self.assertEqual(Rows(scope_of(self.unsound(*range(500)))).old(candidate("6:ls:by-data:128:2048:0,-,1,2")), [])

    def test_image_that_was_being_rebuilt(self) -> None:
        """Rows are unsound up to where the other images end to hold something, within a chunk."""
        for last, end in ((2048 + 828, True), (2048 + 829, False)):
            scope = scope_of(self.unsound(600, 601, 700))
            images = tuple(Image(f"i{k}", k, 8000, last=7000 if k == 3 else last) for k in range(4))
            setattr(scope, "evidence", types.SimpleNamespace(images=images, filled=1000, window=8000, end=8000))
            found = Rows(scope).old(candidate("6:ls:by-data:128:2048:0,-,1,2"))
            self.assertEqual([it.text("abcd").endswith("of 1000 rows; perhaps it was being rebuilt, up to there") for it in found], [end])
        self.assertNotIn("rebuilt", rows.Old(3, 1, Checked(3, 1000), Bounds(0, 900), True).text("abcd"))

    def test_who_is_bad(self) -> None:
        """Which image is bad parity tells only where the others have some without it."""
        for word, said in (("6:ls:by-data:128:2048:0,-,1,2", "d is old or damaged from"),
                           ("6:ls:by-data:128:2048:0,-,1,-", "or another image, is old"),
                           ("5:ls:none:128:2048:0,-,1,2", "d, or another image, is old or damaged from")):
            scope = scope_of(self.unsound(600, 601, 700))
            images = tuple(Image(f"i{k}", k, 8000, last=7000) for k in range(4))
            setattr(scope, "evidence", types.SimpleNamespace(images=images, filled=1000, window=8000, end=8000))
            found = Rows(scope).old(candidate(word))
            self.assertTrue(found)
            self.assertTrue(all(said in it.text("abcd") for it in found), [it.text("abcd") for it in found])

    def test_reshape(self) -> None:
        marks = [("super", 0, 2048 + 1280 * k, "every:49152:4:0") for k in range(8)]

        def answer(turn: int) -> tuple[str, object]:
            def told(_: list[str], text: str) -> Answer:
                end = int(text.split("end ")[1].split()[0])
                before = [1280 * k for k in range(8) if 2048 + 1280 * k < end]
                fits = sum(row < turn for row in before)
                return put(f"unsound 0 of 1\ngroup 0 xfs origin 0 fits {fits} misfits {len(before) - fits}\nfail\n")
            return "reraid check", told
        plan = plan_of(("xfs", marks))
        near = Near("5:ls:none:128:2048:0,1,2,3", plan, Checked(0, 9, (Held("xfs", 0, 4, 4),)))
        turned = Rows(scope_of(answer(1280 * 4))).turned(near)
        assert turned
        self.assertEqual(turned.row, 1280 * 4)
        self.assertEqual(turned.text(), "4 landmarks match before row 5120, and 4 from there on do not. A reshape may have stopped there, or "
                         "landmarks of an older array or file system follow")
        few = Near(near.word, plan, Checked(0, 9, (Held("xfs", 0, 6, 2),)))
        self.assertIsNone(Rows(scope_of(answer(1280 * 6))).turned(few))

        def mixed(_: list[str], text: str) -> Answer:
            # Every other mark fits.
            before = [k for k in range(8) if 2048 + 1280 * k < int(text.split("end ")[1].split()[0])]
            fits = sum(k % 2 == 0 for k in before)
            return put(f"unsound 0 of 1\ngroup 0 xfs origin 0 fits {fits} misfits {len(before) - fits}\nfail\n")
        self.assertIsNone(Rows(scope_of(("reraid check", mixed))).turned(near))


class Tested(InFolder):
    def over(self, *answers: tuple[str, object], maps: bool = False) -> Tests:
        """Tests over three images."""
        self.standin = Standin(*answers)  # type: ignore[arg-type]
        self.report = Told()
        room = Room(self.standin, self.folder, mounts=False)
        self.addCleanup(room.close)
        images = [Image(f"i{k}", k, 8000, map=Map("m", "0 +\n", ()) if maps else None) for k in range(3)]
        return Tests(Options(("i0", "i1", "i2"), jobs=2), self.standin, self.report, room, images)

    def test_one_of_each_class_the_simplest(self) -> None:
        five, six, other = candidate("5:ls:none:8:0:0,1,2"), candidate("6:ls:by-data:8:0:0,1,2,-"), candidate("5:la:none:8:0:0,1,2")
        standin = Standin(("reraid classes", put("0 x\n0 x\n1 x\nclasses 2 of 3\n")))
        found = in_classes(Program(standin, ("a",), 5, 1), [six, five, other, candidate("near2:8:0:0,1")], 99)
        self.assertEqual([it.word.text for it in found], [five.word.text, other.word.text, "near2:8:0:0,1"])
        self.assertEqual(five.alike, [six.word.text])
        self.assertEqual(in_classes(Program(Standin(), ("a",), 5, 1), [five], 99), [five])

    def test_asked_once(self) -> None:
        scope = scope_of(("reraid check", put("unsound 5 of 9\ngroup 0 xfs origin 0 fits 3 misfits 1\nfail\n")))
        it = candidate(scope=scope)
        tests = self.over()
        tests.ask(it, False)
        self.assertEqual((it.unsound, len(it.groups)), (None, 1))
        tests.ask(it, False)
        tests.ask(it)
        tests.ask(it)
        self.assertEqual((it.unsound, cast(OfPlan, scope).standin.count("reraid check")), (5, 2))
        self.assertIn("window 1\n", cast(OfPlan, scope).standin.asked[0][1])
        tests.ask(candidate("near2:8:0:0,1", scope=scope_of()))

    def test_begins(self) -> None:
        check = ("reraid check", put("unsound 0 of 1\ngroup 0 xfs origin 8 fits 3 misfits 0\npass\n"))
        for data, told in ((b"XFSB", True), (bytes(8 * SECTOR) + b"XFSB", True), (bytes(9 * SECTOR) + b"XFSB", False)):
            self.assertEqual(self.over(("reraid write", Answer(0, data))).begins(candidate(scope=scope_of(check))), told)

    def test_begins_with_copies_that_are_far(self) -> None:
        """What far copies begin with is read by the end with which they were asked for; of the command's output so much is taken."""
        tests = self.over(("reraid mirrorwrite", Answer(0, b"XFSB")))
        it = candidate("far2:8:0:0,1", scope=scope_of())
        it.step = dataclasses.replace(it.step, copied=Copied((NEAR_2,), 2, end=77))
        self.assertTrue(tests.begins(it))
        self.assertIn("end=77", cast(Standin, tests.commands).asked[0][0])

    def test_read(self) -> None:
        check = ("reraid check", put("unsound 0 of 1\ngroup 0 xfs origin 8 fits 3 misfits 0\npass\n"))
        it = self.over(("reraid write", Answer(10))).read(candidate(scope=scope_of(check)))
        self.assertEqual((it.found.text(), it.score), ("nothing recognized; no known files; its volume could not be written", Score.NOTHING))
        with mock.patch("os.truncate", side_effect=OSError(28, "No space left on device")):
            it = self.over(("reraid write", Answer(0))).read(candidate(scope=scope_of(check)))
        self.assertEqual(it.found.notes, ["its volume could not be read: No space left on device"])

    def test_how_much_is_lost(self) -> None:
        def said(text: str, *answers: tuple[str, object], maps: bool = True, mounted: bool = False) -> list[str]:
            tests = self.over(*answers, maps=maps)
            return tests.lost(named(read_word(text), tests.images), mounted)
        self.assertEqual(said(SET, maps=False), [])
        lost = put("lost 5 8\ngood 992 of 1000\n")
        self.assertEqual(said(SET, ("reraid salvage", lost)), ["8 of 1000 sectors (less than 1%) lost by the maps"])
        self.assertEqual(said(SET, ("reraid salvage", put("good 1000 of 1000\n"))), ["nothing lost by the maps"])
        self.assertEqual(said(SET, ("reraid salvage", Answer(9))), ["how much the maps leave lost is not known"])
        self.assertEqual(said("near2:8:0:0,1"), ["its maps are ignored"])
        self.assertEqual(said("near2:8:0:0,1", mounted=True), ["how much its maps leave lost is not known"])

    def test_doubtful_ones_are_put_off(self) -> None:
        def told(answered: list[str], _: str) -> Answer:
            return put("unsound 9 of 9\ngroup 0 xfs origin 0 fits 1 misfits 2\nfail\n" if "1,0,2" in answered[2] else "unsound 9 of 9\nfail\n")
        scope = scope_of(("reraid check", told))
        some = [candidate(text, scope=scope) for text in ("6:ls:by-data:8:0:0,1,2,3", "6:ls:by-data:8:0:1,0,2,3")]
        tests = self.over()
        self.assertEqual(tests.without_doubtful(some), some)
        for it in some:
            it.step = dataclasses.replace(it.step, request=BASE.having(misfits=8))
        self.assertEqual((tests.without_doubtful(some), tests.put_off), (some[:1], some[1:]))
        self.assertIn("1 of 2 layouts deferred", self.report.text)
        # Where all are put off nothing is tested.
        tests = self.over()
        self.assertEqual((tests.test(some[1:]), tests.put_off), ([], some[1:]))
        tests.late = True
        self.assertEqual(tests.without_doubtful(some), some)

    def test_too_many_where_parity_tells_nothing(self) -> None:
        tests = self.over()
        some = [candidate("0:plain:none:8:0:0,1")] * 1025
        self.assertEqual((tests.test(some), len(tests.put_off)), ([], 1025))

    def test_those_that_begin_with_something_first(self) -> None:
        some = [candidate(f"5:ls:none:8:{k}:0,1,2", scope=scope_of(("reraid check", put("unsound 0 of 9\npass\n")))) for k in range(9)]

        def data(answered: list[str], _: str) -> Answer:
            return Answer(0, b"XFSB" if ":5:" in answered[2] else b"none")
        tests = self.over(("reraid write", data))
        self.assertEqual([[it.word.offset for it in part] for part in tests.parts(some)], [[5]])
        self.assertEqual(len(tests.put_off), 8)
        self.assertEqual(tests.parts(some[:8]), [some[:8]])
        tests.late = True
        self.assertEqual([len(part) for part in tests.parts(some)], [1, 8])

    def test_files_of_many(self) -> None:
        """Of many sets those alone are looked through for files to which these may give a rating; the others at the end, the first of them."""
        for clean, looked, empty in ((3, [(3, True)], False), (99, [], False), (99, [], True)):
            some = [candidate(f"5:ls:none:8:{k}:0,1,2") for k in range(9)]
            tests, asked = self.over(), list[tuple[int, bool]]()

            def read(it: Candidate, files: bool = True, clean: int = clean, empty: bool = empty,
                     asked: list[tuple[int, bool]] = asked) -> Candidate:
                asked.append((it.word.offset, files))
                it.verdict = Verdict([Finding("", "xfs", None if empty else it.word.offset == clean)], counted=files, empty=empty)
                return it
            with mock.patch.object(tests, "read", read):
                self.assertEqual(tests.looked_at(some), some)
                self.assertEqual((sorted(asked[:9]), sorted(asked[9:])), ([(k, False) for k in range(9)], looked))
                asked.clear()
                with mock.patch("reraid_try.checks.tests.MAX_COUNTED", 7):
                    tests.count_late(some)
                self.assertEqual(sorted(asked), [(k, True) for k in range(8) if k != clean][:7])
                asked.clear()
                tests.looked_at(some[:8])
                self.assertEqual(sorted(asked), [(k, True) for k in range(8)])
                tests.count_late(some[:8])
                self.assertEqual(len(asked), 8)
        self.assertEqual(Verdict([Finding("", "xfs", False)], counted=False).text(), "xfs")

    def test_encrypted_ones_are_enough(self) -> None:
        """Where some of many begin with the head of an encrypted volume the others, which begin with nothing known, are not looked at."""
        some = [candidate(f"5:ls:none:8:{k}:0,1,2", scope=scope_of(("reraid check", put("unsound 0 of 9\npass\n")))) for k in range(9)]
        tests = self.over(("reraid write", lambda words, _: Answer(0, b"LUKS\xba\xbe" if ":5:" in words[2] else b"none")),
                          ("reraid classes", put("".join(f"{k} x\n" for k in range(8)) + "classes 8 of 8\n")))
        tests.late = True
        for kind, looked_at in (("crypto_LUKS", 1), ("vfat", 9)):
            def read(it: Candidate, _files: bool = True, kind: str = kind) -> Candidate:
                it.verdict = Verdict([Finding("", kind)])
                return it
            with mock.patch.object(tests, "read", read):
                self.assertEqual(len(tests.test(some)), looked_at)

    def test_images_that_make_rows_unsound(self) -> None:
        def told(answered: list[str], _: str) -> Answer:
            return put(f"unsound {2 if '-,1,2' in answered[2] else 5 if '0,-,2' in answered[2] else 9} of 9\nfail\n")
        it = candidate("6:ls:by-data:8:0:0,1,2,3", scope=scope_of(("reraid check", told)), unsound=9)
        self.assertEqual(self.over().left_out(it), [frozenset({0, 1})])
        self.assertIn("9 rows inconsistent, 7 because of image 0, 4 because of image 1", self.report.text)
        self.assertEqual(self.over().left_out(candidate(unsound=9)), [frozenset({image}) for image in range(3)])

    def test_sound_without_an_image(self) -> None:
        """What has no unsound row without an image is kept, also where no more files are whole then."""
        def told(answered: list[str], _: str) -> Answer:
            return put(f"unsound {0 if '0,1,-,3' in answered[2] else 9} of 9\nfail\n")
        it = candidate("6:ls:by-data:8:0:0,1,2,3", whole(), scope=scope_of(("reraid check", told)), unsound=9)
        tests = self.over()

        def read(one: Candidate, _files: bool = True) -> Candidate:
            one.verdict = whole()
            tests.ask(one)
            return one
        with mock.patch.object(tests, "read", read):
            self.assertEqual([one.listed and one.listed.text for one in tests.without_damaged([it])], ["6:ls:by-data:8:0:0,1,-,3"])

    def test_files_before_images_are_left_out(self) -> None:
        """What is compared with a set without an image has its files counted: else it would look worse."""
        it = candidate("6:ls:by-data:8:0:0,1,2,3", Verdict([Finding("", "xfs", False)], counted=False), unsound=9)
        tests, asked = self.over(), list[str]()

        def read(one: Candidate, _files: bool = True) -> Candidate:
            asked.append(one.word.text)
            one.verdict = Verdict([Finding("", "xfs", False)], Wholes(9, 5))
            return one
        with mock.patch.multiple(tests, read=read, left_out=lambda _: [frozenset({1})]):
            self.assertEqual(tests.without_damaged([it]), [])
        self.assertEqual(asked[0], it.word.text)

    def test_what_a_checker_said_stays(self) -> None:
        """Where the run is ended while files are looked for."""
        verdict = Verdict([Finding("", "xfs", False)], counted=False)
        it, tests = candidate(verdict=verdict, unsound=0), self.over()
        with mock.patch.object(tests.room, "volume", side_effect=Stopped), self.assertRaises(Stopped):
            tests.read(it)
        self.assertIs(it.verdict, verdict)

    def test_told_once(self) -> None:
        tests = self.over()
        for verdict in (whole(), whole(), whole(None, 0)):
            tests.tell(candidate(verdict=verdict))
        self.assertEqual(self.report.lines, [f"  {SET}: xfs: said; 1 of 1 files intact"])


class Printed(unittest.TestCase):
    images = [Image(f"/x/{name}.img", k, 8000) for k, name in enumerate("abcd")]

    def test_in_words(self) -> None:
        names = [image.name for image in self.images]
        self.assertEqual(words.in_words(read_word("5:ls:none:128:2048:2,-,1"), names),
                         ["RAID 5 of 3 disks, left-symmetric, chunks of 64 KiB", "disk order: c.img (missing) b.img", "missing: slot 1 of 0 to 2",
                          "data offset: 2048 sectors", "unused images: a.img d.img"])
        self.assertEqual(words.in_words(read_word("6:ls-6:by-data:1:0:0,1,2,3"), names),
                         ["RAID 6 of 4 disks, left-symmetric-6 (Q on the last slot), Q coefficients by data number, chunks of 512 bytes",
                          "disk order: a.img b.img c.img d.img", "missing: none", "data offset: 0 sectors", "unused images: none"])
        self.assertEqual(words.layout(read_word("5:la*16:none:128:0:0,1,2,3")),
                         "RAID 5 of 4 disks, left-asymmetric, delayed parity: it moves after 16 rows, as with Smart Array controllers")
        self.assertEqual(words.layout(read_word("6:ls-6*2:after-q:128:0:0,1,2,3")), "RAID 6 of 4 disks, left-symmetric-6 (Q on the last slot), "
                         "delayed parity: it moves after 2 rows, as with Smart Array controllers")
        self.assertEqual(words.in_words(read_word("0:plain:none:8:7+9:1,0"), ["u/a", "v/a"]),
                         ["RAID 0 of 2 disks, chunks of 4 KiB", "disk order: v/a u/a",
                          "missing: none, or only copies (a RAID 10 with one copy left of each disk is such a RAID 0)",
                          "data offset in sectors: 7 of u/a, 9 of v/a", "unused images: none"])

    def test_which_of_two_copies_cannot_be_known(self) -> None:
        said = words.in_words(read_word("near2:128:2048:0,1,-,2"), [image.name for image in self.images[:3]])
        self.assertEqual(said, ["RAID 10 (near=2) of 4 disks, chunks of 64 KiB",
                                "disk order: a.img=b.img (missing)=c.img (which of two copies is the first cannot be known)",
                                "missing: one of slot 2 and slot 3 (one of two copies; which one is unknown)", "data offset: 2048 sectors",
                                "unused images: none"])
        self.assertIn("missing: slot 1 of 0 to 2", words.missing(read_word("near2:128:2048:0,-,2")))

    def test_more_copies_and_other_layouts(self) -> None:
        names = [image.name for image in self.images]
        said = words.in_words(read_word("near3:128:2048:0,-,1,2,-,-"), names[:3])
        self.assertTrue(said[0].startswith("RAID 10 (near=3) of 6 disks, "))
        gone = "(missing)"
        self.assertEqual(said[1], f"disk order: a.img={gone}=b.img c.img={gone}={gone} (which of three copies is the first cannot be known)")
        self.assertEqual(said[2], "missing: one of slot 0, slot 1 and slot 2 (one of three copies; which one is unknown), "
                                  "two of slot 3, slot 4 and slot 5 (two of three copies; which one is unknown)")
        # Of six slots with four copies of each chunk two hold the same each time, and both of such two may be lost.
        self.assertEqual(words.missing(read_word("near4:8:0:-,0,-,-,1,2")),
                         "missing: one of slot 0 and slot 1 (one of two copies; which one is unknown), slot 2 and slot 3")
        for layout, kind in (("far2", "far=2"), ("offset3", "offset=3")):
            said = words.in_words(read_word(f"{layout}:128:2048:0,1,-,2"), names[:3])
            self.assertTrue(said[0].startswith(f"RAID 10 ({kind}) of 4 disks, "))
            wanted = "disk order: a.img b.img (missing) c.img", "missing: slot 2 of 0 to 3", "unused images: none"
            self.assertEqual((*said[1:3], said[4]), wanted)

    def test_left_out(self) -> None:
        said = words.in_words(read_word("5:ls:none:8:0:0,-,1"), ["a", "b", "c", "d"], read_word("5:ls:none:8:0:0,3,1"))
        self.assertEqual(said[2:], ["missing: slot 1 of 0 to 2", "data offset: 0 sectors", "unused images: c; left out for bad rows: d (slot 1)"])

    def test_twins(self) -> None:
        images = [*self.images[:2], Image("c", 2, 9, like=0), Image("d", 3, 9)]
        self.assertEqual(words.twins(read_word("5:ls:none:8:0:0,1,3"), images),
                         ["c and a.img hold the same data: which of them belongs there cannot be known"])
        self.assertEqual(words.twins(read_word("5:ls:none:8:0:1,3,-"), images), [])

    def shown(self, *found: Candidate, as_json: bool = False, images: list[Image] | None = None) -> Told:
        """What is printed of these candidates."""
        report = Told(as_json)
        table.show(report, found, images or self.images)
        return report

    def test_best(self) -> None:
        two, one = candidate(verdict=whole(), number=1), candidate(verdict=whole(longest=50), number=2)
        known = candidate(verdict=whole(None, 0))
        self.assertEqual(words.best([two, one, known]), [(0, two), (1, one)])
        self.assertEqual(words.best([known, one]), [(1, one)])
        self.assertEqual(words.best([known]), [])
        self.assertEqual(words.best([dataclasses.replace(two, same=1)]), [])

    def test_table(self) -> None:
        it = candidate(verdict=whole(), unsound=3, groups=(Held("xfs", 0, 3, 1),), alike=["6:x"], old=("d.img is old or damaged",),
                       rows="parity holds")
        text = self.shown(it, candidate("5:la:none:128:2048:0,1,2", whole(False))).text
        self.assertIn(f"++  0   {SET}\n        6:x\n        xfs: said; 1 of 1 files intact\n"
                      "        relaxed: nothing; landmarks that match: xfs 3-1; 3 inconsistent rows\n", text)
        self.assertIn("    1   5:la:none:128:2048:0,1,2\n", text)
        self.assertIn("candidate 0: RAID 5 of 3 disks", text)
        self.assertIn("\n  relaxed: nothing\n  parity holds\n  same volume, cannot be told apart: 6:x\n  d.img is old or damaged\n"
                      "  to mount it read-only, as root:\n    reraid-mount", text)
        self.assertIn("  to undo that:\n    umount /mnt\n    umount candidate0", text)
        self.assertEqual(self.shown().lines[-1], "no candidates")

    def test_why_there_is_no_rating(self) -> None:
        little = whole()
        little.length = 100000
        self.assertIn("no rating: what was found covers 1% of the volume", self.shown(candidate(verdict=little)).text)
        self.assertIn("; rating lowered: a landmark group with most landmarks was left out",
                      self.shown(candidate(verdict=whole(), left_most=True)).text)

    def test_json(self) -> None:
        report = self.shown(candidate(verdict=whole(), inside=None), as_json=True)
        events = [json.loads(line) for line in report.lines]
        self.assertEqual([it["event"] for it in events], ["candidate", "end", "words"])
        self.assertEqual({name: events[0][name] for name in ("set", "score", "sign", "clean", "files", "files_whole", "loosened", "doubts")},
                         {"set": SET, "score": 3, "sign": "++", "clean": True, "files": 1, "files_whole": 1, "loosened": [], "doubts": []})
        self.assertEqual(events[2]["commands"][0], f"reraid-mount {SET} candidate0 /x/a.img /x/b.img /x/c.img /x/d.img")
        self.assertEqual(events[2]["ends"][-1], "umount candidate0")

    def test_many(self) -> None:
        many = [candidate(f"5:ls:none:8:{k}:0,1,2", whole(False, k), number=k) for k in range(30)]
        text = self.shown(*many, candidate("5:la:none:8:0:0,1,2", Verdict())).text
        self.assertIn("6 more: a checker reports errors (--json lists them all)\n1 more: nothing recognized in the volume", text)
        self.assertIn("5:ls:none:8:29:0,1,2", text)
        self.assertNotIn("5:ls:none:8:5:0,1,2", text)
        self.assertEqual(sum(line.startswith("{") for line in self.shown(*many, as_json=True).lines), 31)

    def test_encrypted(self) -> None:
        closed = [candidate(f"5:ls:none:8:{k}:0,1,2", whole(None, 0, "crypto_LUKS"), number=k) for k in (0, 2048)]
        for it in closed:
            it.found.files = Wholes()
        text = self.shown(*closed).text
        self.assertIn("encrypted (crypto_LUKS): no checker tells these candidates from a wrong one. Try each with its key: candidate 0, "
                      "1\ncandidate 0: RAID 5", text)
        self.assertIn("    cryptsetup open --readonly candidate1/volume candidate1 && mount", text)

    def test_maps_are_named(self) -> None:
        images = [dataclasses.replace(image, map=Map("m", "", ())) for image in self.images]
        closed = Opened(Container("E01", ("d.E01",)), "/x/opened", (), "opened/d")
        self.assertIn("what the mapfiles list as unread is computed from parity if", self.shown(candidate(verdict=whole()), images=images).text)
        long = Map("m", "", ((0, 512, "-"),) * 500)
        self.assertIn("(this shows what a container holds in its unread areas: place the mapfile",
                      self.shown(candidate(verdict=whole()), images=[dataclasses.replace(images[0], opened=closed, map=long), *images[1:]]).text)
        self.assertIn("is read from another copy if", self.shown(candidate("near2:8:0:0,1", verdict=whole()), images=images).text)
        self.assertNotIn("unread", self.shown(candidate(verdict=whole())).text)


class Left(unittest.TestCase):
    def test_only_of_what_takes_long_and_is_not_done(self) -> None:
        bar = report.Bar()
        bar.since = time.monotonic() - 10
        self.assertEqual((bar.left(1, 3), bar.left(3, 3), bar.left(0, 3)), (", about 20 s left", "", ""))
        bar.since = time.monotonic() - 1
        self.assertEqual(bar.left(1, 3), "")


class Reported(unittest.TestCase):
    def test_lines_and_objects(self) -> None:
        report = Told()
        report.say("event", "text", number=1)
        report.command("ls")
        self.assertEqual(report.lines, ["text", "  $ ls"])
        report = Told(True)
        report.say("event", "text", number=1)
        report.say("event", "täxt")
        report.command("ls")
        self.assertEqual([json.loads(line) for line in report.lines],
                         [{"event": "event", "number": 1}, {"event": "event", "text": "täxt"}, {"event": "command", "command": "ls"}])

    def test_progress(self) -> None:
        report = Report()
        report.total = 100 << 20
        shown: list[str] = []
        with mock.patch.object(report.bar, "show", shown.append):
            report.progress("reraid survey", 20 << 20, 2)
            report.progress("reraid list", 20 << 20, 2)
        self.assertEqual(shown, ["reraid survey: 20 MiB read, 10 MiB/s, about 8 s left", "reraid list: 20 MiB read, 10 MiB/s"])


if __name__ == "__main__":
    unittest.main()
