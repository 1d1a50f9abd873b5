"""Layouts read off votes that were laid out by hand-made rules, with noise, missing disks and several file systems, and how they are asked for."""

import dataclasses
import random
import types
import unittest
from collections.abc import Sequence
from typing import Any
from unittest import mock

from reraid_try.calls.commands import Answer
from reraid_try.calls.plans import Plan
from reraid_try.calls.program import LAST
from reraid_try.errors import Refused
from reraid_try.evidence import readoff
from reraid_try.evidence.images import Image
from reraid_try.evidence.readoff import Fit, Form, Peak, Proposal, Sought, Vote
from reraid_try.options import Options
from reraid_try.policy import proposed
from reraid_try.policy.evident import Evident
from reraid_try.policy.scope import Scope
from reraid_try.policy.plain import Target, Span
from reraid_try.policy.proposed import Query
from reraid_try.policy.shapes import Shape
from reraid_try.policy.steps import Step
from reraid_try.units import SECTOR
from tests.standin import InFolder, Standin, Told, plan_of, put

CHUNKS = (8, 16, 32, 64, 128, 256, 512, 1024, 2048)
OFFSETS = (0, 128, 1024, 2048, 4096, 262144)


@dataclasses.dataclass(frozen=True)
class Array:
    """An array by its rows: each has the slots of its data chunks, in order, and the rows repeat."""

    rows: Sequence[Sequence[int]]
    slots: Sequence[int | None]
    chunk: int = 128
    offset: int = 2048

    def votes(self, count: int, origin: int, group: int = 0, seed: int = 1) -> list[Vote]:
        """Votes of a file system that begins at a sector of the volume, which lie where the rows say."""
        rnd, found = random.Random(seed), list[Vote]()
        while len(found) < count:
            place = rnd.randrange(12000) * 16
            chunk, within = divmod(origin + place, self.chunk)
            row, number = divmod(chunk, len(self.rows[0]))
            image = self.slots[self.rows[row % len(self.rows)][number]]
            if image is not None:
                found.append(Vote(group, image, self.offset + row * self.chunk + within, place))
        return found


def noise(count: int, images: int, group: int = 0) -> list[Vote]:
    """Votes that say anything."""
    rnd = random.Random(7)
    return [Vote(group, rnd.randrange(images), 2048 + rnd.randrange(6000) * 8, rnd.randrange(12000) * 16) for _ in range(count)]


def sought(*forms: Form, origins: Sequence[int] = (0, 2048), offsets: Sequence[int] = OFFSETS) -> Sought:
    """What is looked for among these forms."""
    return Sought(forms, CHUNKS, tuple(offsets), frozenset(origins))


# Level 5 ls and level 6 ra of the documents, for five and six members; ls of five whose parity stays for 16 rows.
LS_5 = ((0, 1, 2, 3), (4, 0, 1, 2), (3, 4, 0, 1), (2, 3, 4, 0), (1, 2, 3, 4))
RA_6 = ((2, 3, 4, 5), (0, 3, 4, 5), (0, 1, 4, 5), (0, 1, 2, 5), (0, 1, 2, 3), (1, 2, 3, 4))
LS_16 = tuple(row for row in LS_5 for _ in range(16))
ONE_LOST, TWO_LOST = (2, None, 0, 3, 1), (3, None, 1, 0, None, 2)
LOST_FORMS = Form("0", 4), Form("5", 5), Form("6", 6)


class Read(unittest.TestCase):
    def found(self, votes: Sequence[Vote], asked: Sought) -> tuple[str, str, int, int, int, tuple[int | None, ...]]:
        """The level, pattern, delay, chunk, offset and slots of the best proposal."""
        it = readoff.read(votes, asked)[0]
        return it.form.level, it.pattern, it.delay, it.chunk, it.offset, tuple(it.slots)

    def test_noise_and_missing_disks(self) -> None:
        """With none, half and four fifths of the votes noise: as many disks missing as the level bears."""
        for rows, slots, level, pattern, delay in ((LS_5, ONE_LOST, "5", "ls", 1), (RA_6, TWO_LOST, "6", "ra", 1), (LS_16, ONE_LOST, "5", "ls", 16)):
            for count in (0, 600, 2400):
                votes = Array(rows, slots).votes(600, 2048) + noise(count, 4)
                self.assertEqual(self.found(votes, sought(*LOST_FORMS)), (level, pattern, delay, 128, 2048, slots), (level, delay, count))

    def test_how_many_fit(self) -> None:
        """All true votes fit, and how many at the next set is told: at that of another pattern far fewer."""
        array = Array(LS_5, ONE_LOST)
        it = readoff.read(array.votes(600, 2048) + noise(0, 4), sought(*LOST_FORMS))[0]
        self.assertEqual((it.fits, it.explained), ((Fit(0, 600, 2048, 600),), 600))
        noisy = readoff.read(array.votes(600, 2048) + noise(2400, 4), sought(*LOST_FORMS))[0]
        self.assertEqual(noisy.fits[0].votes, 3000)
        self.assertTrue(600 <= noisy.fits[0].fits < 620)
        self.assertLess(noisy.following, 500)

    def test_no_disk_missing(self) -> None:
        """Where all are there, and chunks of other lengths."""
        for chunk in (16, 64, 1024):
            array = Array(LS_5, (4, 2, 0, 3, 1), chunk)
            self.assertEqual(self.found(array.votes(600, 0) + noise(600, 5), sought(Form("5", 5), Form("6", 6), Form("0", 5))),
                             ("5", "ls", 1, chunk, 2048, (4, 2, 0, 3, 1)))

    def test_striped(self) -> None:
        """Rows of a RAID 0, of which levels with fixed parity that is missing explain as much: the lower level comes first."""
        votes = Array(((0, 1, 2),), (1, 2, 0)).votes(300, 2048)
        levels = [it.form.level for it in readoff.read(votes, sought(Form("0", 3), Form("5", 4), Form("6", 5)))]
        self.assertEqual((levels[0], {"5", "6"} <= set(levels)), ("0", True))

    def test_two_file_systems(self) -> None:
        """Two that begin at different places vote together, where one alone would not tell: of each it is known where it begins."""
        array = Array(LS_5, ONE_LOST)
        it = readoff.read(array.votes(200, 2048) + array.votes(150, 43008, 1, 2), sought(*LOST_FORMS, origins=(0, 2048, 43008)))[0]
        self.assertEqual((it.pattern, it.slots), ("ls", ONE_LOST))
        self.assertEqual(it.fits, (Fit(0, 200, 2048, 200), Fit(1, 150, 43008, 150)))

    def test_two_extents(self) -> None:
        """Of a file system in two extents the larger one tells where it begins, and both tell the order."""
        array = Array(LS_5, ONE_LOST)
        moved = [dataclasses.replace(it, place=it.place + 500000) for it in array.votes(100, 204800, 0, 3)]
        it = readoff.read(array.votes(200, 2048) + moved, sought(*LOST_FORMS))[0]
        self.assertEqual((it.slots, it.fits), (ONE_LOST, (Fit(0, 200, 2048, 300),)))

    def test_a_foreign_image(self) -> None:
        """One image has landmarks of another layout: it gets no slot."""
        votes = Array(LS_5, (2, 4, 0, 3, 1)).votes(800, 2048) + [Vote(0, 5, 2048 + 8 * k, 16 * ((k * 7919) % 12000)) for k in range(200)]
        self.assertEqual(self.found(votes, sought(Form("5", 5, 1)))[-1], (2, 4, 0, 3, 1))

    def test_unknown_origin(self) -> None:
        """Where a file system begins at a place that is not known, that is told for the offset."""
        found = readoff.read(Array(LS_5, ONE_LOST).votes(400, 7168), sought(*LOST_FORMS, offsets=(2048,)))
        self.assertEqual((found[0].slots, found[0].fits[0].origin), (ONE_LOST, 7168))

    def test_nothing(self) -> None:
        """Noise alone, few votes, and none propose nothing."""
        none: list[Vote] = []
        for votes in (noise(2000, 4), Array(LS_5, ONE_LOST).votes(9, 2048), none):
            self.assertEqual(readoff.read(votes, sought(*LOST_FORMS)), [])

    def test_peaks(self) -> None:
        """The chunk, the border and the number of data chunks have the highest peak."""
        votes = Array(RA_6, TWO_LOST, 64, 2048 + 8).votes(500, 0)
        best = readoff.peaks(votes, sought(*LOST_FORMS, Form("6", 5), offsets=(0, 8, 16, 2056)))
        # Votes lie 16 sectors apart, so borders 0 and 8 are alike.
        self.assertEqual([it for it in best if it.votes == 500], [Peak(64, 0, 4, 500), Peak(64, 8, 4, 500)])

    def test_window(self) -> None:
        rows: list[tuple[dict[int, int], int, tuple[int, int]]] = [
            ({1: 5, 2: 5, 9: 8}, 2, (10, 1)), ({1: 5, 2: 5, 9: 11}, 2, (11, 9)), ({-3: 1, -1: 1, 0: 1}, 3, (2, -3)), ({}, 3, (0, 0))]
        for numbers, width, wanted in rows:
            self.assertEqual(readoff.window(numbers, width), wanted)


def proposal(level: str, members: int, *fits: Fit, chunk: int = 128, delay: int = 1, offset: int = 2048) -> Proposal:
    """A proposal with these fits."""
    slots = (2, None, 0, 1) + (None,) * (members - 4)
    return Proposal(Form(level, members), "ls" if level != "0" else "plain", delay, chunk, offset, slots[:members], fits, 41)


SHAPES = Shape("0", 3), Shape("5,6", 4, 1)


def marked(*counts: int) -> Plan:
    """A plan with groups of so many inodes."""
    groups = [("xfs5", [("xfs5", k % 3, 2176 + 128 * k, f"at:{128 * k}") for k in range(count)]) for count in counts]
    return plan_of(("xfs", [("super", 0, 2048, "every:49152:4:0")]), *groups, lengths=(8000,) * 3)


class Queries(InFolder):
    def scope(self, plan: Plan, listed: Answer) -> Scope:
        """A scope over three images with such a survey, of which a listing gives this."""
        names = [self.file(f"{k}.img", b"x" * 8000 * SECTOR) for k in range(3)]

        def answer(words: list[str], _: str) -> Answer:
            return put("next 9 of 9\n") if f"from={LAST}" in words else listed
        self.standin = Standin(("reraid survey", put(plan.text())), ("reraid list", answer))
        return Scope(Options(tuple(names)), self.standin, [Image(name, k, 8000) for k, name in enumerate(names)], lambda *_: None)

    def test_votes(self) -> None:
        """Those of the kinds that are asked for, of groups with twelve landmarks at least; a landmark that lies twice has two."""
        self.assertEqual(len(proposed.votes_of(marked(12, 11, 13), ["xfs5"])), 25)
        self.assertEqual(proposed.votes_of(marked(12), ["extinode"]), [])
        twice = plan_of(("btrfstree", [("btrfstree", 1, 70, "either:5:9")] * 12))
        self.assertEqual(proposed.votes_of(twice, ["btrfstree"])[:2], [Vote(0, 1, 70, 5), Vote(0, 1, 70, 9)])

    def test_queries(self) -> None:
        """One for each form, chunk and delay; those alone whose origins are known, if there are any."""
        known, other = Fit(1, 90, 2048, 99), Fit(1, 90, 7168, 99)
        found = [proposal("5", 4, other, offset=0), proposal("5", 4, known), proposal("0", 3, known), proposal("5", 4, known, offset=4096),
                 proposal("6", 4, known, delay=16)]
        asked = list(proposed.queries(found, SHAPES, frozenset((0, 2048))))
        self.assertEqual([(it.shape.line(), [one.offset for one in it.proposals]) for it in asked],
                         [("RAID 5 of 4 disks, 1 missing", [2048, 4096]), ("RAID 0 of 3 disks", [2048]),
                          ("RAID 6 of 4 disks, 1 missing", [2048])])
        for fits, count in ((9, 0), (10, 1)):
            chance = proposal("5", 4, Fit(1, fits, 2048, 100))
            self.assertEqual(len(list(proposed.queries([chance], SHAPES, frozenset((0, 2048))))), count)
        self.assertEqual([it.offset for query in proposed.queries(found[:1], SHAPES, frozenset((0,))) for it in query.proposals], [0])

    def test_plan(self) -> None:
        """Nearly as many landmarks have to fit, of each group that is proposed; no other group has to."""
        query = Query(SHAPES[1], (proposal("5", 4, Fit(1, 64, 2048, 70), Fit(3, 20, 9216, 24), delay=16), proposal("5", 4, offset=4096)))
        plan = query.plan(marked(70, 30, 24))
        self.assertEqual([(group.place, group.bounds.text() if group.bounds else "") for group in plan.groups],
                         [(1, "bounds 70 62\n"), (3, "bounds 24 20\n")])
        self.assertEqual([plan.values[name] for name in ("levels", "chunks", "offsets", "origins", "delays")],
                         ["5", "128", "2048,4096", "0,2048,9216", "16"])

    def attempted(self, listed: Answer, found: Sequence[Proposal] | Exception) -> tuple[bool, list[str], list[tuple[Step, list[str]]]]:
        """Whether the search is at its end, what was said, and the steps with the sets that were tested."""
        report, tested = Told(), list[tuple[Step, list[str]]]()

        def take(_scope: Scope, step: Step, sets: Any, words_of: Any) -> bool:
            tested.append((step, [words_of(it)[1].text for it in sets]))
            return True
        search: Any = types.SimpleNamespace(report=report, why="before", take=take, say_step=lambda _scope, step, _listing: step,
                                            say_refused=lambda error: report.put(str(error)))
        with mock.patch.object(readoff, "read", side_effect=[found]):
            done = proposed.attempt(search, self.scope(marked(70), listed), SHAPES, ["xfs5"])
        self.assertEqual(search.why, "before")
        return done, report.lines, tested

    def test_step(self) -> None:
        """What is listed is tested, with the reason by its first proposal; a listing with too many sets, or that is cut short, says nothing."""
        found = [proposal("5", 4, Fit(1, 64, 2048, 70))]
        rows = "".join(f"{rank} 5:ls:none:128:2048:2,-,0,1\n" for rank in range(65))
        done, said, tested = self.attempted(put("0 5:ls:none:128:2048:2,-,0,1\nnext 9 of 9\n"), found)
        self.assertEqual((done, said), (True, ["  read off inodes of an XFS: 64 of 70 match 5:ls:none:128:2048:2,-,0,1, the next layout 41"]))
        (step, words), = tested
        wanted = "RAID 5 of 4 disks, 1 missing", ["5:ls:none:128:2048:2,-,0,1"], frozenset({0, 1})
        self.assertEqual((step.shape.line(), words, step.out), wanted)
        self.assertEqual(self.attempted(put(rows + "next 9 of 9\n"), found)[::2], (False, []))
        self.assertEqual(self.attempted(put("next 9 of 9\n"), [])[::2], (False, []))

    def test_refused(self) -> None:
        """What the program refuses is said, and the search goes on."""
        self.assertEqual(self.attempted(put("next 9 of 9\n"), Refused("no"))[:2], (False, ["no"]))


class Asked(unittest.TestCase):
    def test_of_which_targets(self) -> None:
        """Of those with shapes and one offset for all images, if a superblock was seen whose kind the program knows."""
        plain, each = Target((0, 1), Span(0, 9), "why", SHAPES), Target((0, 1), Span(0, 9), "why", SHAPES, (("mode", "each"),))
        for target, kinds, group, asked in ((plain, ("xfs5",), "xfs", 1), (each, ("xfs5",), "xfs", 0), (plain, (), "xfs", 0),
                                            (plain, ("xfs5",), "ext", 0), (Target((0, 1), Span(0, 9), "why", copied=True), ("xfs5",), "xfs", 0),
                                            (plain, ("mft",), "ntfs", 1), (plain, ("xfs5",), "ntfs", 0)):
            search: Any = types.SimpleNamespace(options=Options(("a",)), tested=[])
            scope: Any = types.SimpleNamespace(plan=types.SimpleNamespace(groups=[types.SimpleNamespace(kind=group)]),
                                               evidence=types.SimpleNamespace(images=()))
            it = Evident(search)
            it.__dict__["later_kinds"] = kinds
            with mock.patch.object(proposed, "attempt", return_value=True) as attempt:
                self.assertEqual((it.read_off(scope, target, 0), attempt.call_count), (bool(asked), asked))


if __name__ == "__main__":
    unittest.main()
