"""What is read of large images: the parts that they hold, the rows that are sampled, one survey for all, and the bounds on all of that."""

import dataclasses
import os
import threading
import types
import unittest
from collections.abc import Mapping
from typing import Any, cast
from unittest import mock

from reraid_try.calls import meter, plans
from reraid_try.calls.commands import Answer, Commands
from reraid_try.calls.memory import bounded
from reraid_try.calls.meter import Meter
from reraid_try.calls.plans import Group, Mark, Plan
from reraid_try.calls.program import Listing
from reraid_try.calls.surveys import Request
from reraid_try.evidence import amounts, compact, extents, reading, sampling, surveying
from reraid_try.evidence import images as images_module
from reraid_try.evidence.compact import Parts
from reraid_try.evidence.images import Image, equal, filled
from reraid_try.evidence.relations import Relations, Rows, Tie
from reraid_try.evidence.metadata import Member
from reraid_try.evidence.surveying import LargeSurveys, Shared
from reraid_try.evidence.ties import Ties
from reraid_try.options import Options
from reraid_try.policy import mirrors, plain
from reraid_try.policy.evident import Evident
from reraid_try.policy.mirrors import Grouped
from reraid_try.policy.plain import Target, Span
from reraid_try.policy.shapes import Shape
from reraid_try.policy.steps import Step
from reraid_try.units import ALL
from tests.standin import Here, Standin, put

SECTOR, MIB, GIB = 512, 1 << 20, 1 << 30
# The parameters of a plan as `survey` prints them.
VALUES = {name: "0" for name in plans.FIELDS}


def sparse(name: str, sectors: int, parts: Mapping[int, bytes]) -> str:
    """Makes a file of so many sectors that holds nothing but these bytes, each from a sector on, and returns its name."""
    with open(name, "wb") as file:
        file.truncate(sectors * SECTOR)
        for sector, data in parts.items():
            file.seek(sector * SECTOR)
            file.write(data)
    return name


def plan_of(*groups: tuple[str, list[Mark]], images: int = 2, end: int = 0) -> Plan:
    """A plan of these groups."""
    found = (Group(kind, tuple(marks), place) for place, (kind, marks) in enumerate(groups))
    return Plan(plans.COMMON, (1 << 30,) * images, end, VALUES, tuple(found))


class Extents(Here):
    def test_held(self) -> None:
        """Two megabytes, a gigabyte apart, are the runs of a sparse file, as the file system rounds them; a part of it has its part of them."""
        name = sparse("a", 4 * GIB // SECTOR, {MIB // SECTOR: b"x" * MIB, GIB // SECTOR: b"y" * MIB})
        self.assertEqual(extents.held(name, 0, 4 * GIB // SECTOR), [(2048, 4096), (2097152, 2099200)])
        self.assertEqual(extents.held(name, 3000, 2097160), [(3000, 4096), (2097152, 2097160)])
        self.assertEqual(extents.held(name, 5000, 9000), [])

    def test_held_by_any(self) -> None:
        """Of several images the runs of all, each moved by its offset."""
        names = [sparse("a", 1 << 20, {8192: b"x" * MIB}), sparse("b", 1 << 20, {100000: b"x" * MIB})]
        self.assertEqual(extents.held_by_any(names, 0, 1 << 19), [(8192, 10240), (100000, 102048)])
        self.assertEqual(extents.held_by_any(names, 0, 1 << 19, [0, 800]), [(8192, 10240), (99200, 101248)])

    def test_joined(self) -> None:
        """Runs that overlap, touch or lie near are one."""
        self.assertEqual(extents.joined([(8, 9), (0, 4), (3, 6)]), [(0, 6), (8, 9)])
        self.assertEqual(extents.joined([(8, 9), (0, 4)], 4), [(0, 9)])

    def test_spread(self) -> None:
        """Rows lie evenly over what runs hold, and the first of each run is one."""
        found = extents.spread([(0, 100), (1000, 1100)], 20)
        self.assertEqual(found, [*range(0, 100, 10), *range(1000, 1100, 10)])
        self.assertEqual(extents.spread([(5, 6), (100, 103)], 20), [5, 100, 101, 102])
        self.assertEqual(extents.spread([], 20), [])


class Samples(Here):
    END = 64 * GIB // SECTOR

    def test_sparse(self) -> None:
        """Of sparse images half of the rows lie where these hold something, though that is a part in thousands; holes are not read."""
        names = [sparse(name, self.END, {40 * GIB // SECTOR: os.urandom(2 * MIB)}) for name in "ab"]
        found = sampling.look(names, 0, self.END, 400)
        inside = [row for row in found.rows if 40 * GIB <= row * SECTOR < 40 * GIB + 2 * MIB]
        self.assertGreaterEqual(len(inside), 190)
        self.assertLessEqual(len(found.rows), 800)
        reader = sampling.Reader(names)
        self.assertEqual(reader.row(1000), (bytes(SECTOR), bytes(SECTOR)))
        self.assertEqual(reader.read, 0)
        reader.row(inside[0])
        reader.row(inside[0])
        self.assertEqual(reader.read, 2 * SECTOR)
        reader.close()

    def test_finer_where_something_is(self) -> None:
        """Where the file system tells of no holes, rows are added around those that tell something, and none elsewhere."""
        filled_rows = range(1 << 20, (1 << 20) + 50000)
        reader = cast(Any, types.SimpleNamespace(fetch=lambda rows: None, tells=lambda row: row in filled_rows))
        added = sampling.finer(reader, range(0, 1 << 22, 1 << 14), 200)
        self.assertTrue(100 <= len(added) <= 300, len(added))
        self.assertTrue(all((1 << 20) - (1 << 14) <= row <= filled_rows.stop + (1 << 14) for row in added))
        none = cast(Any, types.SimpleNamespace(fetch=lambda rows: None, tells=lambda row: False))
        self.assertEqual(sampling.finer(none, range(0, 100, 10), 50), [])

    def test_even_rows(self) -> None:
        """Rows are spread over all of the images, and lie the closer the nearer they are to where data usually begin."""
        rows = sampling.evenly(2048, 1 << 32, 500)
        self.assertTrue(all(2048 <= row < 1 << 32 for row in rows))
        self.assertGreater(sum(row < 10000 for row in rows), 50)
        self.assertGreater(sum(2048 + 264192 <= row < 2048 + 264192 + 10000 for row in rows), 30)
        self.assertGreater(sum(row > 1 << 31 for row in rows), 200)

    def test_large(self) -> None:
        """Images of more than 4 GiB are large."""
        self.assertEqual([sampling.is_large(100, 100 + count) for count in (8388608, 8388609)], [False, True])

    def test_placed(self) -> None:
        """Rows of a sample that stand in one line are told as the rows that they are."""
        tie = Tie(1, ((0, 1),))
        found = sampling.placed(Relations(1, (Rows(0, 1, frozenset(), (tie,)), Rows(2, 2, frozenset({0, 1}), ()))), sampling.Sample((5, 70, 900), ()))
        self.assertEqual([(it.first, it.last, bool(it.ties)) for it in found.rows], [(5, 5, True), (70, 70, True), (900, 900, False)])
        self.assertEqual([found.count(it) for it in found.rows], [1, 1, 1])
        self.assertEqual((found.before(900), found.before(70), found.before(5)), (70, 5, 4))

    def test_told_of_sparse_images(self) -> None:
        """The program reads rows that are kept in memory, and none of these is a hole of all images."""
        data = os.urandom(4 * MIB)
        names = [sparse(name, self.END, {30 * GIB // SECTOR: data}) for name in "ab"]
        seen: list[int] = []

        def reply(words: list[str], _text: str) -> Answer:
            files = words[words.index("--") + 1:]
            seen.extend(os.stat(name).st_size for name in files)
            with open(files[0], "rb") as one, open(files[1], "rb") as other:
                held = one.read()
                self.assertEqual(held, other.read())
            rows = [held[at:at + SECTOR] for at in range(0, len(held), SECTOR)]
            return put("".join(f"rows {row} {row} zero {'0,1' if it == bytes(SECTOR) else '-'} tied {'-' if it == bytes(SECTOR) else '1=1*0'}\n"
                               for row, it in enumerate(rows)))
        ties = Ties(Standin(("reraid relations", reply)), [Image(name, number, self.END, first=0) for number, name in enumerate(names)], 60)
        found = ties.spread((0, 1), 0, self.END, 1000)
        assert found
        tied = [rows.first for rows in found.tied_rows()]
        self.assertGreaterEqual(len(tied), 480)
        self.assertTrue(all(30 * GIB <= row * SECTOR < 30 * GIB + 4 * MIB for row in tied))
        self.assertTrue(all(size < 2000 * SECTOR for size in seen))
        self.assertIs(ties.spread((0, 1), 0, self.END, 1000), found)


class OnDisks(Here):
    def test_side_by_side(self) -> None:
        """Images on different disks are read at the same time, those on one disk one after the other; what was read stands in their order."""
        disks = {"a": (True, 7), "b": (False, 7), "c": (True, 7)}
        both, running, seen = threading.Barrier(2, timeout=20), list[str](), list[tuple[str, ...]]()

        def read(place: int) -> int:
            name = "abc"[place]
            running.append(name)
            if name != "c":
                both.wait()
            seen.append(tuple(running))
            running.remove(name)
            return place * 10
        with mock.patch.object(reading, "disk_of", disks.__getitem__):
            self.assertEqual(reading.by_disk("abc", read), [0, 10, 20])
        self.assertFalse([names for names in seen if {"a", "c"} <= set(names)])

    def test_disk(self) -> None:
        """Two files of one file system lie on one disk."""
        names = [sparse(name, 8, {}) for name in "ab"]
        self.assertEqual(reading.disk_of(names[0]), reading.disk_of(names[1]))
        self.assertEqual(reading.by_disk([], lambda place: place), [])


class Kept(Here):
    def test_sectors(self) -> None:
        """A sector of a part stands so far behind its start as in the image, with a gap behind each part."""
        parts = Parts(((100, 110), (5000, 5020)))
        self.assertEqual(parts.starts, [0, 266, 542])
        self.assertEqual([parts.sector(kept) for kept in (0, 9, 266, 285)], [100, 109, 5000, 5019])

    def test_copies(self) -> None:
        """The files have the parts where they are to stand, and are as long as the images; only what these hold was read."""
        name = sparse("a", 1 << 24, {4096: b"x" * MIB, 1 << 20: b"y" * 512})
        read: list[tuple[int, int]] = []
        parts = Parts(((0, 16), (4096, 6144), (1 << 20, (1 << 20) + 8)))
        with compact.kept([name], parts, lambda image, count: read.append((image, count))) as names:
            with open(names[0], "rb") as file:
                data = file.read((parts.count + 1) * SECTOR)
            self.assertEqual(os.stat(names[0]).st_size, SECTOR << 24)
        starts = [start * SECTOR for start in parts.starts]
        self.assertEqual(data[:starts[1]].strip(b"\0"), b"")
        self.assertEqual(data[starts[1]:starts[1] + MIB], b"x" * MIB)
        self.assertEqual(data[starts[2]:starts[2] + 512], b"y" * 512)
        self.assertEqual(read[0][0], 0)
        self.assertLessEqual(read[0][1], MIB + 4096)
        self.assertFalse(os.path.exists(names[0]))


class OneSurvey(Here):
    """Surveys of images of 16 GiB."""

    END = 16 * GIB // SECTOR
    MARKS = (("ext", [Mark("ext", 0, 2050, "at:2"), Mark("ext", 1, 9000, "at:9")]), ("extinode", [Mark("extinode", 1, 2060, "at:5")]))

    def surveys(self, names: list[str], shared: Shared | None = None) -> tuple[LargeSurveys, Standin]:
        """Surveys that are answered with these marks, of images in which they stand where they stand in what is read."""
        runner = Standin(("reraid survey", put(plan_of(*self.MARKS, end=self.END).text())))
        return LargeSurveys(runner, names, shared), runner

    def asked(self, kinds: str) -> Request:
        """A request for kinds of landmarks in all of the images."""
        return Request().having(kinds=kinds, offsets=0, end=self.END)

    def full(self) -> list[str]:
        """The names of two images of which no holes are told."""
        hook = mock.patch("reraid_try.evidence.extents.held", lambda name, first, end: [(first, end)])
        hook.start()
        self.addCleanup(hook.stop)
        return [sparse(name, self.END, {}) for name in "ab"]

    def test_one_for_all_kinds(self) -> None:
        """A large image is surveyed for all kinds at once; each request has the groups that it asks for, numbered anew."""
        surveys, runner = self.surveys(self.full())
        self.assertEqual([group.kind for group in surveys.seen(self.asked("gpt,ext")).groups], ["ext"])
        self.assertEqual([(group.kind, group.place) for group in surveys.seen(self.asked("extinode")).groups], [("extinode", 0)])
        self.assertEqual(runner.count("reraid survey"), 1)
        self.assertIn("kinds=gpt,ntfs,xfs,btrfs,lvm,ext,extinode,xfs5,btrfstree,mft", runner.asked[0][0])
        self.assertEqual(runner.asked[0][0][-2:], ["a", "b"])

    def test_shared(self) -> None:
        """What others surveyed is not surveyed anew, also of some of the images; where landmarks may be left out it is."""
        names, shared = self.full(), Shared()
        self.surveys(names, shared)[0].seen(self.asked("ext"))
        fewer, runner = self.surveys(names[1:], shared)
        self.assertEqual(fewer.seen(self.asked("ext")).groups, (Group("ext", (Mark("ext", 0, 9000, "at:9"),), 0),))
        self.assertEqual(runner.asked, [])
        (names_of, kept), = shared.made
        many = plan_of(("ext", [Mark("ext", 1, sector, "at:2") for sector in range(4096)]), end=self.END)
        shared.made[:] = [(names_of, dataclasses.replace(kept, plan=many))]
        fewer.seen(self.asked("ext"))
        self.assertEqual(runner.count("reraid survey"), 1)

    def test_small(self) -> None:
        """Images of 4 GiB are surveyed for what is asked."""
        surveys, runner = self.surveys([sparse(name, 100, {}) for name in "ab"])
        surveys.seen(Request().having(kinds="ext", offsets=0, end=8388608))
        self.assertIn("kinds=ext", runner.asked[0][0])

    def test_sparse(self) -> None:
        """Of sparse images only what they hold is read, and marks stand where they stand in the images."""
        names = [sparse("a", self.END, {1 << 20: b"x" * MIB}), sparse("b", self.END, {1 << 24: b"y" * MIB})]
        held: list[bytes] = []

        def reply(words: list[str], _text: str) -> Answer:
            self.assertIn("offsets=0", words)
            self.assertIn(f"end={2 * (2048 + 3 * compact.GAP)}", words)
            for name in words[-2:]:
                with open(name, "rb") as file:
                    held.append(file.read(2 * (2048 + 3 * compact.GAP) * SECTOR).strip(b"\0"))
            first, second = compact.GAP, 2048 + 4 * compact.GAP
            marks = [Mark("ext", 0, first, "at:2"), Mark("ext", 1, second, "at:9")]
            return put(plan_of(("ext", marks), end=99).text())
        found = LargeSurveys(Standin(("reraid survey", reply)), names).seen(self.asked("ext"))
        self.assertEqual(held, [b"x" * MIB, b"y" * MIB])
        self.assertEqual([mark.sector for mark in found.marks()], [1 << 20, 1 << 24])
        self.assertEqual(found.end, self.END)

    def test_program_without_later_kinds(self) -> None:
        """One that does not know the last of the kinds is asked for those before, down to none of the later ones."""
        usual = "kinds=gpt,ntfs,xfs,btrfs,lvm,ext"
        kinds = [usual + more for more in (",extinode,xfs5,btrfstree,mft", ",extinode,xfs5,btrfstree", ",extinode,xfs5", ",extinode", "")]
        names = self.full()
        for known in kinds:
            answer = put(plan_of(*self.MARKS[:1], end=self.END).text())
            runner = Standin((f"reraid survey end={self.END} {known}", answer), ("reraid survey", put("", 1)))
            self.assertEqual([it.kind for it in LargeSurveys(runner, names).seen(self.asked("ext")).groups], ["ext"])
            self.assertEqual([words[3] for words, _ in runner.asked], kinds[:kinds.index(known) + 1])

    def test_full(self) -> None:
        """A plan may lack landmarks if it has 4,096 of a kind or 32 groups, or as many file records in a group as a table gets of these: 1,365 of
        three tables, of which one may have none."""
        def full(kind: str, *counts: int) -> bool:
            return surveying.is_full(plan_of(*((kind, [Mark(kind, 0, sector, "at:2") for sector in range(count)]) for count in counts)))
        for kind, counts, wanted in (("ext", (4095,), False), ("ext", (4000, 96), True), ("lvm", (1,) * 31, False), ("lvm", (1,) * 32, True),
                                     ("ext", (1365, 1365), False), ("mft", (1365, 1365, 1365), True), ("mft", (1365, 7, 1364), True),
                                     ("mft", (1365, 9), True), ("mft", (1364, 1364, 1364), False), ("mft", (4095,), False), ("mft", (4096,), True),
                                     ("mft", (127,), False), ("xfs5", (1365,), False)):
            self.assertEqual(full(kind, *counts), wanted, (kind, counts))

    def test_padded(self) -> None:
        """Parts have a few sectors on both sides, within what is asked."""
        self.assertEqual(surveying.padded([(10, 20), (300, 310), (9000, 9100)], 0, 9110), ((0, 566), (8744, 9110)))


class Holes(Here):
    """Holes are told by the file system, so that they are not read."""

    def test_filled(self) -> None:
        """Sectors are counted as filled as before, and of holes nothing is read."""
        names = [sparse("a", 1 << 16, {5000: b"x" * 512}), sparse("b", 1 << 16, {60000: b"y" * 512})]
        with mock.patch("reraid_try.evidence.reading.is_hole", side_effect=lambda file, first, last: False):
            read = filled(names, 100, 1 << 16)
        self.assertEqual(filled(names, 100, 1 << 16), read)
        self.assertEqual([100 + place for place, flag in enumerate(read) if flag], [5000, 60000])

    def test_equal(self) -> None:
        """Sparse images that hold the same are equal, and others are not."""
        names = [sparse(name, 1 << 20, {5000: data}) for name, data in (("a", b"x" * 512), ("b", b"x" * 512), ("c", b"y" * 512))]
        images = [Image(name, number, 1 << 20, first=5000, last=5000) for number, name in enumerate(names)]
        self.assertTrue(equal(images[0], images[1], SECTOR << 20))
        self.assertFalse(equal(images[0], images[2], SECTOR << 20))

    def test_equal_large(self) -> None:
        """Of large images fewer first bytes are compared, and sectors all over them."""
        far = 20 * GIB // SECTOR
        names = [sparse(name, 2 * far, {5000: b"x" * 512, place: data}) for name, place, data in
                 (("a", far, b"x" * 512), ("b", far, b"z" * 512), ("c", 9000, b"x" * 512))]
        images = [Image(name, number, 2 * far, first=5000, last=far) for number, name in enumerate(names)]
        self.assertFalse(equal(images[0], images[1], 16 * GIB))
        self.assertFalse(equal(images[0], images[2], 16 * GIB))
        with mock.patch.object(images_module, "MAX_COMPARED", 2500 << 10), mock.patch.object(images_module, "MORE_SAMPLES", 64):
            self.assertTrue(equal(dataclasses.replace(images[0], sectors=far), dataclasses.replace(images[2], sectors=far), 16 * GIB))


class Last(Here):
    """The last sector that holds something, where the file system tells of no holes."""

    def test_far_from_the_end(self) -> None:
        """Of many zeros at the end so many bytes are read, and then single sectors before these."""
        size = 64 * MIB
        with open(sparse("a", size // SECTOR, {1000: b"x" * 20000 * SECTOR}), "rb") as file:
            read: list[int] = []

            def counting(count: int) -> bytes:
                read.append(count)
                return file.read(count)
            counted = mock.Mock(wraps=file)
            counted.read = counting
            with mock.patch.multiple(reading, MAX_BACK=8 * MIB, STEPS=64), \
                    mock.patch.object(reading, "data_runs", lambda _file, first, last: iter([(first, last)])):
                found = reading.last_data(counted, 0, size)
                assert found is not None
                self.assertTrue(19000 <= found < 21000)
                self.assertLessEqual(sum(read), 8 * MIB + 100 * SECTOR)
                self.assertEqual(reading.last_data(counted, 0, 21000 * SECTOR), 20999)

    def test_not_known(self) -> None:
        """Where no such sector was found it is not said where data end."""
        self.assertEqual(Image("a", 0, 900, first=8).line(), "image 0 a: 900 sectors, non-zero from sector 8 on")


class Middle(Here):
    """Disks of an array whose data lie behind what is read first of large images, and before what is read last."""

    LENGTH = 64 * MIB // SECTOR

    def look(self, parts: Mapping[int, bytes]) -> tuple[int | None, int | None]:
        """The first and the last sector with data of an image, of which a MiB is read at both its ends."""
        image = images_module.look(sparse("a", self.LENGTH, parts), 0, MIB)
        return image.first, image.last

    def test_sparse(self) -> None:
        """Data in the middle alone are seen: the image is no zeros. What lies at an end, or behind zeros that are held, is seen as well."""
        zeros, data = bytes(MIB), b"x" * SECTOR
        self.assertEqual(self.look({}), (None, None))
        self.assertEqual(self.look({50000: data}), (50000, 50000))
        self.assertEqual(self.look({30000: zeros, 50000: data, 60000: data}), (50000, 60000))
        self.assertEqual(self.look({100: data, 50000: data}), (100, 50000))
        self.assertEqual(self.look({50000: data, self.LENGTH - 1: data}), (50000, self.LENGTH - 1))
        self.assertEqual(self.look({100: data}), (100, 100))

    def test_in_steps(self) -> None:
        """Behind many zeros that are held single sectors are looked at, all over what is held."""
        parts = {40000: bytes(2 * MIB), 60000: b"x" * 4000 * SECTOR}
        with mock.patch.multiple(reading, MAX_BACK=MIB, STEPS_ON=50):
            first, _ = self.look(parts)
        assert first is not None
        self.assertTrue(60000 <= first < 60500, first)
        with mock.patch.multiple(reading, MAX_BACK=MIB, STEPS_ON=50), mock.patch.object(reading, "data_runs", lambda _, first, last: [(first, last)]):
            first, _ = self.look(parts)
        assert first is not None
        self.assertTrue(60000 <= first < 64000, first)


class Bounds(unittest.TestCase):
    def test_ended(self) -> None:
        """A command that reads without an end is ended once the bound is reached, and that is told."""
        counts = iter([100, 1000, 5000, 10 ** 9])
        answer = bounded(Commands(), [["sleep", "60"]], 30, Meter(lambda: next(counts, 10 ** 9), 10 ** 6))
        self.assertEqual((answer.status, answer.full, answer.good), (None, True, False))
        self.assertLess(answer.seconds, 20)

    def test_within(self) -> None:
        """One that stays within is not."""
        answer = bounded(Commands(), [["echo", "text"]], 30, Meter(lambda: 5, 0))
        self.assertEqual((answer.status, answer.full, answer.out), (0, False, "text\n"))
        self.assertEqual(bounded(Standin(("check", put("said"))), [["check"]], 30, Meter(lambda: 5, 0)).out, "said")

    def test_counts(self) -> None:
        """What this process reads is counted; of one that is not there nothing is."""
        before = meter.read_in_all()
        with open("/dev/zero", "rb", buffering=0) as file:
            file.read(MIB)
        self.assertGreaterEqual(meter.read_in_all() - before, MIB)
        self.assertEqual((meter.read_by(1 << 30), meter.children_of(1 << 30)), (0, ()))


class Amounts(Here):
    def test_text(self) -> None:
        """Eight images of 4 TB on one disk and on eight: 8 and 1 times 16 GiB, at 150 MB/s."""
        it = amounts.Amount((16 * GIB,) * 8)
        self.assertEqual((round(it.apart), round(it.together)), (115, 916))
        self.assertEqual(it.text(), ", 131072 MiB without holes. Reading that once at 150 MB/s takes 115 s if each image is on its own disk, 15 min "
                                    "if one disk holds all")
        self.assertEqual(amounts.lasting(7200.0), "2.0 h")
        self.assertEqual([amounts.bound(first) for first in (16 * GIB, ALL)],
                         [". After 24 GiB of each image no step begins, if a layout has a rating", ""])
        self.assertEqual(amounts.in_all(3 * GIB, 2), "all commands together read at most 3.0 GiB, 1.5 GiB of each image on average")
        self.assertEqual(amounts.in_all(3 * GIB, 2, 124), amounts.in_all(3 * GIB, 2) + ". The first rated layout was found after 2 min")

    def test_first_pass(self) -> None:
        """Holes are not counted; of small images nothing is said."""
        image = Image(sparse("a", 32 * GIB // SECTOR, {2048: b"x" * MIB, 20 * GIB // SECTOR: b"x" * MIB}), 0, 32 * GIB // SECTOR)
        found = amounts.first_pass([image], 16 * GIB)
        assert found
        self.assertEqual(found.held, (MIB,))
        self.assertIsNone(amounts.first_pass([Image("none", 0, 1000)], 16 * GIB))


class Patterns(unittest.TestCase):
    def test_rows(self) -> None:
        """Rows in which nothing but tables that count in steps stands tell nothing of parity; zeros, and such as hold more, are kept."""
        table = b"".join((1000 + number).to_bytes(8, "little") for number in range(64))
        data, zero = os.urandom(SECTOR), bytes(SECTOR)
        sample = sampling.Sample((5, 6, 7, 8), ((table, table), (table, data), (zero, zero), (zero, table)))
        self.assertEqual(sample.telling(), sampling.Sample((6, 7), ((table, data), (zero, zero))))


class Named(unittest.TestCase):
    """What metadata name of large images is tried as one set, before more is read."""

    def members(self, level: str, layout: str) -> list[Member]:
        """Metadata on images 2, 0 and 1 of an array of four disks, with slots 0, 1 and 3."""
        return [Member(image, "md 1.2", "id", level, 4, layout, 128, slot, 2048, 7) for image, slot in ((2, 0), (0, 1), (1, 3))]

    def test_target(self) -> None:
        """The set of the slots, with no more read than what parity is tested in; none where they tell too little."""
        for level, layout, word, shape in (("raid5", "left-symmetric", "5:ls:none:128:2048:2,0,-,1", Shape("5", 4, 1)),
                                           ("raid10", "near=2", "near2:128:2048:2,0,-,1", Shape("10", 4, 1))):
            target = plain.named_target(self.members(level, layout), Span(0, 1 << 33), Options(("a", "b", "c")), 3)
            assert target
            self.assertEqual((target.word, target.shapes, target.images, target.first), (word, (shape,), (0, 1, 2), (2048 + 524288) * 512))
        self.assertIsNone(plain.named_target(self.members("raid5", "unknown"), Span(0, 1 << 33), Options(("a",)), 3))
        self.assertIsNone(plain.named_target(self.members("raid5", "left-symmetric"), Span(0, 1 << 33), Options(("a",), levels=("6",)), 3))

    def test_tested(self) -> None:
        """Just that set is tested, by its step."""
        taken: list[tuple[Step, Listing]] = []

        def say(_scope: Any, step: Step, listing: Listing) -> Step:
            taken.append((step, listing))
            return step

        def take(_scope: Any, _step: Step, sets: Any, words: Any) -> None:
            self.assertEqual([words(it)[1] for it in sets], ["word of " + wanted])
        search: Any = types.SimpleNamespace(options=Options(("a",)), say_step=say, take=take)
        scope: Any = types.SimpleNamespace(asking=types.SimpleNamespace(request=lambda shape: Request()), word=lambda text: "word of " + text)
        for wanted, shape in (("5:ls:none:128:2048:2,0,-,1", Shape("5", 4, 1)), ("near2:128:2048:2,0,-,1", Shape("10", 4, 1))):
            Evident(search).test_named(scope, Target((0, 1, 2), Span(0, 9), "why", (shape,), word=wanted), wanted)
            step, listing = taken.pop()
            self.assertEqual(([it.text for it in listing.sets], step.shape, step.copied is None), ([wanted], shape, shape.levels == "5"))


class Groups(unittest.TestCase):
    def test_of_copies(self) -> None:
        """Images that hold the same are a group; one that none does is a group by itself, whose copy is lost. Other than RAID 10 is none."""
        cases: list[tuple[list[tuple[int, int]], tuple[int, ...], Grouped | None]] = [
            ([(0, 3), (2, 4)], (0, 1, 2, 3, 4), Grouped(((0, 3), (1,), (2, 4)), 2, ())), ([(5, 9)], (5, 7, 9), Grouped(((0, 2), (1,)), 2, ())),
            ([(0, 1)], (0, 1), None), ([], (0, 1), None), ([(0, 1)], (0, 1, 2, 3, 4, 5), None)]
        for pairs, images, wanted in cases:
            self.assertEqual(mirrors.told(pairs, images), wanted)
