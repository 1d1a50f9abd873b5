"""Hints, the counts of filled sectors, and what is gathered."""

import dataclasses
import unittest
from unittest import mock

from reraid_try.calls import surveys
from reraid_try.calls.surveys import Surveys
from reraid_try.errors import OutsideError
from reraid_try.evidence import gathered, hints, images
from reraid_try.evidence.filling import Filling, Flags
from reraid_try.evidence.gathered import Pairs
from reraid_try.evidence.heads import Head
from reraid_try.evidence.hints import Hint, Source, What
from reraid_try.evidence.images import Image
from reraid_try.evidence.maps import Map
from reraid_try.evidence.tables import Partition, Table
from reraid_try.units import SECTOR
from tests.standin import InFolder, Standin, plan_of, put
from tests.test_images import mbr, superblock

EVERY = "every:49152:4:0"


def image(number: int, name: str = "", sectors: int = 100000, **values: object) -> Image:
    """An image."""
    return Image(name or f"i{number}", number, sectors, **values)  # type: ignore[arg-type]


class Offsets(unittest.TestCase):
    def test_first_mark_less_its_distance(self) -> None:
        plan = plan_of(("xfs", [("super", 0, 2048, EVERY), ("super", 1, 26624, EVERY), ("agf", 0, 2056, "every:49152:4:8")]),
                       ("ext", [("ext", 2, 7426, "at:262144")]))
        found = hints.offsets(plan, [])
        self.assertEqual([(hint.value, hint.shown, hint.spread, hint.source) for hint in found], [(2048, 1, 2, Source.MARK)])
        self.assertEqual(found[0].line(), "hint: data offset 2048 sectors, from landmark super on image 0: sector 2048 less 0; on 1 image")

    def test_those_that_more_images_show_come_first(self) -> None:
        plan = plan_of(("btrfs", [("btrfs", 0, 128, "at:128"), ("btrfs", 0, 4224, "at:128"), ("btrfs", 1, 128, "at:128")]),
                       ("lvm", [("lvm", 2, 5001, "at:1")]))
        found = hints.offsets(plan, [Head("mbr", 1, 9), Head("mbr", 2, 9), Head("mbr", 2, 5000)])
        self.assertEqual([(hint.value, hint.shown) for hint in found], [(0, 2), (9, 2), (5000, 1)])
        self.assertEqual(found[1].source, Source.HEAD)

    def test_one_for_each_value(self) -> None:
        found = hints.by_images([Hint(What.OFFSET, value, Source.HEAD, "why", shown) for value, shown in ((5, 1), (7, 2), (5, 3))])
        self.assertEqual([(hint.value, hint.shown) for hint in found], [(5, 3), (7, 2)])

    def test_places_of_a_group(self) -> None:
        # A group of four allocation groups of 49,152 sectors, on three data disks with chunks of 128: without its first superblock.
        marks = [("super", k, 6144 + 49152 * k // 3, EVERY) for k in (1, 2, 3)]
        found = hints.placed_offsets(plan_of(("xfs", marks)), [3], [0], [])
        self.assertEqual((found[0].value, found[0].source), (6144, Source.PLACES))
        self.assertIn("3 places of landmark group 0 (xfs, 3 landmarks), for 3 data disks and chunks of", found[0].why)
        self.assertEqual(hints.placed_offsets(plan_of(("xfs", marks)), [3], [0], [6144]), [])
        self.assertEqual(hints.placed_offsets(plan_of(("xfs", marks[:2])), [3], [0], []), [])


class Data(unittest.TestCase):
    def test_by_distances(self) -> None:
        marks = [("super", k, 2048 + 16384 * k, EVERY) for k in range(4)]
        found = hints.data_disks(plan_of(("xfs", marks)), 6)
        self.assertEqual([(hint.value, hint.shown, hint.what) for hint in found], [(3, 4, What.DATA)])
        self.assertEqual([hint.value for hint in hints.data_disks(plan_of(("xfs", marks)), 3)], [3])
        self.assertEqual(hints.data_disks(plan_of(("xfs", marks)), 2), [])

    def test_one_disk_is_no_array(self) -> None:
        self.assertEqual(hints.data_disks(plan_of(("xfs", [("super", 0, 2048 + 49152 * k, EVERY) for k in range(3)])), 6), [])

    def test_marks_at_known_places(self) -> None:
        found = hints.data_disks(plan_of(("btrfs", [("btrfs", 0, 2048 + 32, "at:128"), ("btrfs", 1, 2048 + 32768, "at:131072")])), 6)
        self.assertEqual([hint.value for hint in found], [4])

    def test_level_by_copies(self) -> None:
        def level(*images: int) -> list[Hint]:
            return hints.level(plan_of(("xfs", [("super", it, 2048, EVERY) for it in images])), [])
        self.assertEqual([hint.value for hint in level(0) + level(0, 1) + level(0, 1, 2)], [0, 5, 6])
        self.assertEqual(level(0, 1, 2, 3) + hints.level(plan_of(), []), [])
        self.assertIn("as also with two copies of RAID 10", level(0, 1)[0].line())
        self.assertIn("perhaps RAID 0, from the same kind of sector at the same place on 1 image", level(2)[0].line())
        self.assertEqual(hints.level(plan_of(), [Head("mbr", 0, 5), Head("mbr", 1, 5)])[0].value, 5)


class OnImages(InFolder):
    def test_lvm(self) -> None:
        text = b'LABELONE' + bytes(4096) + b'extent_size = 8192\npe_start = 2048\nstripes = [\n"pv0", 3\n]\n"pv0", 0\n'
        name = self.file("a", bytes(SECTOR) + text)
        found = hints.lvm_origins(plan_of(("lvm", [("lvm", 0, 1, "at:1")])), {0: image(0, name)})
        self.assertEqual([(hint.value, hint.source) for hint in found], [(2048, Source.LVM), (2048 + 3 * 8192, Source.LVM)])

    def test_lvm_segments(self) -> None:
        """A volume of two segments, extents 0 to 99 from extent 3 on and 100 to 149 from 300 on: by the second one it begins at 200. What would begin
        before the physical volume is none."""
        text = ("LABELONE extent_size = 8\npe_start = 2048\nphysical_volumes {\n}\nhome {\nsegment_count = 2\n"
                'segment1 {\nstart_extent = 0\nextent_count = 100\ntype = "striped"\nstripe_count = 1\nstripes = [\n"pv0", 3\n]\n}\n'
                'segment2 {\nstart_extent = 100\nextent_count = 50\ntype = "striped"\nstripe_count = 1\nstripes = [\n"pv0", 300\n]\n}\n}\n'
                'root {\nsegment_count = 2\nsegment1 {\nstart_extent = 0\nstripes = [\n"pv0", 400\n]\n}\n'
                'segment2 {\nstart_extent = 500\nstripes = [\n"pv0", 110\n]\n}\n}\n')
        name = self.file("a", bytes(SECTOR) + text.encode())
        found = hints.lvm_origins(plan_of(("lvm", [("lvm", 0, 1, "at:1")])), {0: image(0, name)})
        self.assertEqual([hint.value for hint in found], [2048, 2048 + 8 * 3, 2048 + 8 * 200, 2048 + 8 * 400])
        self.assertEqual([hint.why for hint in found[1:3]],
                         ["the LVM2 metadata on image 0", "the LVM2 metadata on image 0, from a later segment of a volume"])

    def test_bcache(self) -> None:
        """The contents of a volume that is cached begin 16 sectors behind its start, or where the superblock says."""
        none: list[int] = []
        for version, told, places in ((1, 99, [16]), (4, 48, [48]), (6, 2048, [2048]), (0, 48, none), (3, 48, none), (4, 0, none)):
            name = self.file("a", bytes(24 * SECTOR) + superblock(version, told))
            one = image(0, name, heads=(Head("bcache", 0, 16), Head("ext", 0, 4)))
            found = hints.bcache_origins([one])
            self.assertEqual([hint.value for hint in found], places)
            self.assertEqual([hint.line() for hint in found],
                             [f"hint: contents begin at volume sector {place}, from a superblock of bcache on image 0 at sector 24"
                              for place in places])
        self.assertEqual(hints.bcache_origins([image(0, name, heads=(Head("bcache", 0, 20),))]), [])

    def test_tables(self) -> None:
        name = self.file("a", bytes(2048 * SECTOR) + mbr((0, 0xEE, 1, 99), (0, 7, 63, 99), (0, 7, 4096, 9)))
        one = image(0, name, heads=(Head("mbr", 0, 2048), Head("ext", 0, 4)))
        self.assertEqual([hint.value for hint in hints.table_origins([one], {2048, 4})], [63, 4096])
        self.assertEqual(hints.table_origins([one], {0}), [])

    def test_large_blocks(self) -> None:
        name = self.file("a", bytes(8 * SECTOR) + mbr((0, 0xEE, 1, 99)) + bytes(7 * SECTOR) + b"EFI PART")
        plan = plan_of(("gpt", [("gpt", 0, 16, "at:1")]))
        self.assertEqual([(hint.what, hint.value) for hint in hints.logical(plan, {0: image(0, name)})], [(What.LOGICAL, 4096)])
        near = self.file("b", bytes(8 * SECTOR) + mbr((0, 0xEE, 1, 99)) + bytes(6 * SECTOR) + mbr((0, 0xEE, 1, 99)))
        self.assertEqual(hints.logical(plan, {0: image(0, near)}), [])
        # Where as many images speak for sectors as for large blocks, nothing is told.
        both = plan_of(("gpt", [("gpt", 0, 16, "at:1"), ("gpt", 1, 16, "at:1")]))
        self.assertEqual(hints.logical(both, {0: image(0, name), 1: image(1, near)}), [])
        self.assertEqual([hint.shown for hint in hints.logical(both, {0: image(0, name), 1: image(1, name)})], [2])

    def test_what_cannot_be_read(self) -> None:
        with self.assertRaises(OutsideError):
            hints.read_at(f"{self.folder}/none", 0)

    def test_bad_rows(self) -> None:
        seen = [image(0), image(1, map=Map("m", "", ((0, 1024, "+"), (1024, 512, "-"), (1536, 1 << 20, "+"))))]
        self.assertEqual([(hint.value, hint.what) for hint in hints.bad_rows(seen, 100)], [(2, What.BAD_ROWS)])
        self.assertEqual(hints.bad_rows(seen, 1), [])

    def test_own_tables(self) -> None:
        table = Table("MBR", True, (Partition(2048, 1000, "83"), Partition(4096, 5000, "83")))
        seen = [image(0, table=table), image(1, table=table), image(2, table=Table("MBR", False, (Partition(7, 1, "83"),)))]
        self.assertEqual([(hint.value, hint.shown) for hint in hints.own_offsets(seen, 1)], [(2048, 2)])
        self.assertEqual([hint.value for hint in hints.own_offsets(seen, 9)], [2048, 4096])
        self.assertEqual(hints.own_end(seen, 99999), [])
        self.assertEqual([hint.value for hint in hints.own_end(seen[:2], 99999)], [9096])
        self.assertEqual(hints.own_end(seen[:2], 9096), [])

    def test_filling(self) -> None:
        name = self.file("a", bytes(10 * SECTOR) + b"x" * 5 * SECTOR + bytes(10 * SECTOR) + b"y")
        filling = Filling([name], [0, 12], 14, 26)
        self.assertEqual([filling.behind(0), filling.behind(12), filling.behind(0, 11), filling.behind(5), filling.behind(40)], [4, 4, 1, 5, 0])
        # Of what lies behind the last window, or behind the end, nothing is counted.
        self.assertEqual(Filling([name], [0], 14, 60).behind(12), 2)
        self.assertEqual(Filling([name], [12], 40, 26).behind(12, 50), 4)

    def test_flags_are_read_once(self) -> None:
        """What a filling counts of large images is the same, and no part of an image is read twice."""
        names = [self.file("a", bytes(10 * SECTOR) + b"x" * 5 * SECTOR + bytes(11 * SECTOR)), self.file("b", bytes(20 * SECTOR) + b"y" * 6 * SECTOR)]
        flags = Flags()
        told = Filling(names, [0, 12], 14, 26, flags)
        plain = Filling(names, [0, 12], 14, 26)
        self.assertEqual([told.behind(place) for place in (0, 5, 12, 19)], [plain.behind(place) for place in (0, 5, 12, 19)])
        with mock.patch.object(images, "filled_of", side_effect=AssertionError):
            self.assertEqual(Filling(names[1:], [12], 14, 26, flags).behind(12), 6)
        with self.assertRaises(OutsideError):
            Filling(["none"], [0], 14, 26, Flags())


class Gathered(InFolder):
    def gather(self, text: str, pairs: Pairs | None = None, start: int = 0, **values: object) -> gathered.Evidence:
        """What is gathered of three images behind a start, and a survey."""
        names = [self.file(f"{k}.img", b"x" * 8000 * SECTOR) for k in range(3)]
        seen = [image(k, name, 8000, **values) for k, name in enumerate(names)]
        return gathered.gather(Surveys(Standin(("reraid survey", put(text))), names), seen, 1 << 30, pairs, start)

    def plan(self, *marks: str) -> str:
        """A survey's text with one group."""
        return plan_of(lengths=(8000,) * 3).text().replace("done", "group xfs\n" + "".join(f"mark {mark}\n" for mark in marks) + "done")

    def test_all_of_it(self) -> None:
        found = self.gather(self.plan("super 0 2048 every:4096:2:0", "super 1 4096 every:4096:2:0"))
        self.assertEqual((found.end, found.window, found.filled, found.unread), (8000, 8000, 8000, 0))
        self.assertEqual((found.offset_values[0], [hint.value for hint in found.data], [hint.value for hint in found.levels]), (2048, [2], [0]))
        self.assertEqual(found.tried, (0, 2048))
        self.assertEqual((found.base.get("offsets"), found.base.get("origins"), found.base.get("kinds")), ("0,2048", "0,2048", surveys.KINDS))
        self.assertEqual([hint.what for hint in found.said], [What.OFFSET, What.DATA, What.LEVEL])

    def test_within_a_part(self) -> None:
        """Where an array may lie in a part of a disk alone, that ends it; the table of the disk is none of its own."""
        heads = tuple(Head("mbr", 0, sector) for sector in (5, 100, 599, 600))
        whole = image(0, sectors=1000, table=Table("MBR", True, (Partition(100, 500, "fd"),)), heads=heads)
        for end, sectors in ((600, 600), (2000, 1000)):
            part = gathered.within(whole, 100, end)
            self.assertEqual((part.sectors, part.table), (sectors, Table()))
        self.assertEqual([head.sector for head in gathered.within(whole, 100, 600).heads], [100, 599])

    def test_nothing_before_a_part(self) -> None:
        """An offset before the start says nothing, and a survey there would see what is no part of the array."""
        plan = self.plan("super 0 3000 at:1000", "super 1 3000 at:999")
        self.assertEqual([self.gather(plan, start=start).offset_values for start in (0, 2000, 2001)], [[2000, 2001], [2000, 2001], [2001]])
        self.assertEqual(min(self.gather(plan, start=2001).tried), 2001)

    def test_contents_behind_a_superblock_of_bcache(self) -> None:
        """Their origin is asked for, and where data begin by it."""
        with mock.patch.object(hints, "read_at", return_value=superblock(4, 48)):
            found = self.gather(self.plan(), heads=(Head("bcache", 0, 4096),))
        self.assertEqual(found.base.get("origins"), "0,48,2048")
        self.assertIn(4096, found.tried)
        self.assertIn("hint: contents begin at volume sector 48, from a superblock of bcache on image 0 at sector 4104",
                      [hint.line() for hint in found.said])

    def test_copies_say_no_level(self) -> None:
        self.assertEqual(self.gather(self.plan("super 0 2048 every:4096:2:0"), like=0).levels, ())

    def test_own_tables_end_it(self) -> None:
        table = Table("MBR", True, (Partition(2048, 4000, "83"),))
        found = self.gather(self.plan("super 0 2048 every:4096:2:0"), table=table)
        self.assertEqual((found.end, found.window, found.base.get("end"), found.said[0].what), (6048, 6048, "6048", What.END))
        self.assertEqual(found.tried, (0, 2048, 4096))

    def test_maps(self) -> None:
        few, many = (Map("m", "", ((0, 512 * count, "-"), (512 * count, 1 << 30, "+"))) for count in (99, 999))
        self.assertEqual([self.gather(self.plan(), map=it).unread for it in (few, many)], [300, 0])
        self.assertEqual(self.gather(self.plan(), map=many).bad, 3000)

    def test_window(self) -> None:
        """It is asked for where it is less than all up to the end."""
        for most, window, asked in ((8000, 8000, ""), (7999, 7999, "7999")):
            with mock.patch.object(gathered, "MAX_WINDOW", most):
                found = self.gather(self.plan())
            self.assertEqual((found.window, found.base.get("window")), (window, asked))

    def test_rows_that_maps_call_unread(self) -> None:
        """A fourth of the filled ones at most is asked for as bad ones."""
        found = self.gather(self.plan())
        self.assertEqual([dataclasses.replace(found, bad=bad).unread for bad in (0, 2000, 2001)], [0, 2000, 0])

    def test_volumes_within_others(self) -> None:
        """A logical volume begins so far behind its physical one, which begins at a usual place, in a partition, or behind a superblock of bcache."""
        found = [Hint(What.ORIGIN, value, source, "") for value, source in ((100, Source.LVM), (63, Source.TABLE), (16, Source.BCACHE))]
        self.assertEqual(gathered.deeper(found, plan_of()), {100, 2148, 163, 116})

    def test_mirrors_say_the_offsets(self) -> None:
        found = self.gather(self.plan("super 0 4096 every:4096:2:0"), Pairs(((), (), ()), (16, 2048)))
        self.assertEqual((found.offset_values, found.tried), ([16, 2048], (16, 2048)))
        self.assertEqual([hint.what for hint in self.gather(self.plan(), Pairs(((),) * 3, (16,), True)).said], [])

    def test_a_far_mark_is_a_stray_one(self) -> None:
        near, far = Hint(What.OFFSET, 100, Source.MARK, "", 2, 2), Hint(What.OFFSET, 100 + gathered.FAR + 1, Source.MARK, "", 2, 2)
        self.assertTrue(gathered.is_far(far, [near, far]))
        self.assertFalse(gathered.is_far(dataclasses.replace(far, value=100 + gathered.FAR), [near]))
        self.assertFalse(gathered.is_far(dataclasses.replace(far, spread=3), [near]))
        self.assertFalse(gathered.is_far(Hint(What.OFFSET, 99999, Source.MARK, "", 3, 3), [near]))
        self.assertEqual(gathered.offsets_tried([near, far], [], None, 5000), (0, 100, 2048))
        ends = [Hint(What.OFFSET, value, Source.MARK, "") for value in (4999, 5000)]
        self.assertEqual(gathered.offsets_tried(ends, [], None, 5000), (0, 2048, 4999))


if __name__ == "__main__":
    unittest.main()
