"""What is known before something is tried: which offsets come first, how much is said, and what each plan asks for."""

import types
import unittest
from collections.abc import Sequence
from typing import Any, cast
from unittest import mock

from reraid_try.calls.plans import Plan
from reraid_try.calls.surveys import Request
from reraid_try.evidence import gathered
from reraid_try.evidence.gathered import Evidence, Pairs
from reraid_try.evidence.heads import Head
from reraid_try.evidence.hints import Hint, Source, What
from reraid_try.evidence.images import Image
from reraid_try.evidence.tables import Partition, Table

from .standin import plan_of


def offset(value: int, shown: int = 1, spread: int = 1) -> Hint:
    """A hint of an offset."""
    return Hint(What.OFFSET, value, Source.MARK, "a mark", shown, spread)


def images(count: int = 3, sectors: int = 9000, **values: Any) -> list[Image]:
    """So many images of so many sectors."""
    return [Image(f"i{number}", number, sectors, first=8, **values) for number in range(count)]


class Offsets(unittest.TestCase):
    """The offsets that are tried first."""

    def test_far_ones(self) -> None:
        """A mark so far behind one of a group that as many images show is a stray one."""
        near = offset(64, spread=2)
        told = [gathered.is_far(it, [near]) for it in (offset(64 + 8192, spread=2), offset(64 + 8193, spread=2), offset(99999, spread=3))]
        self.assertEqual(told, [False, True, False])
        self.assertNotIn(64 + 8193, gathered.offsets_tried([near, offset(64 + 8193)], images(sectors=90000), None, 90000))

    def test_how_many(self) -> None:
        """The first eight of the hints, and the usual ones behind the start of the part and of the first two partitions of own tables; none behind
        the end, and where there are none the start."""
        found = [offset(100 + number) for number in range(10)]
        tried = gathered.offsets_tried(found, images(), None, 9000)
        self.assertEqual([it for it in tried if 100 <= it < 110], list(range(100, 108)))
        parts = tuple(Partition(first, 99, "83") for first in (300, 400, 500))
        tabled = images(1, table=Table("MBR", True, parts)) + images(2, table=Table("MBR", False, (Partition(600, 99, "83"),)))
        tried = gathered.offsets_tried([], tabled, None, 9000, 24)
        self.assertEqual([it in tried for it in (24, 300, 400, 500, 600)], [True, True, True, False, False])
        self.assertEqual([it for it in gathered.offsets_tried(found, images(), None, 104) if it >= 100], [100, 101, 102, 103])
        self.assertEqual(gathered.offsets_tried([], images(), None, 0, 24), (24,))

    def test_of_mirrors(self) -> None:
        """All at which they agree, and no usual ones."""
        found = [offset(9 * number) for number in range(12)]
        self.assertEqual(gathered.offsets_tried(found, images(), Pairs((), ()), 9000), tuple(9 * number for number in range(12)))


class Seen(unittest.TestCase):
    """An image as it is seen in a part of the disks."""

    def test_within(self) -> None:
        heads = tuple(Head("mbr", 0, sector) for sector in (99, 100, 199, 200))
        it = gathered.within(Image("a", 0, 900, heads=heads, table=Table("MBR", True)), 100, 200)
        self.assertEqual((it.sectors, [head.sector for head in it.heads], it.table), (200, [100, 199], Table()))


class Gathered(unittest.TestCase):
    """All of it."""

    def gather(self, seen: Sequence[Image], first: int = 1 << 40, pairs: Pairs | None = None, start: int = 0, filled: int = 9000,
               **found: Any) -> Evidence:
        """What is known of images, where hints are these and so many sectors are filled; `asked` has what was surveyed."""
        self.asked: list[Request] = []

        def plan(request: Request) -> Plan:
            self.asked.append(request)
            return plan_of()
        names = "logical", "data_disks", "bcache_origins", "lvm_origins", "table_origins", "level", "bad_rows", "own_end"
        self.functions = functions = {name: mock.Mock(return_value=found.get(name, [])) for name in names}
        with mock.patch.multiple("reraid_try.evidence.gathered.hints", **functions), \
                mock.patch("reraid_try.evidence.gathered.offset_hints", return_value=found.get("offsets", [])), \
                mock.patch("reraid_try.evidence.gathered.Filling", return_value=types.SimpleNamespace(behind=lambda _: filled)):
            return gathered.gather(cast(Any, types.SimpleNamespace(plan=plan)), seen, first, pairs, start)

    def test_window_and_end(self) -> None:
        """As much as is to be read behind the start, 256 MiB of it in a window; a shorter end is no window."""
        it = self.gather(images(sectors=1 << 20))
        self.assertEqual((it.end, it.window, it.base.number("window")), (1 << 20, 524288, 524288))
        it = self.gather([*images(2), Image("c", 2, 8000)])
        self.assertEqual((it.end, it.window, it.base.get("window")), (8000, 8000, ""))
        self.assertEqual(self.gather(images(), 500 * 512, start=100).end, 600)
        it = self.gather(images(sectors=1 << 20), own_end=[Hint(What.END, 700, Source.TABLE, "x")])
        self.assertEqual((it.end, it.window, it.base.get("window"), it.base.number("end")), (700, 700, "", 700))

    def test_how_much_is_said(self) -> None:
        """The first twelve offsets and sixteen origins, of mirrors that are the same throughout no offset."""
        offsets, origins = [offset(8 * number) for number in range(14)], [Hint(What.ORIGIN, number, Source.LVM, "x") for number in range(20)]
        for pairs, count in ((None, 12), (Pairs((), ()), 12), (Pairs((), (), True), 0)):
            it = self.gather(images(), pairs=pairs, offsets=offsets, lvm_origins=origins)
            self.assertEqual(([hint for hint in it.said if hint.what is What.OFFSET], [hint for hint in it.said if hint.what is What.ORIGIN]),
                             (offsets[:count], origins[:16]))
            self.assertEqual(len(it.offsets), 14)
        self.assertEqual(self.gather(images(), start=16, offsets=offsets).offset_values, [hint.value for hint in offsets if hint.value >= 16])

    def test_what_hints_are_asked_for(self) -> None:
        """Up to two disks may be lost; how many show a mark tells of no level where images are copies of one another."""
        five = [Hint(What.LEVEL, 5, Source.COPIES, "x")]
        self.assertEqual(self.gather(images(), level=five).levels, tuple(five))
        self.assertEqual(self.functions["data_disks"].call_args[0][1], 5)
        self.assertEqual(self.gather([*images(2), Image("c", 2, 9000, like=0)], level=five).levels, ())

    def test_large_blocks(self) -> None:
        """The survey is made once more with them."""
        self.gather(images(), logical=[Hint(What.LOGICAL, 4096, Source.TABLE, "x")])
        self.assertEqual([request.get("logical") for request in self.asked], ["", "4096"])

    def test_unread_rows(self) -> None:
        """So many bad rows are asked for as maps tell of, where these are no more than a fourth of what is filled."""
        bad = [Hint(What.BAD_ROWS, 100, Source.MAPS, "x")]
        self.assertEqual([self.gather(images(), bad_rows=bad, filled=filled).unread for filled in (400, 399)], [100, 0])
        self.assertEqual((self.gather(images(), bad_rows=bad).bad, self.gather(images()).bad), (100, 0))


if __name__ == "__main__":
    unittest.main()
