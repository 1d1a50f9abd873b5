"""Tables of file systems behind what is surveyed of large images: where they are looked for, and that they are surveyed once."""

import struct
import types
from typing import Any, cast
from unittest import mock

from reraid_try.calls import plans
from reraid_try.calls.plans import Group, Mark, Plan
from reraid_try.checks.extfiles import Tables
from reraid_try.evidence import compact, extents, far, surveying
from reraid_try.evidence.far import Asked, Start
from reraid_try.evidence.images import Image
from reraid_try.evidence.surveying import LargeSurveys, Shared
from reraid_try.policy import thousands
from reraid_try.policy.shapes import Shape
from tests.standin import Here, Standin, put
from tests.test_large import GIB, MIB, SECTOR, VALUES, sparse

# An XFS of 40 groups of 1 TiB, whose inodes have 512 bytes.
GROUPS, GROUP = 40, 1 << 40
END, NEAR, FIRST = 9 << 31, 1 << 25, 2048


def superblock() -> bytes:
    """The superblock of that XFS."""
    head = bytearray(SECTOR)
    head[:4] = b"XFSB"
    struct.pack_into(">I", head, 4, 4096)
    struct.pack_into(">Q", head, 56, 128)
    struct.pack_into(">II", head, 84, GROUP // 4096, GROUPS)
    struct.pack_into(">HHH", head, 100, 5, SECTOR, SECTOR)
    head[123], head[124] = 3, 28
    return bytes(head)


def plan(*marks: Mark, kind: str = "xfs") -> Plan:
    """A plan of one group."""
    return Plan(plans.COMMON, (END,) * 3, NEAR, VALUES, (Group(kind, marks, 0),))


def head_of(sector: int = FIRST) -> Plan:
    """A plan of the superblock of that XFS."""
    return plan(Mark("super", 1, sector, "every:2147483648:40:0"))


class Places(Here):
    def test_runs(self) -> None:
        """A byte of a volume lies on each image where its part of the data disks is, give or take a chunk."""
        chunk = far.MAX_CHUNK
        for data, place, first in ((1, 0, 100), (4, 8 * GIB, 100 + 2 * GIB // SECTOR), (5, 5 * MIB + 4096, 100 + (MIB + 819) // SECTOR)):
            self.assertEqual(far.run_of(100, place, 3 * data * SECTOR, data), (first - chunk, first + 3 + chunk))

    def test_starts(self) -> None:
        """A file system begins where its first superblock was seen, or at its head; heads that lie close to each other are one."""
        heads = (Start("ext", 0, 4096), Start("ext", 2, 4100), Start("luks", 0, 9), Start("ext", 1, 90000))
        self.assertEqual(list(far.starts(head_of(), heads)), [heads[0], heads[3], Start("xfs", 1, FIRST)])
        copy = plan(Mark("super", 1, 999, "every:2147483648:40:2147483648"))
        self.assertEqual(list(far.starts(copy, ())), [])

    def test_groups_of_xfs(self) -> None:
        """Of the groups of an XFS those are looked at that lie behind what is surveyed, and hold something."""
        centre = FIRST + 3 * GROUP // 5 // SECTOR
        names = tuple(sparse(name, END, {FIRST: superblock(), centre: b"x" * SECTOR}) for name in "abc")
        found = far.runs(head_of(), Asked(names, END, NEAR, (5,)))
        self.assertEqual(found[0], (FIRST - far.AROUND, FIRST + far.AROUND))
        self.assertEqual(found[1:], ((centre - far.MAX_CHUNK, centre + far.TABLE + far.MAX_CHUNK),))
        empty = tuple(sparse(f"e{name}", END, {FIRST: superblock()}) for name in "abc")
        self.assertEqual(far.runs(head_of(), Asked(empty, END, NEAR, (5,))), ())
        self.assertEqual(far.runs(head_of(8), Asked(names, END, NEAR, (5,))), ())

    def test_memory(self) -> None:
        """However many images and groups there are, what is surveyed fits into memory."""
        names = tuple(sparse(name, END, {FIRST: superblock(), NEAR: b"x"}) for name in "abcdefgh")
        with mock.patch.object(extents, "held_by_any", lambda *_: [(0, 1)]):
            found = far.runs(head_of(), Asked(names, END, NEAR, (6, 7)))
        self.assertGreater(len(found), 10)
        self.assertLessEqual(8 * SECTOR * sum(end - first for first, end in found if first > NEAR), compact.MAX_BYTES)

    def test_used_tables(self) -> None:
        """Descriptors of groups in which inodes are used name their tables; unused ones, and other bytes, none."""
        it = cast(Tables, types.SimpleNamespace(groups=9, descriptor=64, wide=True, inodes=8192, block=4096))

        def descriptor(free: int, table: int = 1070, flags: int = 4) -> bytes:
            return struct.pack("<IIIHHHH", 1038, 1054, table, 77, free, 3, flags).ljust(64, b"\0")
        data = descriptor(8000) + descriptor(8192, 5000) + bytes(64) + b"\x5a" * 64 + descriptor(17, 9000) + descriptor(17, 9500, 99)
        self.assertEqual(list(far.used_tables(it, data)), [1070 * 4096, 9000 * 4096])


class Surveyed(Here):
    """Landmarks by the thousand come from far tables too."""

    def asked(self, *marks: str) -> tuple[LargeSurveys, Asked, Standin]:
        """Surveys of three images, in whose far tables these marks are seen."""
        centre = FIRST + 3 * GROUP // 5 // SECTOR
        names = tuple(sparse(name, END, {FIRST: superblock(), centre: b"x" * SECTOR}) for name in "abc")
        text = plan().text().replace("done\n", "").replace("group xfs\n", "group xfs5\n" if marks else "") + "".join(marks) + "done\n"
        runner = Standin(("reraid survey", put(text)))
        return LargeSurveys(runner, names, Shared()), Asked(names, END, NEAR, (5,)), runner

    def test_once(self) -> None:
        """They are surveyed once, and then serve what asks for landmarks up to the end of the images; others do not get them."""
        far_place = 2 * far.AROUND + compact.GAP + far.MAX_CHUNK
        it, asked, runner = self.asked(f"mark inode 1 {far_place} at:1099511627776\n")
        self.assertTrue(it.far(0, "512", head_of(), asked) and it.far(0, "512", head_of(), asked))
        self.assertEqual(runner.count("reraid survey"), 1)
        (_, kept), = it.shared.made
        self.assertEqual([(mark.sector, mark.image) for mark in kept.plan.marks()], [(FIRST + 3 * GROUP // 5 // SECTOR, 1)])
        self.assertEqual((kept.end, kept.kinds), (END, surveying.every_kind()))

    def test_none(self) -> None:
        """If nothing is seen behind what was surveyed, all is as before, and it is not surveyed again."""
        it, asked, runner = self.asked()
        self.assertFalse(it.far(0, "512", head_of(), asked) or it.far(0, "512", head_of(), asked))
        self.assertEqual((runner.count("reraid survey"), it.shared.made), (1, []))

    def test_small(self) -> None:
        """Of images that were surveyed to their ends nothing is asked."""
        evidence = types.SimpleNamespace(images=(Image("a", 0, 5000), Image("b", 1, 5000)), pairs=None, end=5000, start=0)
        self.assertIsNone(thousands.far_end(cast(Any, types.SimpleNamespace(evidence=evidence)), [Shape("5", 3, 1)]))
