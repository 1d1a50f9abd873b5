"""Files that tables of file systems tell of, all over a volume; and what tells of a wrong volume before a checker is asked. The file systems are put
together here, a structure at a time."""

import gzip
import os
import struct
import unittest
from collections.abc import Mapping, Sequence
from unittest import mock

from reraid_try.calls import meter
from reraid_try.calls.commands import Answer
from reraid_try.calls.meter import Meter
from reraid_try.checks import extfiles, mapped, ntfsfiles, roots, spread, wholes, xfsfiles
from reraid_try.checks.checkers import Checkers, unended
from reraid_try.checks.mapped import Extent, Mapped, Read
from reraid_try.checks.systems import system_of
from reraid_try.checks.volumes import Room, Volume
from reraid_try.checks.wholes import Wholes
from tests.standin import Here, Standin, put

KIB, MIB, GIB = 1 << 10, 1 << 20, 1 << 30
BLOCK = 4096
# Of the ext4: where it begins in its volume, blocks and inodes of a group, and groups.
FIRST, PER_GROUP, INODES, GROUPS = MIB, 32768, 64, 30
IDENTIFIER = bytes(range(16))


def reads(parts: Mapping[int, bytes], length: int = 64 * GIB) -> Read:
    """What reads a volume of zeros that holds these bytes at these places."""
    def read(place: int, count: int) -> bytes:
        count = max(0, min(count, length - place))
        found = bytearray(count)
        for at, data in parts.items():
            low, high = max(at, place), min(at + len(data), place + count)
            if low < high:
                found[low - place:high - place] = data[low - at:high - at]
        return bytes(found)
    return read


def put_in(size: int, *fields: tuple[int, str, Sequence[int]]) -> bytes:
    """Bytes of zeros with numbers in some places."""
    found = bytearray(size)
    for at, form, values in fields:
        struct.pack_into(form, found, at, *values)
    return bytes(found)


def ext_super(group: int = 0) -> bytes:
    """The superblock of the ext4, or a copy of it."""
    head = put_in(1024, (4, "<I", (GROUPS * PER_GROUP,)), (24, "<I", (2,)), (32, "<I", (PER_GROUP,)), (40, "<I", (INODES,)), (56, "<H", (0xEF53,)),
                  (88, "<HH", (256, group)), (96, "<II", (0xC0, 0x400)), (254, "<H", (64,)))
    return head[:104] + IDENTIFIER + head[120:]


def inode(size: int, extents: Sequence[tuple[int, int, int]], mode: int = 0x81A4, depth: int = 0) -> bytes:
    """An inode of ext4 of a file of so many bytes with extents, each as its block in the file, its blocks and its first block; with a depth the last
    are blocks of nodes."""
    made = put_in(256, (0, "<H", (mode,)), (4, "<I", (size,)), (26, "<H", (1,)), (32, "<I", (0x80000,)))
    return made[:40] + node(extents, depth).ljust(60, b"\0") + made[100:]


def node(extents: Sequence[tuple[int, int, int]], depth: int = 0) -> bytes:
    """A node of a tree of extents."""
    head = struct.pack("<HHHHI", 0xF30A, len(extents), 4, depth, 0)
    return head + b"".join(struct.pack("<IIHH", at, first, 0, 0) if depth else struct.pack("<IHHI", at, count, 0, first)
                           for at, count, first in extents)


def ext4(inodes: Mapping[int, Sequence[bytes]], copies: Sequence[int] = (1, 3, 5, 7, 9, 25, 27), root: int = 0x41ED) -> dict[int, bytes]:
    """The parts of an ext4 with these inodes in some groups, whose tables begin 100 blocks behind these."""
    descriptors = b"".join(put_in(64, (8, "<I", (group * PER_GROUP + 100,)), (14, "<H", (INODES - len(inodes.get(group, ())),)),
                                  (18, "<H", (0 if group in inodes else 1,)), (28, "<H", (INODES - len(inodes.get(group, ())),)))
                           for group in range(GROUPS))
    parts = {FIRST + 1024: ext_super(), FIRST + BLOCK: descriptors}
    parts |= {FIRST + (group * PER_GROUP + 100) * BLOCK: b"".join(found) for group, found in inodes.items()}
    parts |= {FIRST + group * PER_GROUP * BLOCK: ext_super(group) for group in copies}
    parts[FIRST + 100 * BLOCK + 256] = inode(BLOCK, [(0, 1, 50)], root)
    return parts


class Views(unittest.TestCase):
    def test_read(self) -> None:
        """A file in two pieces with a hole between is read as one, up to its end."""
        read = reads({1000: b"abcdef", 5000: b"uvwxyz"})
        it = Mapped(18, (Extent(0, 1000, 6), Extent(10, 5000, 6)))
        with mapped.opened(read, it) as file:
            self.assertEqual(file.read(), b"abcdef" + bytes(4) + b"uvwxyz" + bytes(2))
            file.seek(4)
            self.assertEqual(file.read(8), b"ef" + bytes(4) + b"uv")

    def test_picked(self) -> None:
        """Numbers are picked evenly, the first and the last among them."""
        self.assertEqual(list(mapped.picked(3, 5)), [0, 1, 2])
        self.assertEqual(list(mapped.picked(101, 5)), [0, 25, 50, 75, 100])
        self.assertEqual(list(mapped.picked(0, 5)), [])


class Ext(unittest.TestCase):
    def test_all_over(self) -> None:
        """Files of groups all over it are told, with their pieces where descriptors and inodes say, and no folders or deleted ones."""
        found = inode(3 * BLOCK, [(0, 1, 70000), (1, 2, 90000)])
        folder, deleted = inode(BLOCK, [(0, 1, 5)], 0x41ED), bytearray(found)
        struct.pack_into("<I", deleted, 20, 99)
        read = reads(ext4({2: [folder, found], 29: [bytes(deleted), inode(2 * BLOCK, [(0, 2, 80000)])]}))
        self.assertEqual(list(extfiles.files(read, FIRST)), [
            Mapped(3 * BLOCK, (Extent(0, FIRST + 70000 * BLOCK, BLOCK), Extent(BLOCK, FIRST + 90000 * BLOCK, 2 * BLOCK))),
            Mapped(2 * BLOCK, (Extent(0, FIRST + 80000 * BLOCK, 2 * BLOCK),))])

    def test_trees(self) -> None:
        """Extents in a block of their own are told too; what is not written yet, or longer than a tree may be, is no file."""
        parts = ext4({2: [inode(8 * BLOCK, [(0, 0, 600)], depth=1), inode(8 * BLOCK, [(0, 0, 601)], depth=1), inode(8 * BLOCK, [(0, 40000, 7)])]})
        parts[FIRST + 600 * BLOCK] = node([(0, 8, 700)]).ljust(BLOCK, b"\0")
        self.assertEqual(list(extfiles.files(reads(parts), FIRST)), [Mapped(8 * BLOCK, (Extent(0, FIRST + 700 * BLOCK, 8 * BLOCK),))])

    def test_none(self) -> None:
        """Of no ext4, and of one whose descriptors lie elsewhere, none is told."""
        self.assertEqual(list(extfiles.files(reads({}), FIRST)), [])
        parts = ext4({2: [inode(8 * BLOCK, [(0, 8, 700)])]})
        head = bytearray(parts[FIRST + 1024])
        struct.pack_into("<I", head, 96, 0xD0)
        self.assertEqual(list(extfiles.files(reads({**parts, FIRST + 1024: bytes(head)}), FIRST)), [])

    def test_large_tables(self) -> None:
        """Of a large table parts all over it are looked at: a file whose inode is the last of 4,096 is told."""
        parts = ext4({2: []})
        head, descriptors = bytearray(parts[FIRST + 1024]), bytearray(parts[FIRST + BLOCK])
        struct.pack_into("<I", head, 40, 4096)
        struct.pack_into("<HHH", descriptors, 2 * 64 + 14, 9, 0, 0)
        struct.pack_into("<H", descriptors, 2 * 64 + 28, 0)
        table = FIRST + (2 * PER_GROUP + 100) * BLOCK
        parts |= {FIRST + 1024: bytes(head), FIRST + BLOCK: bytes(descriptors), table + 4095 * 256: inode(2 * BLOCK, [(0, 2, 80000)])}
        self.assertEqual([it.size for it in extfiles.files(reads(parts), FIRST)], [2 * BLOCK])

    def test_bound(self) -> None:
        """Of many groups some are looked at, and so much of the table of each."""
        asked: list[int] = []
        parts = ext4({group: [inode(BLOCK, [(0, 1, 5)])] * INODES for group in range(GROUPS)})
        read = reads(parts)

        def counted(place: int, count: int) -> bytes:
            asked.append(count)
            return read(place, count)
        list(extfiles.files(counted, FIRST))
        self.assertLessEqual(sum(asked), GROUPS * INODES * 256 + GROUPS * 64 + 1024)

    def test_roots(self) -> None:
        """Nothing speaks against an ext4 whose copies and root are in their places; where most copies, or the root, are elsewhere it is said."""
        length = GROUPS * PER_GROUP * BLOCK
        self.assertEqual(roots.fault("ext4", reads(ext4({0: []})), FIRST, length), "")
        self.assertEqual(roots.fault("ext4", reads(ext4({0: []}, copies=(1, 3, 5, 7))), FIRST, length), "")
        self.assertEqual(roots.fault("ext4", reads(ext4({0: []}, copies=(1, 3))), FIRST, length),
                         "5 of 7 copies of its superblock are not in their places")
        self.assertEqual(roots.fault("ext4", reads(ext4({0: []}, root=0x81A4)), FIRST, length), "its root is not in its place")
        # Of what lies behind the end of a volume nothing is said.
        self.assertEqual(roots.fault("ext4", reads(ext4({0: []}, copies=(1,))), FIRST, 2 * PER_GROUP * BLOCK), "")
        self.assertEqual(roots.fault("btrfs", reads({}), 0, length), "")


# Of the XFS: blocks of a group, groups, and the bits of a block in one.
XFS_BLOCKS, XFS_GROUPS, XFS_BITS = 100000, 6, 17
ROOT = 128


def xfs_super() -> bytes:
    """The superblock of the XFS, or a copy of it."""
    head = put_in(512, (4, ">IQ", (BLOCK, XFS_BLOCKS * XFS_GROUPS)), (56, ">Q", (ROOT,)), (84, ">II", (XFS_BLOCKS, XFS_GROUPS)),
                  (100, ">HHH", (0xB4A5, 512, 512)), (123, "BB", (3, XFS_BITS)))
    return b"XFSB" + head[4:32] + IDENTIFIER + head[48:]


def xfs_inode(size: int, extents: Sequence[tuple[int, int, int]], mode: int = 0x81A4, number: int = 0) -> bytes:
    """An inode of XFS of a file of so many bytes with extents, each as its block in the file, its blocks and its first block."""
    head = put_in(176, (0, ">2xHBB", (mode, 3, 2)), (56, ">Q", (size,)), (76, ">I", (len(extents),)), (152, ">Q", (number,)))
    records = b"".join((at << 73 | first << 21 | count).to_bytes(16, "big") for at, count, first in extents)
    return (b"IN" + head[2:] + records).ljust(512, b"\0")


def xfs(files: Mapping[int, Sequence[bytes]], copies: Sequence[int] = tuple(range(XFS_GROUPS)), root: int = ROOT) -> dict[int, bytes]:
    """The parts of an XFS with these inodes in some groups, whose chunks begin at block 16 of each."""
    parts = {group * XFS_BLOCKS * BLOCK: xfs_super() for group in copies}
    for group, inodes in files.items():
        start = group * XFS_BLOCKS * BLOCK
        parts[start + 1024] = b"XAGI" + struct.pack(">IIIIII", 1, group, XFS_BLOCKS, len(inodes), 3, 1)
        parts[start + 3 * BLOCK] = (b"IAB3" + struct.pack(">HH", 0, 1)).ljust(56, b"\0") + struct.pack(">IIQ", 128, 0, 0)
        parts[start + 16 * BLOCK] = b"".join(inodes).ljust(64 * 512, b"\0")
    parts.setdefault(16 * BLOCK, xfs_inode(BLOCK, [], 0x41ED, root))
    return parts


class Xfs(unittest.TestCase):
    def test_all_over(self) -> None:
        """Files of allocation groups all over it are told: block numbers have the group above the bits of a block."""
        found = xfs_inode(3 * BLOCK, [(0, 1, (4 << XFS_BITS) + 700), (1, 2, 900)])
        read = reads(xfs({0: [xfs_inode(BLOCK, [], 0x41ED, ROOT)], 5: [xfs_inode(BLOCK, [], 0x41ED), found]}))
        self.assertEqual(list(xfsfiles.files(read, 0)), [
            Mapped(3 * BLOCK, (Extent(0, (4 * XFS_BLOCKS + 700) * BLOCK, BLOCK), Extent(BLOCK, 900 * BLOCK, 2 * BLOCK)))])

    def test_none(self) -> None:
        """Unwritten extents, such in no group, and more of them than an inode holds are no file; nor is anything told of no XFS."""
        unwritten = xfs_inode(BLOCK, [((1 << 54) + 0, 1, 900)])
        beyond = xfs_inode(BLOCK, [(0, 1, XFS_GROUPS << XFS_BITS)])
        many = xfs_inode(BLOCK, [(number, 1, 900) for number in range(21)])
        many = many[:76] + struct.pack(">I", 22) + many[80:512]
        self.assertEqual(list(xfsfiles.files(reads(xfs({5: [unwritten, beyond, many]})), 0)), [])
        self.assertEqual(list(xfsfiles.files(reads({}), 0)), [])

    def test_roots(self) -> None:
        """Nothing speaks against an XFS whose copies and root are in their places; where most copies, or the root, are elsewhere it is said."""
        length = XFS_BLOCKS * XFS_GROUPS * BLOCK
        self.assertEqual(roots.fault("xfs", reads(xfs({})), 0, length), "")
        self.assertEqual(roots.fault("xfs", reads(xfs({}, copies=(0, 3))), 0, length), "4 of 5 copies of its superblock are not in their places")
        self.assertEqual(roots.fault("xfs", reads(xfs({}, root=ROOT + 1)), 0, length), "its root is not in its place")
        self.assertEqual(roots.fault("xfs", reads({}), 0, length), "it has no valid superblock")


def record(size: int, runs: bytes, flags: int = 1) -> bytes:
    """A file record of NTFS of so many bytes of data in these runs."""
    data = put_in(64 + 16, (0, "<II", (0x80, 80)), (8, "<B", (1,)), (32, "<H", (64,)), (48, "<Q", (size,)))
    made = bytearray((put_in(56, (4, "<HH", (48, 3)), (20, "<HH", (56, flags))) + data[:64] + runs.ljust(16, b"\0") + b"\xff" * 4).ljust(1024, b"\0"))
    made[:4] = b"FILE"
    made[48:54] = b"\x07\0" + made[510:512] + made[1022:1024]
    made[510:512] = made[1022:1024] = b"\x07\0"
    return bytes(made)


class Ntfs(unittest.TestCase):
    BOOT = b"\xeb\x52\x90NTFS    " + put_in(501, (0, "<HB", (512, 8)), (37, "<QQ", (4, 8)), (53, "<b", (-10,)))

    def test_all_over(self) -> None:
        """Files of records all over the table are told, which lies in two pieces; neither folders nor free records are."""
        table = record(1 << 20, b"\x11\x10\x04\x21\x10\x10\x01")
        found = record(3 * BLOCK, b"\x11\x01\x40\x11\x02\xf0")
        parts = {0: self.BOOT, 4 * BLOCK: table + record(BLOCK, b"\x11\x01\x40", 3),
                 (4 + 0x110) * BLOCK + 5 * 1024: found + record(BLOCK, b"\x11\x01\x40", 0)}
        self.assertEqual(list(ntfsfiles.files(reads(parts), 0))[1:],
                         [Mapped(3 * BLOCK, (Extent(0, 64 * BLOCK, BLOCK), Extent(BLOCK, 48 * BLOCK, 2 * BLOCK)))])

    def test_torn(self) -> None:
        """A record whose sectors do not belong together is none."""
        whole = record(BLOCK, b"\x11\x01\x40")
        self.assertIsNotNone(ntfsfiles.whole(whole))
        self.assertIsNone(ntfsfiles.whole(whole[:510] + b"\x08\0" + whole[512:]))
        self.assertEqual(list(ntfsfiles.files(reads({}), 0)), [])


class Counts(Here):
    """Files in a volume of 32 GiB."""

    LENGTH = 32 * GIB

    def volume(self, parts: Mapping[int, bytes]) -> str:
        """The name of a volume that holds these bytes."""
        with open("volume", "wb") as file:
            file.truncate(self.LENGTH)
            for place, data in parts.items():
                file.seek(place)
                file.write(data)
        return "volume"

    def test_by_tables(self) -> None:
        """Whole and broken files far behind its start are counted, one in two pieces as whole, and the longest is told."""
        long, short = gzip.compress(os.urandom(100000)), gzip.compress(os.urandom(9000))
        parts = ext4({2: [inode(len(long), [(0, 20, 700000), (20, 5, 600000)])],
                      28: [inode(len(short), [(0, 3, 800000)]), inode(len(short), [(0, 3, 810000)])]})
        parts |= {FIRST + 700000 * BLOCK: long[:20 * BLOCK], FIRST + 600000 * BLOCK: long[20 * BLOCK:], FIRST + 800000 * BLOCK: short,
                  FIRST + 810000 * BLOCK: short[:5000] + bytes(100) + short[5100:]}
        told = spread.by_tables(self.volume(parts), self.LENGTH, ("ext4", FIRST), (12 * BLOCK, 4 * BLOCK), 60)
        self.assertEqual((told.found, told.whole, told.longest, told.spread), (3, 2, len(long), True))
        # The first piece of 20 blocks goes on over four borders, of which the last one is of the same chunk of a row as the first.
        self.assertEqual(told.long, Wholes(joined=3))
        self.assertEqual(told.text(), "2 of 3 files all over it intact")

    def test_in_windows(self) -> None:
        """Where no table is known files are looked for in windows all over the volume."""
        data = gzip.compress(os.urandom(9000))
        place = self.LENGTH // 64 * 50
        self.assertEqual(spread.in_windows(self.volume({place + 4096: data}), self.LENGTH, 60), Wholes(1, 1, len(data), True, spread=True))

    def test_bound(self) -> None:
        """No more is read than may be: a file that would be more is not looked at."""
        self.assertEqual((spread.MAX_READ, spread.WINDOWS * spread.WINDOW), (GIB, 512 * MIB))
        raw = spread.Counted(self.volume({0: b"x" * MIB}))
        self.assertEqual((raw.readinto(bytearray(MIB)), raw.count, raw.is_full), (MIB, MIB, False))
        raw.count = GIB
        self.assertTrue(raw.is_full)
        raw.close()

    def test_order(self) -> None:
        """The longest files and such all over the volume take turns."""
        found = [(Mapped(size, (Extent(0, place, size),)), wholes.KINDS[0]) for place, size in enumerate((5, 9, 1, 7))]
        self.assertEqual([it.place for it, _ in spread.order(found, 4)], [1, 0, 3, 2])
        self.assertEqual([it.place for it, _ in spread.order(found, 2)], [1, 0])

    def test_checker(self) -> None:
        """Of a large volume whose head is wrong no checker is asked, and no file is read; one that is right has its files counted all over it."""
        data = gzip.compress(os.urandom(9000))
        parts = ext4({28: [inode(len(data), [(0, 3, 800000)])]}, ()) | {FIRST + 800000 * BLOCK: data}
        wrong = "ext4: 6 of 7 copies of its superblock are not in their places"
        for copies, said, asked in (((1, 3, 5, 7), "ext4: e2fsck reports no errors", 1), ((1,), wrong, 0)):
            name = self.volume({**parts, **{FIRST + group * PER_GROUP * BLOCK: ext_super(group) for group in copies}})
            runner = Standin((f"blkid -p -O {FIRST}", put("TYPE=ext4\n")), ("blkid", put("", 2)), ("e2fsck", put("")))
            room = Room(runner, mounts=False)
            self.addCleanup(room.close)
            checkers = Checkers(runner, room, 10, 16 * GIB)
            checkers.there = {"blkid", "e2fsck"}
            found = checkers.look(Volume(name, self.LENGTH), [FIRST // 512], 65536, 65536 * 3)
            self.assertEqual(found.findings[0].text(), f"at {FIRST // 512} {said}")
            self.assertEqual(runner.count("e2fsck"), asked)
            self.assertEqual((found.files.found, found.files.whole, found.files.spread), (asked, asked, asked > 0))

    def test_broken_files(self) -> None:
        """Of a large volume in which most of many files are broken no checker is asked."""
        data = gzip.compress(os.urandom(9000))
        for whole, said, asked in ((4, "e2fsck reports no errors", 1), (3, "most files all over it are broken", 0)):
            parts = ext4({28: [inode(len(data), [(0, 3, 800000 + 10 * number)]) for number in range(8)]})
            parts |= {FIRST + (800000 + 10 * number) * BLOCK: data if number < whole else data[:100] + bytes(8000) for number in range(8)}
            runner = Standin((f"blkid -p -O {FIRST}", put("TYPE=ext4\n")), ("blkid", put("", 2)), ("e2fsck", put("")))
            room = Room(runner, mounts=False)
            self.addCleanup(room.close)
            checkers = Checkers(runner, room, 10, 16 * GIB)
            checkers.there = {"blkid", "e2fsck"}
            found = checkers.look(Volume(self.volume(parts), self.LENGTH), [FIRST // 512], 65536, 65536 * 3)
            self.assertEqual((found.findings[0].said, runner.count("e2fsck")), (said, asked))
            self.assertEqual((found.files.found, found.files.whole), (8, whole))

    def test_stopped(self) -> None:
        """That a checker was ended since it had read too much is said, unlike that it took too long."""
        system = system_of("xfs")
        self.assertEqual(meter.MAX_OF_IMAGE, 4 * GIB)
        bound = Meter(lambda: 0, 3 * 4 * GIB)
        self.assertEqual(unended(system, Answer(None, full=True), bound, 3), "xfs_repair stopped after 4 GiB of each image")
        self.assertEqual(unended(system, Answer(None, full=True), Meter(lambda: 0, GIB), 4), "xfs_repair stopped after 0.25 GiB of each image")
        self.assertEqual(unended(system, Answer(None), bound, 3), "xfs_repair took too long")
        self.assertEqual(unended(system, None, bound, 3), "not enough space to check it")

    def test_left(self) -> None:
        """Of large images a command may read 4 GiB of each, and less if all commands come close to 8 GiB behind the first pass; 256 MiB in any case.
        Of other images 4 GiB."""
        for read, first, left in ((0, 16, 4), (21, 16, 3), (23.5, 16, 0.5), (23.9, 16, 0.25), (90, 16, 0.25), (6, 1, 3), (90, None, 4)):
            with mock.patch.object(meter, "read_of_images", lambda: 3 * read * GIB):
                self.assertEqual(meter.left_for(3, first and first * GIB), 3 * left * GIB, (read, first))

    def test_handed_on(self) -> None:
        """What a server hands on is counted once: not as it reads it from the one who reads the images, nor as it is read of it."""
        counts = {7: 100, 8: 90, 9: 4}
        with mock.patch.multiple(meter, read_by=counts.__getitem__, family_of=lambda process: [8, 9] if process == 7 else []), \
                mock.patch.object(meter, "HANDED_ON", meter.HandedOn()), mock.patch.object(meter, "read_in_all", lambda: 1000):
            meter.HANDED_ON.add(7)
            self.assertEqual(meter.read_of_images(), 1000 - 194)
