"""Images, tables, heads and maps."""

import os
import struct
import unittest
import zlib

from reraid_try.errors import OutsideError
from reraid_try.evidence import bcache, heads, images, maps, reading, tables
from reraid_try.evidence.heads import Head
from reraid_try.evidence.tables import Partition
from reraid_try.units import MIB, SECTOR
from tests.standin import InFolder


def mbr(*entries: tuple[int, int, int, int]) -> bytes:
    """An MBR of entries: active, type, first sector, sectors."""
    table = b"".join(struct.pack("<B3xB3xII", *entry) for entry in entries)
    return bytes(446) + table.ljust(64, b"\0") + b"\x55\xaa"


def gpt(partitions: list[tuple[int, int]], last: int, block: int = SECTOR) -> bytes:
    """The first blocks of a disk with a GPT: a protective MBR, the header, and a block of entries."""
    head = bytearray(92)
    head[:16] = b"EFI PART" + struct.pack("<II", 0x10000, 92)
    struct.pack_into("<QQ", head, 24, 1, last)
    struct.pack_into("<QII", head, 72, 2, 128, 128)
    head[16:20] = struct.pack("<I", zlib.crc32(head))
    entries = b"".join(b"t" * 16 + b"u" * 16 + struct.pack("<QQ", first, end) + bytes(80) for first, end in partitions)
    return mbr((0, 0xEE, 1, 100)).ljust(block, b"\0") + bytes(head).ljust(block, b"\0") + entries.ljust(128 * 128, b"\0")


def ext_super(group: int = 0) -> bytes:
    """A superblock of ext."""
    sector = bytearray(SECTOR)
    struct.pack_into("<I", sector, 4, 1000)
    struct.pack_into("<I", sector, 24, 2)
    struct.pack_into("<I", sector, 32, 32768)
    sector[56:58] = b"\x53\xef"
    struct.pack_into("<H", sector, 90, group)
    return bytes(sector)


def superblock(version: int, data: int) -> bytes:
    """A superblock of bcache: its sector, version and magic, and at which sector the data begin."""
    sector = bytearray(SECTOR)
    struct.pack_into("<QQ", sector, 8, 8, version)
    sector[24:40] = bytes.fromhex("c68573f64e1a45ca8265f57f48ba6d81")
    struct.pack_into("<Q", sector, 184, data)
    return bytes(sector)


def reader(data: bytes) -> tables.Read:
    """What reads these bytes."""
    return lambda place, count: data[place:place + count]


class Tables(InFolder):
    def test_mbr(self) -> None:
        self.assertEqual(tables.read_mbr(mbr((0x80, 7, 2048, 100), (0, 0x83, 4096, 5))), (Partition(2048, 100, "07"), Partition(4096, 5, "83")))

    def test_no_mbr(self) -> None:
        for sector in (bytes(SECTOR), mbr(), mbr((5, 7, 2048, 100)), mbr((0, 0, 2048, 100)), mbr((0, 7, 0, 100)), mbr((0, 7, 2048, 0)),
                       mbr((0, 7, 1, 1))[:511], b"\xeb\x52\x90NTFS" + mbr((0, 7, 1, 1))[7:]):
            self.assertEqual(tables.read_mbr(sector), ())
        self.assertEqual(tables.read_mbr(mbr((0, 7, 90, 11)), 100), ())
        self.assertEqual(len(tables.read_mbr(mbr((0, 7, 90, 10)), 100)), 1)

    def test_gpt(self) -> None:
        table = tables.read_table(reader(gpt([(2048, 4095), (4096, 4096)], 9999)), 10000)
        self.assertEqual((table.kind, table.own), ("GPT of 512 bytes", True))
        self.assertEqual(table.partitions, (Partition(2048, 2048, "gpt"), Partition(4096, 1, "gpt")))
        self.assertFalse(tables.read_table(reader(gpt([(2048, 4095)], 9998)), 10000).own)

    def test_efi_system_partitions(self) -> None:
        """By their type, in a GPT and in an MBR."""
        data = gpt([(2048, 4095), (4096, 4096)], 9999).replace(b"t" * 16, bytes.fromhex("28732ac11ff8d211ba4b00a0c93ec93b"), 1)
        self.assertEqual([(it.kind, it.is_efi) for it in tables.read_table(reader(data), 10000).partitions], [("efi", True), ("gpt", False)])
        self.assertEqual([it.is_efi for it in tables.read_mbr(mbr((0, 0xEF, 2048, 100), (0, 7, 4096, 5)))], [True, False])

    def test_gpt_of_large_blocks_counts_in_sectors(self) -> None:
        table = tables.read_table(reader(gpt([(256, 511)], 1249, 4096)), 10000)
        self.assertEqual((table.kind, table.own, table.partitions), ("GPT of 4096 bytes", True, (Partition(2048, 2048, "gpt"),)))

    def test_gpt_with_wrong_sum(self) -> None:
        data = bytearray(gpt([(2048, 4095)], 9999))
        data[SECTOR + 40] ^= 1
        self.assertIsNone(tables.read_table(reader(bytes(data)), 10000).kind)

    def test_gpt_that_is_cut_or_lies_behind_all(self) -> None:
        self.assertIsNone(tables.read_gpt(reader(gpt([(2048, 4095)], 9999)[:SECTOR + 60]), SECTOR))
        head = bytearray(gpt([(2048, 4095)], 9999)[SECTOR:SECTOR + 92])
        struct.pack_into("<Q", head, 72, (1 << 64) - 1)
        head[16:20] = bytes(4)
        head[16:20] = struct.pack("<I", zlib.crc32(head))
        path = self.file("disk", bytes(SECTOR) + bytes(head).ljust(1 << 16, b"\0"))
        with open(path, "rb") as file:
            def read(place: int, count: int) -> bytes:
                file.seek(place)
                return file.read(count)
            self.assertEqual(tables.read_gpt(read, SECTOR), (9999, ()))

    def test_logical_partitions(self) -> None:
        """They stand in place of the extended one, in the order of its chain: each is counted from its table, the next table from the first one."""
        disk = bytearray(600 * SECTOR)

        def put_table(at: int, *entries: tuple[int, int, int, int]) -> None:
            disk[at * SECTOR:(at + 1) * SECTOR] = mbr(*entries)
        for kind in (5, 0x0F, 0x85):
            put_table(0, (0, 7, 8, 40), (0, kind, 100, 400))
            put_table(100, (0, 0x83, 3, 50), (0, 5, 60, 120))
            put_table(160, (0, 0x82, 1, 20), (0, 5, 200, 90))
            put_table(300, (0, 0xFD, 2, 10))
            table = tables.read_table(reader(bytes(disk)), 600)
            wanted = Partition(8, 40, "07"), Partition(103, 50, "83"), Partition(161, 20, "82"), Partition(302, 10, "fd")
            self.assertEqual((table.own, table.partitions), (True, wanted))
        put_table(300, (0, 0xFD, 2, 199), (0, 5, 60, 120))
        self.assertEqual([it.first for it in tables.read_table(reader(bytes(disk)), 600).partitions], [8, 103, 161])
        put_table(160, (0, 0x82, 1, 20), (0, 5, 400, 90))
        self.assertEqual([it.first for it in tables.read_table(reader(bytes(disk)), 600).partitions], [8, 103, 161])
        for broken in (bytes(SECTOR), mbr((0, 0, 0, 0), (0, 0, 0, 0))):
            disk[100 * SECTOR:101 * SECTOR] = broken
            self.assertEqual(tables.read_table(reader(bytes(disk)), 600).partitions[1:], (Partition(100, 400, "85"),))

    def test_mbr_of_another_disk(self) -> None:
        data = mbr((0, 7, 2048, 1000))
        self.assertTrue(tables.read_table(reader(data), 3048).own)
        self.assertFalse(tables.read_table(reader(data), 3047).own)
        self.assertEqual(tables.read_table(reader(mbr((0, 0xEE, 1, 1))), 99).kind, None)


class Heads(unittest.TestCase):
    def test_sniffed(self) -> None:
        def at(place: int, magic: bytes) -> bytes:
            return (bytes(place) + magic).ljust(heads.HEAD_BYTES, b"\0")
        fat = struct.pack("<HBHB", 512, 8, 32, 2)
        for kind, head in (("xfs", at(0, b"XFSB")), ("ntfs", at(3, b"NTFS    ")), ("exfat", at(3, b"EXFAT   ")), ("btrfs", at(65600, b"_BHRfS_M")),
                           ("LVM2_member", at(512, b"LABELONE")), ("crypto_LUKS", at(0, b"LUKS\xba\xbe")), ("BitLocker", at(3, b"-FVE-FS-")),
                           ("ext4", at(1024, ext_super())), ("vfat", at(11, fat)[:82] + b"FAT32   " + bytes(9)), ("MBR", at(0, mbr((0, 7, 63, 9)))),
                           ("bcache", at(4096, superblock(4, 48)))):
            self.assertEqual(heads.sniff(head), kind)
        for head in (bytes(4096), b"", at(1024, ext_super(1)), at(65599, b"_BHRfS_M"), at(54, b"FAT16   ")):
            self.assertIsNone(heads.sniff(head))

    def test_bcache(self) -> None:
        """A superblock elsewhere than at its sector, or cut off, is none."""
        moved = bytearray(superblock(4, 48))
        moved[8] = 9
        self.assertEqual([bcache.data_of(it) for it in (superblock(4, 48), bytes(moved), superblock(4, 48)[:511], bytes(SECTOR))],
                         [48, None, None, None])

    def test_ext(self) -> None:
        self.assertTrue(heads.is_ext(ext_super()))
        for place, value in ((24, 7), (32, 0), (32, 8 * 4096 + 1), (4, 0)):
            sector = bytearray(ext_super())
            struct.pack_into("<I", sector, place, value)
            self.assertFalse(heads.is_ext(bytes(sector)))


class InImages(InFolder):
    def test_heads_wherever_they_stand(self) -> None:
        data = bytearray(40 * SECTOR)
        data[5 * SECTOR:6 * SECTOR] = mbr((0, 7, 2048, 100))
        data[9 * SECTOR:10 * SECTOR] = ext_super()
        data[20 * SECTOR:20 * SECTOR + 6] = b"LUKS\xba\xbe"
        data[30 * SECTOR:31 * SECTOR], data[31 * SECTOR:32 * SECTOR] = superblock(4, 48), superblock(3, 48)
        data[1 * SECTOR:2 * SECTOR] = ext_super()
        with open(self.file("a", bytes(data)), "rb") as file:
            found = heads.find_heads(file, 3, len(data))
        self.assertEqual(set(found), {Head("mbr", 3, 5), Head("ext", 3, 7), Head("luks", 3, 20), Head("bcache", 3, 22)})

    def test_ntfs_with_large_clusters(self) -> None:
        """A boot sector is a head if its clusters are larger than those that landmarks `boot` have: 248 is 256 sectors, 244 is 4,096."""
        def boot(cluster: int, name: bytes = b"NTFS    ", end: bytes = b"\x55\xaa") -> bytes:
            return (b"\xeb\x52\x90" + name + struct.pack("<HB", SECTOR, cluster)).ljust(SECTOR - 2, b"\0") + end
        sectors = [boot(248), boot(244), boot(243), boot(249), boot(128), boot(8), boot(246, b"NTFS   x"), boot(246, end=b"\x55\xab"), boot(246)]
        with open(self.file("a", b"".join(sectors)), "rb") as file:
            self.assertEqual(heads.find_heads(file, 2, len(sectors) * SECTOR), tuple(Head("ntfs", 2, sector) for sector in (0, 1, 8)))

    def test_heads_at_the_start(self) -> None:
        data = mbr((0, 7, 2048, 100)) + bytes(SECTOR) + ext_super() + bytes(SECTOR)
        with open(self.file("a", data), "rb") as file:
            self.assertEqual(set(heads.find_heads(file, 0, len(data))), {Head("mbr", 0, 0), Head("ext", 0, 0)})

    def test_first_and_last_data(self) -> None:
        data = bytes(3 * SECTOR) + b"x" + bytes(2 * MIB) + b"y" + bytes(5000)
        with open(self.file("a", data), "rb") as file:
            self.assertEqual(reading.first_data(file, len(data)), 3)
            self.assertEqual(reading.last_data(file, 0, len(data)), (3 * SECTOR + 1 + 2 * MIB) // SECTOR)
            self.assertIsNone(reading.first_data(file, 3 * SECTOR))
            self.assertIsNone(reading.last_data(file, len(data) - 4000, len(data)))

    def test_data_up_to_the_end_of_a_sector(self) -> None:
        with open(self.file("a", bytes(SECTOR) + b"x" * SECTOR + bytes(SECTOR)), "rb") as file:
            self.assertEqual((reading.first_data(file, 3 * SECTOR), reading.last_data(file, 0, 3 * SECTOR)), (1, 1))

    def test_strided(self) -> None:
        self.assertEqual(reading.strided(bytes(512) + b"\1" + bytes(1023) + b"\1", 0, 1), [1, 3])
        self.assertEqual(reading.strided(b"\0\1".ljust(512, b"\0") * 3, 1, 1), [0, 1, 2])

    def test_holes_are_passed_over(self) -> None:
        name = self.file("a")
        os.truncate(name, 64 * MIB)
        with open(name, "r+b") as file:
            file.seek(32 * MIB)
            file.write(b"x")
        with open(name, "rb") as file:
            self.assertEqual([place for place, _ in reading.blocks(file, 0, 64 * MIB)], [32 * MIB])

    def test_look(self) -> None:
        data = gpt([(40, 99)], 199).ljust(200 * SECTOR, b"\0") + b"rest"
        name = self.file("a.img", data)
        self.file("a.map", "0 +\n0x0 0x10 +\n")
        image = images.look(name, 2, MIB)
        self.assertEqual((image.sectors, image.rest, image.first, image.last, image.table.own), (200, 4, 0, 2, True))
        self.assertEqual(image.line(), f"image 2 {name}: 200 sectors and 4 bytes after the last whole sector, which are ignored, non-zero from "
                                       f"sector 0 to 2, "
                         f"its own GPT of 512 bytes with 40+60, mapfile {self.folder}/a.map")
        self.assertEqual(image.fields()["partitions"], [{"first": 40, "count": 60, "kind": "gpt"}])

    def test_the_map_of_a_link(self) -> None:
        """It lies beside the link, or else beside the file that the link leads to."""
        os.mkdir(f"{self.folder}/real")
        self.file("real/a.img", b"x" * SECTOR)
        os.symlink("real/a.img", f"{self.folder}/link")
        self.assertIsNone(images.map_beside(f"{self.folder}/link"))
        for name in ("real/a.map", "link.map"):
            self.file(name, "0 +\n0x0 0x10 +\n")
            self.assertEqual(images.map_beside(f"{self.folder}/link"), f"{self.folder}/{name}")

    def test_what_is_held(self) -> None:
        """Holes of an image take no room."""
        name = self.file("a", b"x" * 8192)
        os.truncate(name, 64 * MIB)
        self.assertTrue(8192 <= images.held(images.look(name, 0, MIB)) < MIB)

    def test_images_that_are_alike(self) -> None:
        one, other = self.file("a", b"x" * 5000), self.file("b", b"x" * 5000)
        third, empty = self.file("c", b"x" * 4999 + b"y"), self.file("d", bytes(5000))
        found = images.look_at_all([one, other, third, empty, self.file("e", bytes(5000))], MIB)
        self.assertEqual([image.like for image in found], [None, 0, 0, None, None])
        self.assertIn("nothing but zeros", found[3].line())
        self.assertIn("the same as image 0", found[1].line())
        shorter = images.look_at_all([one, self.file("f", b"x" * 4600), self.file("g", b"x" * 4000 + b"z" * 1000)], MIB)
        self.assertEqual([image.like for image in shorter], [None, None, None])
        longer = images.look_at_all([self.file("h", b"x" * 9 * SECTOR), self.file("i", b"x" * 9 * SECTOR + bytes(3 * SECTOR))], MIB)
        self.assertEqual([image.like for image in longer], [None, None])

    def test_what_cannot_be_read(self) -> None:
        with self.assertRaisesRegex(OutsideError, "^image 4 .*: No such file"):
            images.look(f"{self.folder}/none", 4, MIB)
        with self.assertRaisesRegex(OutsideError, "^image 0 .*: Is a directory"):
            images.look(self.folder, 0, MIB)

    def test_an_image_without_a_sector(self) -> None:
        for data, said in ((b"", "0 bytes"), (b"x", "1 byte"), (bytes(511), "511 bytes")):
            with self.assertRaisesRegex(OutsideError, f"^image 2 .* has {said}, less than a sector of 512: leave it out$"):
                images.look(self.file("a", data), 2, MIB)

    def test_filled(self) -> None:
        names = [self.file("a", bytes(SECTOR) + b"x" + bytes(3 * SECTOR)), self.file("b", bytes(4 * SECTOR) + b"y")]
        self.assertEqual(list(images.filled(names, 0, 6)), [0, 1, 0, 0, 1, 0])
        self.assertEqual(list(images.filled(names, 1, 3)), [1, 0])


class Maps(InFolder):
    def test_read(self) -> None:
        for status in ("0 ?", "0x0 + 1", "512 F 2", "0x200     G               3"):
            self.assertEqual(maps.read_map(self.file("a.map", f"{status}\n0 5 +\n")).blocks, ((0, 5, "+"),))
        name = self.file("a.map", "# comment\n0x200 ?\n0x0 0x400 +\n1024 0x201 -\n0x601 512 *\n")
        found = maps.read_map(name)
        self.assertEqual(found.blocks, ((0, 1024, "+"), (1024, 513, "-"), (1537, 512, "*")))
        # 513 bytes touch three sectors at most, 512 that begin inside of one touch two.
        self.assertEqual([found.unread(end) for end in (2, 3)], [0, 2])
        # What lies behind the last block, which ends at byte 2049, was not read.
        self.assertEqual(found.unread(5), 3 + 2 + 2)

    def test_gaps(self) -> None:
        """Sectors of which some byte is unread; what touches is one run."""
        found = maps.Map("m", "", ((0, 1024, "+"), (1024, 513, "-"), (1537, 511, "*"), (2048, 512, "/"), (2560, 1024, "+"), (3584, 1, "-")))
        self.assertEqual(found.gaps(8), [range(2, 5), range(7, 8)])
        self.assertEqual((found.gaps(7), found.gaps(4), found.gaps(2)), ([range(2, 5)], [range(2, 4)], []))

    def test_gaps_before_and_behind_all_blocks(self) -> None:
        """Of what lies in no block nothing was read, as `salvage` has it: of an image that was made longer, say."""
        found = maps.Map("m", "", ((1024, 512, "+"), (1536, 512, "-"), (2048, 1000, "+")))
        self.assertEqual((found.gaps(100), found.unread(100)), ([range(0, 2), range(3, 4), range(5, 100)], 3 + 2 + 96))
        self.assertEqual((found.gaps(5), found.gaps(1), maps.Map("m", "", ()).gaps(9)), ([range(0, 2), range(3, 4)], [range(0, 1)], [range(0, 9)]))

    def test_no_map(self) -> None:
        for text, line in (("", "it has no lines"), ("no map\n", "line 1"), ("# x\n\n0x0 +\n", "no blocks"), ("0 +\n", "no blocks"),
                           ("0 x\n0 5 +\n", "line 1"), ("0 5 +\n0 5 +\n", "line 1"), ("0 + x\n0 5 +\n", "line 1"), ("0\n0 5 +\n", "line 1"),
                           ("0 +\n0 0xffffffffffffffffffff +\n", "line 2"),
                           ("0 +\nfile one\n", "line 2"), ("0 +\n0 5 x\n", "line 2"), ("0 +\n0 5 +\n6 5 +\n", "line 3"),
                           ("0 +\n# x\n0 0 +\n", "line 3"), ("0 +\n0 5\n", "line 2"), ("0 +\n0 5 +-\n", "line 2"), ("0 +\n0 5 + +\n", "line 2")):
            with self.assertRaisesRegex(OutsideError, line):
                maps.read_map(self.file("a.map", text))
        with self.assertRaisesRegex(OutsideError, "it is not text"):
            maps.read_map(self.file("a.map", b"\xff\xfe"))
        with self.assertRaisesRegex(OutsideError, "cannot be read: Is a directory"):
            maps.read_map(self.folder)

    def test_as_one_text(self) -> None:
        one = maps.Map("a", "0 +\n0 5 +", ())
        self.assertEqual(maps.maps_text([None, one, one]), "map 1\n0 +\n0 5 +\nmap 2\n0 +\n0 5 +\n")
        self.assertIsNone(maps.maps_text([None, None]))


if __name__ == "__main__":
    unittest.main()
