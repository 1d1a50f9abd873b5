"""Volumes, file systems, verdicts, checkers, files that are whole, and logical volumes."""

import bz2
import gzip
import io
import lzma
import os
import struct
import subprocess
import threading
import unittest
import zipfile
import zlib
from unittest import mock

from reraid_try.calls.commands import Answer, Commands
from reraid_try.calls.sets import read_word
from reraid_try.checks import checkers, leftovers, looks, lvm, systems, wholes
from reraid_try.checks.checkers import Checkers, lacking, seen_length
from reraid_try.checks.lvm import Piece
from reraid_try.checks.systems import SYSTEMS, system_of
from reraid_try.checks.verdicts import Finding, Score, Verdict, covered
from reraid_try.checks.volumes import Region, Room, Source, Volume
from reraid_try.checks.wholes import Wholes
from reraid_try.errors import OutsideError
from reraid_try.units import ALL, KIB, MIB, SECTOR, size_said
from tests.standin import InFolder, Standin, put
from tests.test_images import ext_super, mbr, superblock

NOISE = b"".join(struct.pack("<I", zlib.crc32(struct.pack("<I", k))) for k in range(64 * 1024))
LVM = """vg {
extent_size = 8 # sectors
physical_volumes {
pv0 {
pe_start = 16
}
}
logical_volumes {
home {
segment_count = 2
segment2 {
start_extent = 1
extent_count = 3
type = "striped"
stripe_count = 1
stripes = [
"pv0", 10
]
}
segment1 {
start_extent = 0
extent_count = 1
type = "striped"
stripe_count = 1
stripes = [ "pv0", 0 ]
}
}
wide {
segment1 {
start_extent = 0
extent_count = 1
type = "striped"
stripe_count = 2
stripes = [ "pv0", 0, "pv1", 0 ]
}
}
}
}
"""


class Logical(unittest.TestCase):
    def test_pieces_in_order(self) -> None:
        found = lvm.logical_volumes(LVM, 1000)
        base = 1000 + 16 * SECTOR
        self.assertEqual([it.name for it in found], ["home"])
        self.assertEqual(found[0].pieces, (Piece(base, 8 * SECTOR), Piece(base + 80 * SECTOR, 24 * SECTOR)))

    def test_pieces_on_another_physical_volume(self) -> None:
        """They lie behind all that is there, and none may lie before what is; which physical volume is there its label says."""
        two = LVM.replace("pv0 {\n", 'pv0 {\nid = "abcdef-0123"\n').replace("logical_volumes", "LOGICAL", 1)
        two = two.replace("}\n}\nLOGICAL", '}\npv1 {\nid = "uvwxyz-4567"\npe_start = 32\n}\n}\nlogical_volumes', 1)
        moved = two.replace('"pv0", 10', '"pv1", 10')
        third = 'segment3 {\nstart_extent = 4\nextent_count = 1\ntype = "striped"\nstripe_count = 1\nstripes = [ "pv0", 20 ]\n}\nsegment2 {'
        between = moved.replace("segment2 {", third, 1)
        base, length = 1000 + 16 * SECTOR, 8 * SECTOR
        for text, own, wanted in ((two, "abcdef0123", [(base, base + 80 * SECTOR, False)]), (two, None, [(base, base + 80 * SECTOR, False)]),
                                  (moved, "abcdef0123", [(base, ALL, True)]), (between, "abcdef0123", []), (moved, "uvwxyz4567", []),
                                  (two, "uvwxyz4567", [])):
            found = lvm.logical_volumes(text, 1000, own)
            self.assertEqual([(*(piece.first for piece in it.pieces), it.spread) for it in found], wanted)
        self.assertEqual([it.length for it in lvm.logical_volumes(moved, 1000, "abcdef0123")[0].pieces], [length, 3 * length])
        self.assertEqual([it.said for it in (lvm.Logical("a", ()), lvm.Logical("a", (), True))],
                         ["logical volume a", "logical volume a, whose end lies on another physical volume"])

    def test_identifier(self) -> None:
        """Where the label stands in one of the first four sectors."""
        label = b"LABELONE" + bytes(24) + b"0123456789abcdefghijklmnopqrstuv" + bytes(9)
        for before, wanted in ((0, label[32:64].decode()), (512, label[32:64].decode()), (4 * SECTOR, None)):
            self.assertEqual(lvm.identifier(bytes(before) + label), wanted)

    def test_no_text(self) -> None:
        for text in ("", "vg {", "vg { physical_volumes { } }", LVM.replace("pe_start = 16", ""), LVM.replace("_count = 1", "_count = x")):
            self.assertEqual(lvm.logical_volumes(text, 0), [])


class Lengths(unittest.TestCase):
    def test_by_their_heads(self) -> None:
        def length(kind: str, *fields: tuple[int, bytes]) -> int:
            head = bytearray(128 * KIB)
            for place, data in fields:
                head[place:place + len(data)] = data
            return system_of(kind).length_of(bytes(head))
        little = struct.Struct("<I").pack
        self.assertEqual(length("ext4", (1024, ext_super())), 1000 * 4096)
        self.assertEqual(length("ext4", (1024, ext_super()), (1024 + 96, little(0x80)), (1024 + 336, little(1))), (1000 + (1 << 32)) * 4096)
        self.assertEqual(length("ext4", (1024, ext_super()), (1024 + 336, little(1))), 1000 * 4096)
        self.assertEqual(length("xfs", (4, struct.pack(">IQ", 4096, 77))), 77 * 4096)
        self.assertEqual(length("ntfs", (40, struct.pack("<Q", 99))), 100 * SECTOR)
        self.assertEqual(length("btrfs", (65536 + 0xC9 + 8, struct.pack("<Q", 12345))), 12345)
        self.assertEqual(length("vfat", (11, struct.pack("<H", 512)), (32, little(100000))), 512 * 100000)
        self.assertEqual(length("vfat", (11, struct.pack("<H", 512)), (19, struct.pack("<H", 9000))), 512 * 9000)
        self.assertEqual(length("exfat", (72, struct.pack("<Q", 50)), (108, b"\x09")), 50 * 512)
        self.assertEqual(length("reiserfs", (65536, little(700)), (65536 + 44, struct.pack("<H", 4096))), 700 * 4096)
        self.assertEqual((length("swap"), length("crypto_LUKS"), SYSTEMS["xfs"].length_of(b"XFSB")), (0, 0, 0))

    def test_rows(self) -> None:
        self.assertEqual(SYSTEMS["ext4"].command("v", 0), ["e2fsck", "-fn", "v"])
        self.assertEqual(SYSTEMS["ext4"].command("v", 512), ["e2fsck", "-fn", "v?offset=512"])
        self.assertEqual(SYSTEMS["xfs"].command("v", 512), ["xfs_repair", "-n", "-f", "v"])
        with self.assertRaises(ValueError):
            SYSTEMS["f2fs"].command("v")
        # A checker may change nothing but a copy of its own, and a mount may not write, not even a journal.
        for it in SYSTEMS.values():
            self.assertTrue(it.tool is None or it.tool in ("pvck",) or it.writes or any(word in it.words for word in ("-n", "-fn", "--readonly")))
            self.assertTrue(it.mount is None or it.mount.startswith("ro"))
            self.assertTrue(not it.opened or "--readonly" in it.opened)
        self.assertEqual([kind for kind, it in SYSTEMS.items() if it.mount == "ro,noload"], ["ext3", "ext4"])


class Verdicts(unittest.TestCase):
    def verdict(self, *findings: Finding, files: Wholes | None = None, length: int = 1000, **values: object) -> Verdict:
        """What was found in a volume of 1,000 bytes, chunks of 10 and rows of 30."""
        return Verdict(list(findings), files or Wholes(), [], length, 10, 30, **values)  # type: ignore[arg-type]

    def found(self, kind: str = "xfs", clean: bool | None = True, length: int = 1000, table: bool = False) -> Finding:
        """A file system at the start."""
        return Finding("", kind, clean, "", (Piece(0, length),), table=table)

    def test_scores(self) -> None:
        rows: list[tuple[Verdict, Score]] = [
            (self.verdict(), Score.NOTHING),
            (self.verdict(self.found()), Score.CHECKED),
            (self.verdict(self.found(clean=False)), Score.NOTHING),
            (self.verdict(self.found(), self.found(clean=False)), Score.NOTHING),
            (self.verdict(self.found(clean=None)), Score.KNOWN),
            (self.verdict(self.found(), empty=True), Score.NOTHING),
            (self.verdict(self.found(), files=Wholes(2, 1, 31)), Score.WHOLE),
            (self.verdict(self.found(), files=Wholes(2, 1, 30)), Score.CHECKED),
            (self.verdict(self.found(), files=Wholes(3, 1, 31)), Score.CHECKED),
            (self.verdict(self.found(clean=None), files=Wholes(2, 1, 31)), Score.WHOLE),
            (self.verdict(self.found(clean=None), files=Wholes(2, 0, 0)), Score.NOTHING),
            (self.verdict(self.found(), files=Wholes(2, 0, 0)), Score.CHECKED),
            (self.verdict(self.found("btrfs")), Score.WHOLE),
            (self.verdict(self.found("btrfs", None)), Score.KNOWN),
            (self.verdict(self.found(), files=Wholes(2, 2, 9, True, Wholes(1, 1, 31))), Score.WHOLE),
        ]
        for number, (verdict, score) in enumerate(rows):
            self.assertEqual(verdict.score, score, number)
        self.assertEqual([score.rating for score in Score], ["", "", "+", "++"])

    def test_no_rating_where_little_of_the_volume_is_covered(self) -> None:
        little = self.verdict(self.found(length=249), files=Wholes(2, 2, 31))
        self.assertEqual((little.score, little.doubts), (Score.KNOWN, ["what was found covers 24% of the volume"]))
        self.assertEqual(self.verdict(self.found(length=250)).doubts, [])
        two = self.verdict(self.found(length=200), Finding("", "ext4", True, "", (Piece(100, 149),)))
        self.assertEqual((two.covers, two.score), (249, Score.KNOWN))
        # What lies in a physical volume or a table counts, not these.
        self.assertEqual(self.verdict(self.found("LVM2_member", None), self.found(length=100)).score, Score.KNOWN)

    def test_in_order(self) -> None:
        """A clean file system over more than half of the volume, half of the first files whole, and files that go on from each chunk of a row."""
        def told(joined: int = 3, clean: bool | None = True, length: int = 501, first: int = 2) -> bool:
            return self.verdict(self.found(clean=clean, length=length), files=Wholes(first, 1, 30, long=Wholes(1, 1, 30, joined=joined))).in_order
        self.assertTrue(told())
        self.assertEqual([told(joined=2), told(clean=False), told(clean=None), told(length=500), told(first=3)], [False] * 5)
        self.assertFalse(self.verdict(self.found(), files=Wholes(2, 2, 30, joined=3)).in_order)

    def test_no_rating_where_only_files_within_a_chunk_are_whole(self) -> None:
        within = self.verdict(self.found(), files=Wholes(64, 61, 10))
        self.assertEqual((within.score, within.doubts), (Score.KNOWN, ["only files within one chunk are intact, as in any order of the chunks"]))
        for files in (Wholes(64, 61, 11), Wholes(64, 64, 10), Wholes(4, 0, 0)):
            self.assertEqual(self.verdict(self.found(), files=files).score, Score.CHECKED)

    def test_no_rating_where_many_files_are_broken(self) -> None:
        """Metadata in the first rows may be right in a wrong volume, where the parity of the rows with files lies elsewhere."""
        broken = self.verdict(self.found(), files=Wholes(8, 0))
        self.assertEqual((broken.score, broken.doubts), (Score.KNOWN, ["none of 8 files is intact"]))
        for kind, files in (("xfs", Wholes(7, 0)), ("xfs", Wholes(8, 1, 20)), ("xfs", Wholes(8, 0, long=Wholes(2, 1, 20))), ("ext3", Wholes(9, 0))):
            self.assertEqual(self.verdict(self.found(kind), files=files).score, Score.CHECKED)
        self.assertEqual(self.verdict(self.found("btrfs"), files=Wholes(9, 0)).score, Score.WHOLE)

    def test_no_rating_where_a_checker_reads_little_and_files_are_broken(self) -> None:
        """As `ntfsfix` is content with wrong orders of the chunks, files have to tell the right one where some are broken."""
        def told(kind: str, joined: int | None, whole: int = 61, longest: int = 30) -> Score:
            long = None if joined is None else Wholes(16, 5, 11, joined=joined)
            return self.verdict(self.found(kind), files=Wholes(64, whole, longest, long=long)).score
        self.assertEqual([told("ntfs", joined) for joined in (None, 2, 3)], [Score.KNOWN] * 3)
        self.assertEqual([told("ntfs", 2, 64), told("ntfs", None, 61, 31), told("ext4", 2)], [Score.CHECKED, Score.WHOLE, Score.CHECKED])
        self.assertIn("its checker reads little of it", self.verdict(self.found("ntfs"), files=Wholes(64, 61, 30)).doubts[0])

    def test_files_in_pieces_anyway(self) -> None:
        """An ext2 or ext3 has blocks that list blocks within each longer file, so that none of these counts as whole."""
        for kind, score in (("ext2", Score.CHECKED), ("ext3", Score.CHECKED), ("ext4", Score.KNOWN), ("ntfs", Score.KNOWN)):
            self.assertEqual(self.verdict(self.found(kind), files=Wholes(64, 61, 10)).score, score)
        self.assertEqual(self.verdict(self.found("ext3", False), files=Wholes(64, 61, 10)).score, Score.NOTHING)

    def test_covered(self) -> None:
        self.assertEqual(covered([Piece(0, 10), Piece(5, 10), Piece(95, 10)], 100), 20)
        self.assertEqual(covered([Piece(50, 10), Piece(0, 100)], 100), 100)
        self.assertEqual(covered([], 100), 0)

    def test_text(self) -> None:
        verdict = self.verdict(Finding("at 9", "xfs", True, "xfs_repair reports no errors"), files=Wholes(64, 61, 10, True))
        verdict.notes.append("cut")
        self.assertEqual(verdict.text(),
                         "at 9 xfs: xfs_repair reports no errors; 61 of the first 64 files intact, the longest 10 bytes: no longer than a chunk; cut")
        self.assertEqual(self.verdict().text(), "nothing recognized; no known files")
        self.assertEqual(self.verdict(self.found("btrfs")).text(), "btrfs")
        self.assertEqual(Wholes(3, 2, 30).text(10, 30), "2 of 3 files intact, the longest 30 bytes: no longer than a stripe")
        self.assertEqual(Wholes(3, 2, 31, True, Wholes(2, 1, 5)).text(10, 30), "2 of the first 3 files intact, 1 of 2 that may be long")
        self.assertEqual(Wholes(3, 0, 0).text(10, 30), "0 of 3 files intact")

    def test_encrypted_and_gain(self) -> None:
        self.assertEqual(len(self.verdict(self.found("crypto_LUKS", None), self.found()).encrypted), 1)
        self.assertGreater(self.verdict(self.found(), files=Wholes(2, 2, 9)).gain, self.verdict(self.found(), files=Wholes(2, 1, 9)).gain)


def png(size: int) -> bytes:
    """A picture of one chunk of so many bytes."""
    def chunk(kind: bytes, body: bytes) -> bytes:
        return struct.pack(">I", len(body)) + kind + body + struct.pack(">I", zlib.crc32(kind + body))
    return b"\x89PNG\r\n\x1a\n" + chunk(b"IDAT", NOISE[:size]) + chunk(b"IEND", b"")


def zipped(method: int, size: int) -> bytes:
    """A zip of one member."""
    out = io.BytesIO()
    with zipfile.ZipFile(out, "w", method) as archive:
        archive.writestr("member", NOISE[:size])
    return out.getvalue()


class Files(InFolder):
    def test_each_kind_whole_and_broken(self) -> None:
        made = {"gzip": gzip.compress(NOISE[:9000]), "bzip2": bz2.compress(NOISE[:9000]), "xz": lzma.compress(NOISE[:9000]), "png": png(9000),
                "zip": zipped(zipfile.ZIP_DEFLATED, 9000), "stored": zipped(zipfile.ZIP_STORED, 9000)}
        for kind, data in made.items():
            broken = bytearray(data)
            broken[len(data) // 2] ^= 1
            name = self.file(kind, bytes(SECTOR) + data + bytes(4 * SECTOR - len(data) % SECTOR) + bytes(broken) + bytes(9000))
            told = wholes.count(name)
            self.assertEqual((told.found, told.whole), (2, 1), kind)
            self.assertGreater(told.longest, 8000)
            self.assertLessEqual(told.longest, len(data))
            name = self.file("cut", data[:len(data) * 2 // 3])
            self.assertEqual((wholes.count(name).found, wholes.count(name).whole), (1, 0), kind)

    def test_only_at_sectors_and_not_inside_of_whole_ones(self) -> None:
        name = self.file("a", b"x" + gzip.compress(b"a" * 9) + bytes(999))
        self.assertEqual(wholes.count(name).found, 0)
        inner = gzip.compress(NOISE[:700]).ljust(1024, b"\0")
        name = self.file("a", png(300)[:-12].ljust(SECTOR, b"\0") + inner)
        self.assertEqual((wholes.count(name).found, wholes.count(name).whole), (2, 1))

    def test_many(self) -> None:
        one = gzip.compress(b"a").ljust(SECTOR, b"\0")
        told = wholes.count(self.file("a", one * 5), most=3)
        self.assertEqual((told.found, told.whole, told.more), (3, 3, True))
        self.assertFalse(wholes.count(self.file("a", one * 3), most=3).more)
        self.assertEqual(wholes.count(self.file("a", one * 3), seconds=-1).found, 0)

    def test_the_longest_ones(self) -> None:
        small, large = gzip.compress(b"a").ljust(SECTOR, b"\0"), gzip.compress(NOISE[:200 * KIB])
        name = self.file("a", small * 20 + large.ljust(400 * SECTOR + 512, b"\0") + small * 5)
        told = wholes.count_long(name, os.path.getsize(name), 100 * KIB, 50 * KIB, 20)
        self.assertEqual((told.found, told.whole), (1, 1))
        self.assertEqual(told.longest, len(large))

    def test_files_that_go_on_in_the_next_chunk(self) -> None:
        """Files of 1,023 bytes, each in three sectors, the third one broken."""
        one = gzip.compress(NOISE[:1000])
        broken = one[:500] + bytes([one[500] ^ 1]) + one[501:]
        name = self.file("a", b"".join(it.ljust(3 * SECTOR, b"\0") for it in (one, one, broken, one)))
        for chunk, chunks, joined in ((1, 4, 3), (2, 4, 2), (4, 1, 1), (4, 3, 1), (5, 2, 1), (1, 3, 1), (1, 9, 2)):
            told = wholes.count_long(name, 12 * SECTOR, chunks * chunk * SECTOR, chunk * SECTOR, 20)
            self.assertEqual((told.longest > chunks * chunk * SECTOR, told.joined), (False, joined), (chunk, chunks))
        long = wholes.count_long(name, 12 * SECTOR, SECTOR, SECTOR, 20)
        self.assertEqual((long.longest, long.joined), (len(one), 0))

    def test_sums_behind_members_of_a_zip(self) -> None:
        """With and without a signature, with lengths of four bytes and of eight."""
        for signature, kind, length in ((b"", "<III", 12), (b"PK\7\x08", "<III", 16), (b"", "<IQQ", 20), (b"PK\7\x08", "<IQQ", 24)):
            text = signature + struct.pack(kind, 0x11223344, 700, 900) + b"PK\1\2"
            self.assertEqual(wholes.described(io.BytesIO(b"x" * 9 + text.ljust(40, b"\0")), 9), (0x11223344, length))

    def test_zip_that_does_not_say_where_it_ends(self) -> None:
        head = b"PK\3\4" + struct.pack("<HHH4xIIIHH", 20, 8, 0, 0, 0, 0, 1, 0) + b"a"
        told = wholes.count(self.file("a", head.ljust(4096, b"\0")))
        self.assertEqual((told.found, told.whole), (0, 0))


class Rooms(InFolder):
    def room(self, *rows: tuple[str, Answer]) -> Room:
        """A room without mounts."""
        room = Room(Standin(*rows), self.folder, mounts=False)
        self.addCleanup(room.close)
        return room

    def test_source(self) -> None:
        source = Source(read_word("5:ls:none:128:2048:0,1,2"), ("a", "b", "c"), 2048 + 128 * 10)
        self.assertEqual(source.length, 20 * 128 * SECTOR)
        self.assertEqual(source.command(99), (["reraid", "write", "set=5:ls:none:128:2048:0,1,2", "end=99", "--", "a", "b", "c"], None))
        self.assertEqual(Source(source.word, ("a",), 9, "map 0\n").command(9)[0][1], "salvage")
        self.assertEqual(Source(read_word("near2:8:0:0,1"), ("a",), 9, "map 0\n").command(9),
                         (["reraid", "mirrorwrite", "set=near2:8:0:0,1", "end=9", "--", "a"], None))
        self.assertEqual((source.row_end(2), source.row_end(99)), (2048 + 256, 2048 + 1280))

    def test_where_copies_begin(self) -> None:
        """Whole rows of copies are written where copies follow one another; of far ones the first bytes of all that is there."""
        source = Source(read_word("offset2:8:16:0,1,2"), ("a", "b", "c"), 900)
        self.assertEqual((source.row_end(3), source.row_end(4)), (16 + 32, 16 + 32))
        # Three rows of one and a half chunks each have 13 sectors, so four rows are taken.
        self.assertEqual(source.beginning(13 * SECTOR)[0], [["reraid", "mirrorwrite", "set=offset2:8:16:0,1,2", "end=32", "--", "a", "b", "c"]])
        self.assertEqual(source.beginning(25 * SECTOR)[0][0][3], "end=48")
        far = Source(read_word("far2:8:16:0,1,2"), ("a", "b", "c"), 900)
        self.assertEqual(far.beginning(13 * SECTOR), ([["reraid", "mirrorwrite", "set=far2:8:16:0,1,2", "end=900", "--", "a", "b", "c"],
                                                       ["head", "-c", str(13 * SECTOR)]], None))

    def test_far_copies_are_not_cut(self) -> None:
        """An end before theirs would move them, so they are written whole, or not at all."""
        source = Source(read_word("far2:8:0:0,1"), ("a", "b"), 80)
        with self.room(("reraid mirrorwrite", put("x" * 40))).volume(source, 40 * SECTOR, 9) as volume:
            self.assertIsNone(volume)
        with self.room(("reraid mirrorwrite", put("x" * 40))).volume(source, 80 * SECTOR, 9) as volume:
            assert volume
            self.assertEqual((os.path.getsize(volume.path), volume.cut), (80 * SECTOR, False))

    def test_written_and_cut(self) -> None:
        source = Source(read_word("0:plain:none:8:0:0,1"), ("a", "b"), 80)
        commands = Commands()
        room = Room(commands, self.folder, mounts=False)
        with mock.patch.object(Source, "command", lambda _, end: (["sh", "-c", f"head -c {end * 2 * SECTOR} /dev/zero | tr '\\0' x"], None)):
            with room.volume(source, 1 << 30, 9) as volume:
                assert volume
                self.assertEqual((os.path.getsize(volume.path), volume.cut, volume.mounted), (160 * SECTOR, False, False))
            with room.volume(source, 40 * SECTOR, 9) as volume:
                assert volume
                self.assertTrue(volume.cut)
                with open(volume.path, "rb") as file:
                    data = file.read()
                # Two rows of chunks, of 16 sectors each.
                self.assertEqual(data, b"x" * 32 * SECTOR + bytes(128 * SECTOR))
        self.assertEqual(os.listdir(room.base), ["lock"])
        room.close()
        self.assertEqual(os.listdir(self.folder), [])

    def test_that_could_not_be_written(self) -> None:
        with self.room(("reraid write", Answer(10))).volume(Source(read_word("0:plain:none:8:0:0,1"), ("a", "b"), 80), 1 << 30, 9) as volume:
            self.assertIsNone(volume)

    def mounted(self, source: Source, ends: bool = False) -> tuple[list[str], bool]:
        """What mounts a volume, by a server that shows it, or that ends at once; and whether other volumes are still mounted after it."""
        room = Room(Standin(("reraid salvage", put("x"))), self.folder, mounts=False)
        self.addCleanup(room.close)
        room.mounts, words = True, []

        def serve(command: list[str], **_: object) -> mock.Mock:
            words.extend(command)
            if not ends:
                with open(command[2], "wb") as file:
                    file.write(b"x")
            return mock.Mock(poll=lambda: 1 if ends else None)
        with mock.patch("subprocess.Popen", serve), mock.patch("reraid_try.checks.volumes.unmount"), room.volume(source, 1 << 30, 9) as volume:
            assert volume
            self.assertEqual(volume.mounted, not ends)
            if not ends:
                os.remove(volume.path)
        return words, room.mounts

    def test_mounted_by_its_maps(self) -> None:
        word = read_word("5:ls:none:8:0:0,1,2")
        words, _ = self.mounted(Source(word, ("a", "b", "c"), 80))
        self.assertEqual(words[4:], ["reraid-nbd", "set=5:ls:none:8:0:0,1,2", "end=80", "--", "a", "b", "c"])
        words, _ = self.mounted(Source(word, ("a", "b", "c"), 80, "map 1\n0 0 +\n"))
        self.assertEqual(words[4:6] + words[7:], ["reraid-nbd", "set=5:ls:none:8:0:0,1,2", "end=80", "--", "a", "b", "c"])
        with open(words[6].removeprefix("maps="), encoding="ascii") as file:
            self.assertEqual(file.read(), "map 1\n0 0 +\n")

    def test_maps_that_are_refused(self) -> None:
        """The volume is written then, and others are still mounted."""
        word = read_word("5:ls:none:8:0:0,1,2")
        self.assertTrue(self.mounted(Source(word, ("a", "b", "c"), 80, "map 1\n"), ends=True)[1])

    def test_no_room(self) -> None:
        with self.assertRaisesRegex(OutsideError, "^.*/none cannot be written: No such file.*--room"):
            Room(Standin(), f"{self.folder}/none")

    def test_regions(self) -> None:
        data = b"a" * 1000 + b"b" * 1000 + bytes(1000)
        volume = Volume(self.file("v", data), 3000)
        room = self.room()
        with room.region(volume, Region("", (Piece(0, 3000),)), 3000) as path:
            self.assertEqual(path, volume.path)
        with room.region(volume, Region("", (Piece(1000, 500), Piece(0, 500))), 900) as path:
            assert path
            with open(path, "rb") as file:
                self.assertEqual(file.read(), b"b" * 500 + b"a" * 400)
        with room.region(volume, Region("", (Piece(0, 3000),)), 4000) as path:
            assert path
            with open(path, "rb") as file:
                self.assertEqual(file.read(), data + bytes(1000))
        with mock.patch.object(Room, "free", lambda _: 100):
            with room.region(volume, Region("", (Piece(0, 1500),)), 1500) as path:
                self.assertIsNone(path)
        region = Region("", (Piece(1000, 500), Piece(2900, 500)))
        self.assertEqual((region.there(3000), region.first, region.length), (600, 1000, 1000))
        self.assertEqual(region.up_to(700), (Piece(1000, 500), Piece(2900, 200)))

    def test_a_room_is_known_by_its_lock_and_to_its_programs(self) -> None:
        """While a run is there its folder counts as in use, and the programs that it starts have the name of it in their environment."""
        room = self.room()
        os.utime(room.base, (1, 1))
        self.assertEqual(leftovers.left_in(self.folder), [])
        said = subprocess.run(["printenv", leftovers.VARIABLE], capture_output=True, text=True, check=False).stdout
        self.assertEqual(said, room.base + "\n")
        room.close()
        self.assertEqual((os.path.exists(room.base), leftovers.VARIABLE in os.environ), (False, False))


# The first sector of a FAT of 4 MiB.
FAT = ((b"\xeb\x58\x90mkfs.fat" + struct.pack("<H", 512) + b"\x01\x20\0\x02\0\0" + struct.pack("<H", 8192)).ljust(54, b"\0")
       + b"FAT16   ".ljust(456, b"\0") + b"\x55\xaa")


class Looks(InFolder):
    def checkers(self, *rows: tuple[str, Answer | object], there: tuple[str, ...] = systems.TOOLS) -> Checkers:
        """Checkers with these tools and answers."""
        self.standin = Standin(*rows)  # type: ignore[arg-type]
        room = Room(self.standin, self.folder, mounts=False)
        self.addCleanup(room.close)
        found = Checkers(self.standin, room, 60, 1 << 40)
        found.there = set(there)
        return found

    def volume(self, *parts: tuple[int, bytes], length: int = 4 * MIB) -> Volume:
        """A volume with these bytes at these sectors."""
        data = bytearray(length)
        for sector, part in parts:
            data[sector * SECTOR:sector * SECTOR + len(part)] = part
        return Volume(self.file("volume", bytes(data)), length)

    def xfs(self, length: int) -> bytes:
        """The head of an XFS."""
        return b"XFSB" + struct.pack(">IQ", 4096, length // 4096)

    def test_clean_file_system(self) -> None:
        verdict = self.checkers(("xfs_repair", put(""))).look(self.volume((0, self.xfs(4 * MIB))), [0], 4096, 8192)
        self.assertEqual((verdict.text(), verdict.score), ("xfs: xfs_repair reports no errors; no known files", Score.CHECKED))
        self.assertEqual(self.standin.count("xfs_repair -n -f"), 1)

    def test_fault(self) -> None:
        verdict = self.checkers(("xfs_repair", Answer(1))).look(self.volume((0, self.xfs(4 * MIB))), [], 4096, 8192)
        self.assertEqual((verdict.findings[0].said, verdict.score), ("xfs_repair reports errors (status 1)", Score.NOTHING))
        verdict = self.checkers(("xfs_repair", Answer(None))).look(self.volume((0, self.xfs(4 * MIB))), [], 4096, 8192)
        self.assertEqual((verdict.findings[0].said, verdict.score), ("xfs_repair took too long", Score.KNOWN))

    def test_jfs(self) -> None:
        """Of a JFS that was read wholly, with errors, nothing is told, as it may not have been unmounted: of one that was not, it is no JFS."""
        volume = self.volume((64, b"JFS1" + bytes(508)))
        done = "  120096 kilobytes are available for use.\nFilesystem is dirty.\n"
        for answer, clean, score in ((put(done), True, Score.CHECKED), (Answer(4, done.encode()), None, Score.KNOWN),
                                     (Answer(4, b"CANNOT CONTINUE.\n"), False, Score.NOTHING), (Answer(8, b""), False, Score.NOTHING)):
            verdict = self.checkers(("fsck.jfs", answer)).look(volume, [], 4096, 8192)
            self.assertEqual((verdict.findings[0].kind, verdict.findings[0].clean, verdict.score), ("jfs", clean, score))
            self.assertEqual(self.standin.asked[-1][0], ["fsck.jfs", "-n", volume.path])

    def test_tool_that_is_not_there(self) -> None:
        verdict = self.checkers(there=()).look(self.volume((0, self.xfs(4 * MIB))), [], 4096, 8192)
        self.assertEqual((verdict.findings[0].said, verdict.score), ("xfs_repair is not installed", Score.KNOWN))

    def test_what_bcache_caches(self) -> None:
        """A file system behind a superblock of bcache is looked at, and is what the volume holds; behind one of a cache there is none."""
        for version, found in ((4, ["bcache", "at 48 xfs: xfs_repair reports no errors"]), (3, ["bcache: nothing recognized in it"])):
            volume = self.volume((8, superblock(version, 48)), (48, self.xfs(4 * MIB - 48 * SECTOR)))
            verdict = self.checkers(("xfs_repair", put(""))).look(volume, [], 4096, 8192)
            self.assertEqual([finding.text() for finding in verdict.findings], found)
        self.assertEqual(verdict.score, Score.NOTHING)

    def test_partitions_and_origins(self) -> None:
        table = mbr((0, 0x83, 2048, 4096))
        found = self.checkers(("xfs_repair", put("")), ("e2fsck", put("")))
        verdict = found.look(self.volume((0, table), (2048, self.xfs(2 * MIB)), (7000, bytes(1024) + ext_super())), [7000, 7000, 99999], 4096, 8192)
        self.assertEqual([finding.text() for finding in verdict.findings], ["MBR", "at 2048 xfs: xfs_repair reports no errors", "at 7000 ext4: "
                                                                                                                                "e2fsck reports no "
                                                                                                                                "errors"])
        self.assertIn(["e2fsck", "-fn", f"{self.folder}/volume?offset={7000 * SECTOR}"], [words for words, _ in self.standin.asked])
        self.assertTrue(verdict.findings[0].table)

    def test_table_alone_is_empty(self) -> None:
        verdict = self.checkers().look(self.volume((0, mbr((0, 0x83, 2048, 4096)))), [], 4096, 8192)
        self.assertEqual((verdict.text(), verdict.score), ("MBR: nothing recognized in it; no known files", Score.NOTHING))

    def test_logical_volumes(self) -> None:
        place = 16 + 80
        found = self.checkers(("pvck", put(LVM.replace("stripes = [ \"pv0\", 0 ]", "stripes = [ \"pv0\", 9 ]"))), ("xfs_repair", put("")))
        head = bytes(SECTOR) + b"LABELONE"
        verdict = found.look(self.volume((0, head), (16 + 72, self.xfs(32 * SECTOR))), [], 4096, 8192)
        self.assertEqual([finding.text() for finding in verdict.findings], ["LVM2_member: pvck reports no errors", "logical volume home: xfs: "
                                                                                                                   "xfs_repair reports no errors"])
        one = LVM.replace('"pv0", 0 ]', '"pv0", 9 ]').replace("extent_count = 1\n", "extent_count = 64\n").replace("segment2", "nothing2")
        found = self.checkers(("pvck", put(one)), ("xfs_repair", put("")))
        verdict = found.look(self.volume((0, head), (16 + 72, self.xfs(64 * 8 * SECTOR))), [], 4096, 8192)
        self.assertEqual([finding.text() for finding in verdict.findings], ["LVM2_member: pvck reports no errors", "logical volume home: xfs: "
                                                                                                                   "xfs_repair reports no errors"])
        self.assertIsNone(verdict.findings[0].clean)
        self.assertEqual(place, 96)
        # The physical volume that is there is the second one of its group.
        second = one.replace("pv0 {", f'pv0 {{\nid = "{"a" * 32}"\npe_start = 99\n}}\npv1 {{\nid = "{"u" * 32}"').replace('"pv0", 9', '"pv1", 9')
        found = self.checkers(("pvck", put(second)), ("xfs_repair", put("")))
        verdict = found.look(self.volume((0, head + bytes(24) + b"u" * 32), (16 + 72, self.xfs(64 * 8 * SECTOR))), [], 4096, 8192)
        self.assertEqual(verdict.findings[1].text(), "logical volume home: xfs: xfs_repair reports no errors")

    def test_thin_volumes(self) -> None:
        """What LVM2 alone reads is named, and files decide: if some go on from each chunk into the next one, also where long ones are broken."""
        pool = LVM.replace('type = "striped"\nstripe_count = 1\nstripes = [\n"pv0", 10\n]', 'type = "thin"\nthin_pool = "pool"')
        self.assertEqual((lvm.thin_volumes(pool), lvm.thin_volumes(LVM), lvm.thin_volumes("none")), (("/dev/vg/home",), (), ()))
        head = bytes(SECTOR) + b"LABELONE"
        for joined, whole, score in ((2, 61, Score.CHECKED), (1, 61, Score.KNOWN), (2, 31, Score.KNOWN)):
            with mock.patch.object(wholes, "count", return_value=Wholes(64, whole, 4000, True)), \
                    mock.patch.object(wholes, "count_long", return_value=Wholes(16, 11, 4000, joined=joined)):
                verdict = self.checkers(("pvck", put(pool))).look(self.volume((0, head)), [], 4096, 8192)
            self.assertEqual((verdict.findings[0].said, verdict.empty, verdict.score), (
                "pvck reports no errors; thin volumes, which only LVM2 reads, so intact files decide: /dev/vg/home", False, score))
            self.assertEqual(looks.finding_of(looks.fields_of(verdict)["findings"][0]), verdict.findings[0])
        self.assertTrue(self.checkers(("pvck", put("vg {"))).look(self.volume((0, head)), [], 4096, 8192).empty)

    def test_volume_that_ends_too_soon(self) -> None:
        seen: list[int] = []

        def sized(words: list[str], _: str) -> Answer:
            seen.append(os.path.getsize(words[-1]))
            return Answer(0)
        found = self.checkers(("xfs_repair", sized))
        verdict = found.look(self.volume((0, self.xfs(5 * MIB))), [], 4096, 8192)
        self.assertEqual((seen, verdict.findings[0].lacks), ([5 * MIB], MIB))
        self.assertEqual(verdict.findings[0].said, "xfs_repair reports no errors, with zeros in place of its last 1.0 MiB, which are missing")
        # Where most of it is missing nothing is put behind it.
        found.look(self.volume((0, self.xfs(50 * MIB))), [], 4096, 8192)
        self.assertEqual(seen[1:], [4 * MIB])
        self.assertEqual((lacking(100, 75), lacking(100, 74), lacking(100, 200)), (25, 0, 0))

    def test_file_system_that_is_longer_than_its_volume(self) -> None:
        """There is no rating for one that says of itself that it is longer than what is there, of whatever kind, unless its checker is content with
        zeros at its end."""
        for kind in ("vfat", "exfat", "ntfs", "btrfs", "ext4", "xfs"):
            for told, lacks, clean, score in ((1024, 0, None, Score.WHOLE), (1536, 0, None, Score.KNOWN), (1536, 512, None, Score.KNOWN),
                                              (1536, 0, True, Score.KNOWN), (1536, 512, True, Score.WHOLE), (0, 0, None, Score.WHOLE)):
                finding = Finding("", kind, clean, pieces=(Piece(0, 1024),), lacks=lacks, told=told, there=1024)
                verdict = Verdict([finding], Wholes(1, 1, 1 << 20), length=1024, chunk=10, row=100)
                self.assertEqual((verdict.score, verdict.doubts), (score, [f"{kind} states 3 sectors, but only 2 are there"]
                                                                   if score is Score.KNOWN else []))

    def test_how_long_it_says_that_it_is(self) -> None:
        head = bytearray(SECTOR)
        head[11:13], head[32:36], head[54:62], head[82:90] = b"\0\2", struct.pack("<I", 9000), b"FAT16   ", b"FAT32   "
        head[0:3], head[510:] = b"\xeb\x58\x90", b"\x55\xaa"
        found = self.checkers(there=())
        with mock.patch.object(found, "kind_of", lambda _path, region: None if region.first else "vfat"):
            finding = found.look(self.volume((0, bytes(head))), [], 4096, 8192).findings[0]
        self.assertEqual((finding.told, finding.there, finding.lacks), (9000 * SECTOR, 4 * MIB, 9000 * SECTOR - 4 * MIB))

    def test_ntfs_sees_no_more_than_it_has(self) -> None:
        seen: list[int] = []

        def sized(words: list[str], _: str) -> Answer:
            seen.append(os.path.getsize(words[-1]))
            return Answer(0)
        self.checkers(("ntfsfix", sized)).look(self.volume((0, b"\xeb\x52\x90NTFS    ".ljust(40, b"\0") + struct.pack("<Q", 4095))), [], 4096, 8192)
        self.assertEqual(seen, [2 * MIB])

        def ends_as_it_begins(words: list[str], _: str) -> Answer:
            with open(words[-1], "rb") as file:
                data = file.read()
            return Answer(int(len(data) != 5 * MIB or data[-SECTOR:] != data[:SECTOR] or any(data[-MIB:-SECTOR])))
        head = b"\xeb\x52\x90NTFS    ".ljust(40, b"\0") + struct.pack("<Q", 10239)
        verdict = self.checkers(("ntfsfix", ends_as_it_begins)).look(self.volume((0, head)), [], 4096, 8192)
        self.assertEqual(verdict.findings[0].text(), "ntfs: ntfsfix reports no errors, with zeros and a copy of its first sector in place of its "
                                                     "last 1.0 MiB, which are missing")
        self.assertEqual((seen_length(SYSTEMS["ntfs"], 0, 50, 0), seen_length(SYSTEMS["xfs"], 40, 50, 0)), (50, 50))

    def test_long_files_where_the_first_ones_lie_within_a_chunk(self) -> None:
        """Large chunks: the first files are all shorter, so those that may be long are looked for before that says anything."""
        for status, more, score in ((0, True, Score.WHOLE), (0, False, Score.KNOWN), (4, True, Score.NOTHING)):
            with mock.patch.object(wholes, "count", return_value=Wholes(64, 60, 4000, more)), \
                    mock.patch.object(wholes, "count_long", return_value=Wholes(1, 1, 9000)) as long:
                verdict = self.checkers(("xfs_repair", put("", status))).look(self.volume((0, self.xfs(4096 * SECTOR))), [], 4096, 8192)
            self.assertEqual((verdict.score, long.called), (score, status == 0 and more))

    def test_long_files_where_there_is_no_checker(self) -> None:
        """Files alone tell of an exFAT, and the first ones may all be short: those that may be long are looked for, unless most are broken."""
        head = bytearray(SECTOR)
        head[3:11] = b"EXFAT   "
        head[72:80], head[108] = (8192).to_bytes(8, "little"), 9
        for whole, more, score in ((60, True, Score.WHOLE), (60, False, Score.KNOWN), (20, True, Score.KNOWN)):
            with mock.patch.object(wholes, "count", return_value=Wholes(64, whole, 4000, more)), \
                    mock.patch.object(wholes, "count_long", return_value=Wholes(1, 1, 9000)) as long:
                verdict = self.checkers(there=()).look(self.volume((0, bytes(head)), (4095, bytes(SECTOR))), [], 4096, 8192)
            self.assertEqual((verdict.score, long.called), (score, whole == 60 and more))
        with mock.patch.object(wholes, "count", return_value=Wholes(64, 60, 9000, True)), mock.patch.object(wholes, "count_long") as long:
            verdict = self.checkers(("xfs_repair", put(""))).look(self.volume((0, self.xfs(4096 * SECTOR))), [], 4096, 8192)
        self.assertEqual((verdict.score, long.called), (Score.WHOLE, False))

    def test_no_checker(self) -> None:
        """That intact files alone decide is said, and by which tool a checker could be had that is not here."""
        looks = self.checkers(("blkid", put("TYPE=f2fs\n")), there=("blkid",))
        self.assertEqual(looks.look(self.volume((2, b"\x10\x20\xf5\xf2")), [], 4096, 8192).findings[0].text(),
                         "f2fs: no checker, so intact files decide")
        fat = self.volume((0, FAT))
        self.assertEqual(self.checkers(there=()).look(fat, [], 4096, 8192).findings[0].text(), "vfat: fsck.fat is not installed")

    def test_fat(self) -> None:
        """A FAT that was only not unmounted is left to its files; one with other faults is not right, however many it is told of."""
        dirty = ("There are differences between boot sector and its backup.\nThis is mostly harmless. Differences: (offset:original/backup)\n"
                 "  65:01/00\n  Not automatically fixing this.\nDirty bit is set. Fs was not properly unmounted and some data may be corrupt.\n"
                 " Automatically removing dirty bit.\nFree cluster summary wrong (5 vs. really 120957)\n  Auto-correcting.\n"
                 "Reclaimed 33 unused clusters (135168 bytes).\n\nLeaving filesystem unchanged.\n")
        head, last = "fsck.fat 4.2 (2021-01-31)\n", "volume: 2068 files, 30559/106284 clusters\n"
        wrong = "/long\n  Contains a free cluster (30890). Assuming EOF.\n"
        minor = "fsck.fat reports errors (status 1), only that it was not unmounted, so intact files decide"
        errors = "fsck.fat reports errors (status 1)"
        for text, status, clean, said in (("", 0, True, "fsck.fat reports no errors"), (dirty, 1, None, minor), (dirty + wrong, 1, False, errors),
                                          ("FATs differ - using first FAT.\n", 1, False, errors)):
            verdict = self.checkers(("fsck.fat -n", put(head + text + last, status))).look(self.volume((0, FAT)), [], 4096, 8192)
            self.assertEqual((verdict.findings[0].clean, verdict.findings[0].said), (clean, said))
        self.assertEqual(SYSTEMS["vfat"].pipeline("v"), [["fsck.fat", "-n", "v"], ["head", "-c", "65536"]])
        self.assertEqual(SYSTEMS["ext4"].pipeline("v", 512), [["e2fsck", "-fn", "v?offset=512"]])

    def test_a_checker_that_writes(self) -> None:
        """It gets a copy of its own, which is gone afterwards; where that is too long it is not asked."""
        data = bytearray(4 * MIB)
        data[65536:65540], data[65536 + 44:65536 + 46], data[65536 + 52:65536 + 61] = struct.pack("<I", 1024), struct.pack("<H", 4096), b"ReIsEr2Fs"
        seen: list[str] = []

        def writes(words: list[str], _: str) -> Answer:
            seen.append(words[-1])
            with open(words[-1], "r+b") as file:
                file.write(b"changed")
            return Answer(0)
        volume = self.volume((0, bytes(data)))
        looks = self.checkers(("fsck.reiserfs --check --yes --quiet", writes))
        self.assertEqual(looks.look(volume, [], 4096, 8192).findings[0].text(), "reiserfs: fsck.reiserfs reports no errors")
        with open(volume.path, "rb") as file:
            self.assertEqual((file.read() == data, os.path.exists(seen[0]), seen[0] == volume.path), (True, False, False))
        looks.most = MIB
        self.assertEqual(looks.ask(SYSTEMS["reiserfs"], volume, Region("", (Piece(0, 4 * MIB),)), 4 * MIB, None), None)

    def test_encrypted(self) -> None:
        verdict = self.checkers().look(self.volume((0, b"LUKS\xba\xbe")), [], 4096, 8192)
        self.assertEqual((verdict.text(), verdict.score), ("crypto_LUKS: encrypted", Score.KNOWN))

    def test_blkid_is_asked_where_it_is_there(self) -> None:
        found = self.checkers(("blkid", put("DEVNAME=x\nTYPE=xfs\n")), ("xfs_repair", put("")), there=("blkid", "xfs_repair"))
        self.assertEqual(found.kind_of("v", Region("", (Piece(5, 9),))), "xfs")
        self.assertEqual(self.standin.asked[0][0], ["blkid", "-p", "-O", "5", "-S", "9", "-o", "export", "v"])
        self.assertIsNone(self.checkers(("blkid", Answer(2)), there=("blkid",)).kind_of("v", Region("", (Piece(5, 9),))))

    def test_files_are_counted_but_not_where_all_sums_are_right(self) -> None:
        one = gzip.compress(NOISE[:9000])
        verdict = self.checkers(("xfs_repair", put(""))).look(self.volume((0, self.xfs(4 * MIB)), (100, one)), [], 512, 1024)
        self.assertEqual((verdict.files.found, verdict.files.whole, verdict.score), (1, 1, Score.WHOLE))
        head = bytes(65600) + b"_BHRfS_M"
        verdict = self.checkers(("btrfs check", put(""))).look(self.volume((0, head), (1000, one)), [], 512, 1024)
        self.assertEqual((verdict.files.found, verdict.text()), (0, "btrfs: btrfs reports no errors, all data checksums match"))

    def test_long_files_are_looked_for_where_the_first_are_short(self) -> None:
        small = gzip.compress(b"a").ljust(SECTOR, b"\0")
        volume = self.volume((0, self.xfs(4 * MIB)), (8, small * 70), (200, gzip.compress(NOISE[:100 * KIB])))
        verdict = self.checkers(("xfs_repair", put(""))).look(volume, [], 32 * KIB, 64 * KIB)
        self.assertTrue(verdict.files.long and verdict.files.long.whole == 1)
        self.assertEqual(verdict.score, Score.WHOLE)

    def test_a_volume_that_is_cut_for_want_of_room(self) -> None:
        """A checker that finds fault in it says nothing of the whole, so the volume counts as unchecked; one that is content counts."""
        path = self.file("v", (b"XFSB" + struct.pack(">IQ", 4096, 16)).ljust(64 * KIB, b"\0"))
        for status, clean, said in ((1, None, "(status 1), over only its first bytes, for lack of space"), (0, True, "no errors")):
            verdict = self.checkers(("xfs_repair", put("", status))).look(Volume(path, 64 * KIB, cut=True), [], KIB, KIB)
            self.assertEqual((verdict.findings[0].clean, said in verdict.findings[0].said, verdict.lacked_room), (clean, True, True))
        whole = self.checkers(("xfs_repair", put("", 1))).look(Volume(path, 64 * KIB), [], KIB, KIB)
        self.assertEqual((whole.findings[0].clean, whole.lacked_room), (False, False))

    def test_is_there(self) -> None:
        self.assertTrue(checkers.is_there("sh"))
        self.assertFalse(checkers.is_there("no-such-command-here"))
        self.assertEqual((size_said(1), size_said(1023), size_said(31073), size_said(3 * MIB // 2)), ("1 byte", "1023 bytes", "30.3 KiB", "1.5 MiB"))
        self.assertTrue(threading.active_count() >= 1)


if __name__ == "__main__":
    unittest.main()
