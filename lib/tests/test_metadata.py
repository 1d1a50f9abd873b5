"""Metadata that still stand on images: texts of `mdadm --examine` (4.2) of arrays that the md driver made, and a text of LVM2 of LVM RAID."""

import dataclasses
import os
import tempfile
import unittest
from collections.abc import Sequence

from reraid_try.errors import OutsideError
from reraid_try.evidence import metadata
from reraid_try.evidence.metadata import Member
from reraid_try.evidence.shared import Place

MD_1 = """/dev/ubdc3:
          Magic : a92b4efc
        Version : 1.2
    Feature Map : 0x1
     Array UUID : a5cd91a3:84ba01c0:59343976:51c8c6b6
           Name : x:1
     Raid Level : raid6
   Raid Devices : 6

 Avail Dev Size : 264192 sectors (129.00 MiB 135.27 MB)
    Data Offset : 2048 sectors
   Super Offset : 8 sectors
         Events : 17

         Layout : left-symmetric
     Chunk Size : 128K

   Device Role : Active device 2
   Array State : AAAA.A ('A' == active, '.' == missing, 'R' == replacing)
"""
MD_090 = """/dev/ubda:
          Magic : a92b4efc
        Version : 0.90.00
           UUID : a25303fe:2c250d17:8eadf611:84292ac5
     Raid Level : raid5
   Raid Devices : 4
         Events : 18

         Layout : left-asymmetric
     Chunk Size : 64K

      Number   Major   Minor   RaidDevice State
this     1      98       16        3      active sync   /dev/ubdb

   0     0      98        0        0      active sync   /dev/ubda
"""
INTEL = """/dev/ubda:
          Magic : Intel Raid ISM Cfg Sig.
        Version : 1.2.02
           UUID : 4161ebd0:b06038fa:2ee89e26:57888768

[1]:
       Subarray : 0
           UUID : d95cdb35:1669df55:a0532999:6c3ebf2a
     RAID Level : 5
        Members : 4
      This Slot : 2
  Sector Offset : 0
     Chunk Size : 64 KiB
"""
LVM_TEXT = """vg {
id = "p0W1Hq-0000-0000-0000-0000-0000-000001"
seqno = 7
extent_size = 8192
physical_volumes {
pv0 {
id = "aaaaaa-aaaa-aaaa-aaaa-aaaa-aaaa-aaaaaa"
pe_start = 2048
}
pv1 {
id = "bbbbbb-bbbb-bbbb-bbbb-bbbb-bbbb-bbbbbb"
pe_start = 2048
}
pv2 {
id = "cccccc-cccc-cccc-cccc-cccc-cccc-cccccc"
pe_start = 2048
}
}
logical_volumes {
data {
segment_count = 1
segment1 {
start_extent = 0
extent_count = 40
type = "raid5_ls"
device_count = 3
stripe_size = 128
raids = [
"data_rmeta_0", "data_rimage_0",
"data_rmeta_1", "data_rimage_1",
"data_rmeta_2", "data_rimage_2"
]
}
}
swap {
segment1 {
start_extent = 0
extent_count = 3
type = "striped"
stripe_count = 1
stripes = [
"pv1", 0
]
}
}
data_rimage_0 {
segment1 {
start_extent = 0
extent_count = 20
type = "striped"
stripe_count = 1
stripes = [
"pv0", 1
]
}
}
data_rimage_1 {
segment1 {
start_extent = 0
extent_count = 20
type = "striped"
stripe_count = 1
stripes = [
"pv1", 4
]
}
}
data_rimage_2 {
segment1 {
start_extent = 0
extent_count = 20
type = "striped"
stripe_count = 1
stripes = [
"pv2", 1
]
}
}
}
}
"""


def members(slots: Sequence[int | None], events: Sequence[int], offsets: Sequence[int]) -> list[Member]:
    """Members of a RAID 5 of so many disks, on images from 0 on."""
    return [Member(image, "md 1.2", "a", "raid5", len(slots), "left-symmetric", 128, slot, offset, event)
            for image, (slot, event, offset) in enumerate(zip(slots, events, offsets))]


class Examined(unittest.TestCase):
    """What is read of `mdadm`."""

    def test_version_1(self) -> None:
        """All that metadata 1.2 tell, of a partition that begins at sector 51200."""
        array = "a5cd91a3:84ba01c0:59343976:51c8c6b6"
        self.assertEqual(metadata.read_examined(MD_1, 4, 51200), Member(4, "md 1.2", array, "raid6", 6, "left-symmetric", 256, 2, 53248, 17))

    def test_version_090(self) -> None:
        """Metadata 0.90 stand behind the data; the slot stands in the line of this disk."""
        array = "a25303fe:2c250d17:8eadf611:84292ac5"
        self.assertEqual(metadata.read_examined(MD_090, 0), Member(0, "md 0.90.00", array, "raid5", 4, "left-asymmetric", 128, 3, 0, 18))

    def test_intel(self) -> None:
        """Those of Intel have the level as a number, and one layout."""
        array = "4161ebd0:b06038fa:2ee89e26:57888768"
        self.assertEqual(metadata.read_examined(INTEL, 1), Member(1, "Intel", array, "raid5", 4, "left-asymmetric", 128, 2, 0, None))

    def test_none(self) -> None:
        """A partition table alone, and nothing, are no array; a spare has no slot."""
        table = "/dev/sda:\n   MBR Magic : aa55\nPartition[0] :   4294967295 sectors at            1 (type ee)\n"
        self.assertIsNone(metadata.read_examined(table, 0))
        self.assertIsNone(metadata.read_examined("", 0))
        told = metadata.read_examined(MD_1.replace("Active device 2", "spare"), 0)
        self.assertIsNone(told.slot if told else 0)

    def test_line(self) -> None:
        """What is said names who says it."""
        told = metadata.read_examined(MD_1, 4)
        assert told
        self.assertEqual(told.line("image 4"), "metadata on image 4 (md 1.2): raid6 of 6 disks, left-symmetric, chunks of 128 KiB, slot 2, "
                                               "data offset 2048 sectors, 17 events")


class Sets(unittest.TestCase):
    """The set that metadata name."""

    def test_order(self) -> None:
        """Slots say the order."""
        self.assertEqual(metadata.word_of(members([2, 0, 1], [9, 9, 9], [2048] * 3), 3), "5:ls:none:128:2048:1,2,0")

    def test_old(self) -> None:
        """A disk that has seen fewer events is in no slot; one event less is how a run ends."""
        told = members([2, 0, 1], [9, 5, 8], [2048] * 3)
        self.assertEqual([it.image for it in metadata.old(told)], [1])
        self.assertEqual(metadata.word_of(told, 3), "5:ls:none:128:2048:-,2,0")

    def test_unlike_offsets(self) -> None:
        """Offsets that differ are named for each image, and not where one is in no slot."""
        told = members([1, 0, 2], [9, 9, 9], [2048, 10240, 2048])
        self.assertEqual(metadata.word_of(told, 3), "5:ls:none:128:2048+10240+2048:1,0,2")
        self.assertIsNone(metadata.word_of(told, 4))

    def test_contradicting(self) -> None:
        """Two images of one slot, and what has no words, are no set."""
        self.assertIsNone(metadata.word_of(members([0, 0, 1], [9, 9, 9], [2048] * 3), 3))
        self.assertIsNone(metadata.word_of([dataclasses.replace(it, level="raid1") for it in members([0, 1], [9, 9], [0, 0])], 2))
        self.assertIsNone(metadata.word_of([], 0))

    def test_a_slot_behind_the_last(self) -> None:
        """Of three disks the slots are 0, 1 and 2."""
        self.assertIsNone(metadata.word_of(members([0, 1, 3], [9, 9, 9], [2048] * 3), 3))

    def test_heads(self) -> None:
        """Levels and layouts of md in the words of a set."""
        rows = {("raid0", ""): "0:plain:none", ("raid4", ""): "5:parity-last:none", ("raid5", "right-asymmetric"): "5:ra:none",
                ("raid6", "left-symmetric"): "6:ls:after-q", ("raid6", "ddf-zero-restart"): "6:ra:by-slot",
                ("raid6", "ddf-N-continue"): "6:n-continue:by-slot",
                ("raid6", "left-symmetric-6"): "6:ls-6:after-q", ("raid10", "near=2"): "near2", ("raid10", "far=2"): None, ("raid1", ""): None}
        self.assertEqual({key: metadata.head_of(Member(0, "", "", *key[:1], 4, key[1])) for key in rows}, rows)

    def test_arrays(self) -> None:
        """Members are told apart by their array, and the newest metadata of an image count."""
        others = [Member(0, "md 1.2", "b", "raid5", 3), Member(0, "md 1.2", "a", "raid5", 2, "la", 8, 1, 0, 3)]
        told = members([0, 1], [9, 9], [0, 0]) + others
        self.assertEqual([[(it.image, it.array, it.events) for it in array] for array in metadata.arrays(told)],
                         [[(0, "a", 9), (1, "a", 9)], [(0, "b", None)]])


class Excerpts(unittest.TestCase):
    """Files that `mdadm` is shown for a partition."""

    def test_start_and_end(self) -> None:
        """An excerpt is as long as the partition and holds its start and end."""
        with tempfile.TemporaryDirectory() as folder:
            name, target = os.path.join(folder, "disk"), os.path.join(folder, "part")
            with open(name, "wb") as file:
                file.write(b"a" * 512 * 8 + b"b" * 512 + bytes(4 << 20) + b"c" * 512 + b"d" * 512)
            metadata.excerpt(name, Place(8, (4 << 20) // 512 + 2, (0,)), target)
            with open(target, "rb") as file:
                data = file.read()
            self.assertEqual((len(data), data[:512], data[512:-512].strip(b"\0"), data[-512:]), ((4 << 20) + 1024, b"b" * 512, b"", b"c" * 512))

    def test_what_cannot_be_read_or_written(self) -> None:
        """A failure outside says of which file it is."""
        with tempfile.TemporaryDirectory() as folder:
            name, target = os.path.join(folder, "disk"), os.path.join(folder, "no", "part")
            with self.assertRaisesRegex(OutsideError, f"image {name} cannot be read: No such file"):
                metadata.excerpt(name, Place(8, 8, (0,)), target)
            with self.assertRaisesRegex(OutsideError, "cannot be read"):
                metadata.examine_lvm({0: 0}, {0: name})
            with open(name, "wb") as file:
                file.write(bytes(8192))
            with self.assertRaisesRegex(OutsideError, f"{target} cannot be written: No such file"):
                metadata.excerpt(name, Place(8, 8, (0,)), target)


class Lvm(unittest.TestCase):
    """What the text of LVM2 tells of LVM RAID."""

    def test_volumes(self) -> None:
        """The RAID 5 with its parts; a plain logical volume is none."""
        found, = metadata.raid_volumes(LVM_TEXT)
        self.assertEqual((found.name, found.kind, found.chunk), ("data", "raid5_ls", 128))
        self.assertEqual(found.parts, (("a" * 32, 2048 + 8192), ("b" * 32, 2048 + 4 * 8192), ("c" * 32, 2048 + 8192)))
        told = list(found.members({"b" * 32: (0, 0), "a" * 32: (1, 64)}))
        self.assertEqual([(it.image, it.slot, it.offset, it.disks) for it in told], [(1, 0, 64 + 10240, 3), (0, 1, 34816, 3)])

    def test_starts(self) -> None:
        """Where parts of volumes begin on the images whose labels are there, of whatever type these are; those of RAID have no stripes."""
        with tempfile.TemporaryDirectory() as folder:
            names = {}
            for image, letter in enumerate("bdx"):
                names[image] = os.path.join(folder, str(image))
                with open(names[image], "wb") as file:
                    file.write(bytes(512 * (1 + 8 * image)) + (b"LABELONE" + bytes(24) + letter.encode() * 32 if letter != "x" else b"").ljust(4096))
                    file.write(LVM_TEXT.encode().replace(b"raid5_ls", b"raid5_zz") + bytes(512))
            self.assertEqual(metadata.lvm_starts({0: 0, 1: 8, 2: 16}, names), {0: (2048, 2048 + 4 * 8192)})
            self.assertEqual(metadata.lvm_starts({0: 1}, names), {0: (2049, 2049 + 4 * 8192)})
        self.assertEqual(metadata.segments_of(""), [])
        self.assertEqual(metadata.segments_of(LVM_TEXT.replace('"pv1", 4', '"pv1", x')), [])
        self.assertEqual(metadata.starts_line("image 1", (8,)), "metadata on image 1 (LVM2): parts of volumes begin at sector 8")
        self.assertEqual(metadata.starts_line("image 1", (8, 16)), "metadata on image 1 (LVM2): parts of volumes begin at sectors 8, 16")

    def test_damaged(self) -> None:
        """A text that is torn tells nothing and ends nothing."""
        for end in range(0, len(LVM_TEXT), 37):
            metadata.raid_volumes(LVM_TEXT[:end])
        self.assertEqual(metadata.raid_volumes(""), [])

    def test_images(self) -> None:
        """Labels say which image is which physical volume; the newest text counts."""
        with tempfile.TemporaryDirectory() as folder:
            names = {}
            for image, letter in enumerate("cab"):
                names[image] = os.path.join(folder, str(image))
                with open(names[image], "wb") as file:
                    file.write(bytes(512) + b"LABELONE" + bytes(24) + letter.encode() * 32 + bytes(448))
                    file.write(bytes(4096) + LVM_TEXT.replace("seqno = 7", "seqno = 6").replace("raid5_ls", "raid5_la").encode() + bytes(512))
                    file.write(LVM_TEXT.encode() + bytes(512))
            told = metadata.examine_lvm({image: 0 for image in names}, names)
            self.assertEqual([(it.image, it.slot, it.layout, it.offset) for it in told],
                             [(1, 0, "left-symmetric", 10240), (2, 1, "left-symmetric", 34816), (0, 2, "left-symmetric", 10240)])
            self.assertEqual(metadata.word_of(told, 3), "5:ls:none:128:10240+10240+34816:1,2,0")


if __name__ == "__main__":
    unittest.main()
