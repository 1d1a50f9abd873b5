"""Physical volumes of LVM2 that images have in one piece, and the logical volumes that lie on them and on that of a volume."""

import dataclasses
import os
import struct

from reraid_try.checks import lvm
from reraid_try.checks.checkers import Checkers
from reraid_try.checks.lvm import Logical, Physical, Piece
from reraid_try.checks.verdicts import Finding, Score, Verdict, covered
from reraid_try.checks.volumes import Region, Room, Volume
from reraid_try.evidence import labels
from reraid_try.evidence.images import Image
from reraid_try.evidence.tables import Partition, Table
from reraid_try.report import table, typed, words
from reraid_try.report.typed import Shown
from reraid_try.units import ALL, MIB, SECTOR
from tests.standin import InFolder, Standin, Told, put
from tests.test_candidates import candidate, whole

OWN, OTHER = "a" * 32, "b" * 32
TEXT = """vg {
extent_size = 8
physical_volumes {
pv0 { id = "aaaaaa-aaaaaaaaaaaaaaaaaaaaaaaaaa" device = "/dev/md0" pe_start = 16 }
pv1 { id = "bbbbbb-bbbbbbbbbbbbbbbbbbbbbbbbbb" device = "/dev/md1" pe_start = 32 }
pv2 { id = "cccccc-cccccccccccccccccccccccccc" device = "/dev/md2" pe_start = 32 }
}
logical_volumes {
data {
segment2 { start_extent = 100 extent_count = 50 type = "striped" stripe_count = 1 stripes = [ "pv1", 3 ] }
segment1 { start_extent = 0 extent_count = 100 type = "striped" stripe_count = 1 stripes = [ "pv0", 2 ] }
}
}
}
"""
FIRST = 16 + 2 * 8


def label(identifier: str, length: int, sector: int = 1) -> bytes:
    """The label of a physical volume of so many bytes, which stands in one of its sectors."""
    return (b"LABELONE" + struct.pack("<Q", sector) + bytes(8) + b"LVM2 001" + identifier.encode() + struct.pack("<Q", length)).ljust(SECTOR, b"\0")


def known(path: str = "d1.img", first: int = 1000) -> Physical:
    """The other physical volume."""
    return Physical(OTHER, 1, path, first, 10 * MIB)


class OfImages(InFolder):
    def image(self, *labels_at: tuple[int, bytes], partitions: tuple[Partition, ...] = (), sectors: int = 9000) -> Image:
        """An image with sectors at these places."""
        data = bytearray(sectors * SECTOR)
        for sector, it in labels_at:
            data[sector * SECTOR:(sector + 1) * SECTOR] = it
        return Image(self.file("d.img", bytes(data)), 1, sectors, table=Table("MBR", bool(partitions), partitions))

    def found(self, image: Image, *wanted: str) -> list[tuple[str, int, int]]:
        """What is found of an image."""
        return [(it.identifier[0], it.first // SECTOR, it.length) for it in labels.physical([image], wanted)]

    def test_where_they_stand(self) -> None:
        partition = Partition(100, 5000, "83")
        for sector, first in ((2049, 2048), (1, 0), (2051, 2050)):
            self.assertEqual(self.found(self.image((sector, label(OTHER, 4 * SECTOR))), OTHER), [("b", first, 4 * SECTOR)])
        image = self.image((2148 + 1, label(OTHER, 2952 * SECTOR)), partitions=(partition,))
        self.assertEqual(self.found(image, OTHER), [("b", 2148, 2952 * SECTOR)])

    def test_those_that_are_none(self) -> None:
        """One of another identifier, one that is longer than what it lies in, as a member of a striped array shows it, one that begins before it."""
        partition = Partition(100, 5000, "83")
        for at, it in ((2149, label(OWN, 9)), (2149, label(OTHER, 2953 * SECTOR)), (2149, label(OTHER, 0)), (101, label(OTHER, 9, 2)),
                       (2149, label(OTHER, 9)[:40]), (2152, label(OTHER, 9))):
            self.assertEqual(self.found(self.image((at, it.ljust(SECTOR, b"\0")), partitions=(partition,)), OTHER), [])
        self.assertEqual(self.found(self.image((1, label(OTHER, 9)))), [])
        short = self.image((2049, label(OTHER, SECTOR)), sectors=2051)
        self.assertEqual(len(self.found(short, OTHER)), 1)
        os.truncate(short.name, 2049 * SECTOR + 71)
        self.assertEqual(self.found(short, OTHER), [])

    def test_the_first_of_copies(self) -> None:
        images = [dataclasses.replace(self.image((1, label(OTHER, 9))), number=number) for number in (3, 5)]
        self.assertEqual([it.image for it in labels.physical(images, [OTHER, OWN])], [3])


class OfText(InFolder):
    def test_others(self) -> None:
        """Those on which logical volumes lie, but for that which is there."""
        self.assertEqual(lvm.others_of(TEXT, OWN), {OTHER: "/dev/md1"})
        self.assertEqual(lvm.others_of(TEXT, OTHER), {OWN: "/dev/md0"})
        for text in ("", "vg {", TEXT.replace("start_extent = 0", "start_extent = x"), TEXT.replace("physical_volumes", "none")):
            self.assertEqual(lvm.others_of(text, OWN), {})

    def test_pieces(self) -> None:
        base, there = 5000 + FIRST * SECTOR, Piece(1000 + (32 + 24) * SECTOR, 400 * SECTOR, "d1.img")
        self.assertEqual(lvm.logical_volumes(TEXT, 5000, OWN, [known()]),
                         [Logical("data", (Piece(base, 800 * SECTOR), there), False, "vg", ("image 1 from sector 1 on",))])
        self.assertEqual(lvm.logical_volumes(TEXT, 5000, OWN), [Logical("data", (Piece(base, 800 * SECTOR), Piece(ALL, 400 * SECTOR)), True, "vg")])
        turned = TEXT.replace('"pv0", 2', '"pvX", 2').replace('"pv1", 3', '"pv0", 2').replace('"pvX", 2', '"pv1", 3')
        self.assertEqual([(it.pieces[0].path, it.pieces[1].path) for it in lvm.logical_volumes(turned, 5000, OWN, [known()])], [("d1.img", "")])
        self.assertEqual(lvm.logical_volumes(turned, 5000, OWN), [])
        elsewhere = TEXT.replace('"pv0", 2', '"pv1", 100')
        self.assertEqual(lvm.logical_volumes(elsewhere, 5000, OWN, [known()]), [])

    def test_said(self) -> None:
        it = lvm.logical_volumes(TEXT, 5000, OWN, [known()])[0]
        self.assertEqual((it.said, it.device), ("logical volume data, in part on image 1 from sector 1 on", "/dev/vg/data"))

    def test_regions(self) -> None:
        region = Region("", (Piece(100, 50), Piece(7, 30, "other")))
        self.assertEqual([region.there(length) for length in (200, 120, 50)], [80, 50, 30])
        self.assertEqual(region.up_to(60), (Piece(100, 50), Piece(7, 10, "other")))
        self.assertEqual(covered(region.pieces, 120), 20)
        self.assertEqual((Verdict([Finding("", "xfs", pieces=region.pieces)]).begins, Verdict([Finding("", "xfs", pieces=region.pieces[1:])]).begins),
                         (100, None))


class Looked(InFolder):
    """A volume with one of two physical volumes, and the file with the other one."""

    def looked(self, *beside: Physical, most: int = MIB) -> tuple[Verdict, list[bytes]]:
        """What is found, and what the checker of the file system reads."""
        data = bytearray(2 * MIB)
        data[SECTOR:2 * SECTOR] = label(OWN, 2 * MIB)
        data[FIRST * SECTOR:FIRST * SECTOR + 16] = b"XFSB" + struct.pack(">IQ", 4096, 150)
        data[(FIRST + 799) * SECTOR:(FIRST + 800) * SECTOR] = b"x" * SECTOR
        seen: list[bytes] = []

        def read(words_of: list[str], _: str) -> object:
            with open(words_of[-1], "rb") as file:
                seen.append(file.read())
            return put("")
        standin = Standin(("pvck", put(TEXT)), ("xfs_repair", read))  # type: ignore[arg-type]
        room = Room(standin, self.folder, mounts=False)
        self.addCleanup(room.close)
        checks = Checkers(standin, room, 5, most, lambda wanted: [it for it in beside if it.identifier in wanted])
        checks.there = {"pvck", "xfs_repair"}
        return checks.look(Volume(self.file("volume", bytes(data)), 2 * MIB), [], 4096, 8192), seen

    def test_put_together(self) -> None:
        other = self.file("d1.img", bytes(1000 + (32 + 24) * SECTOR) + b"y" * (400 * SECTOR))
        verdict, seen = self.looked(known(other))
        self.assertEqual([it.text() for it in verdict.findings],
                         ["LVM2_member: pvck reports no errors; its volume group is also on image 1 from sector 1 on",
                          "logical volume data, in part on image 1 from sector 1 on: xfs: xfs_repair reports no errors"])
        self.assertEqual((len(seen[0]), seen[0][799 * SECTOR:801 * SECTOR]), (1200 * SECTOR, b"x" * SECTOR + b"y" * SECTOR))
        self.assertEqual((verdict.findings[0].own, verdict.findings[0].beside, verdict.findings[0].apart), (OWN, (known(other),), ()))
        found = typed.typed_of(typed.mounts(verdict, Shown("candidate0", "candidate0/volume", 2 * MIB), ["d0.img", "d 1.img"]))
        self.assertEqual(found.lines, ("losetup -r -f --show candidate0/volume", f"losetup -r -f --show -o 1000 --sizelimit {10 * MIB} 'd 1.img'",
                                       "vgchange -ay", "mount -o ro,norecovery /dev/vg/data /mnt"))
        loops = ["$(losetup -n -O NAME -j candidate0/volume -o 0)", "$(losetup -n -O NAME -j 'd 1.img' -o 1000)"]
        self.assertEqual(found.ends, ("umount /mnt", f"vgchange -an $(pvs --noheadings -o vg_name {loops[0]})", f"losetup -d {loops[1]}",
                                      f"losetup -d {loops[0]}"))
        verdict, seen = self.looked(known(other), most=1199 * SECTOR)
        self.assertEqual((verdict.findings[1].said, seen), ("not enough space to check it", []))

    def test_lines_to_type(self) -> None:
        """A logical volume in one piece is mounted by its place, unless another one needs its group: then all are by their devices."""
        one = Finding("", "ext4", True, pieces=(Piece(MIB, MIB),), device="/dev/vg/one")
        two = Finding("", "xfs", True, pieces=(Piece(MIB, MIB), Piece(0, MIB, "x")), device="/dev/vg/two")
        pv = Finding("", "LVM2_member", pieces=(Piece(0, 4 * MIB),))

        def lines(*findings: Finding) -> list[str]:
            return [line.text for line in typed.mounts(Verdict(list(findings)), Shown("c", "v", 4 * MIB))]
        self.assertEqual(lines(pv, one), [f"mount -o ro,noload,loop,offset={MIB} v /mnt"])
        self.assertEqual(lines(pv, one, two), ["losetup -r -f --show v", "vgchange -ay", "mkdir -p c.0 && mount -o ro,noload /dev/vg/one c.0",
                                               "mkdir -p c.1 && mount -o ro,norecovery /dev/vg/two c.1"])
        other = Finding("", "ext4", True, pieces=(Piece(8 * MIB, MIB),))
        self.assertEqual(lines(pv, other, two)[:3],
                         ["losetup -r -f --show v", "vgchange -ay", f"mkdir -p c.0 && mount -o ro,noload,loop,offset={8 * MIB} v c.0"])

    def test_where_the_other_one_is_not_there(self) -> None:
        """Which is told, also where it is in the volume of another class."""
        verdict, seen = self.looked()
        self.assertEqual([it.text() for it in verdict.findings],
                         [f"LVM2_member: pvck reports no errors; its volume group is also on another physical volume, {OTHER} /dev/md1; nothing "
                          f"recognized in it"])
        self.assertEqual((verdict.score, verdict.findings[0].apart, seen), (Score.NOTHING, (OTHER,), []))
        here, other = whole(), whole()
        here.findings.insert(0, Finding("", "LVM2_member", own=OWN, apart=(OTHER,)))
        other.findings.insert(0, Finding("", "LVM2_member", own=OTHER))
        order = [candidate(verdict=here), candidate("5:la:none:128:2048:0,1,2", other)]
        self.assertEqual(words.apart_lines(order[0], order),
                         [f"  the physical volume {OTHER} of its volume group is in candidate 1: mount that too, and attach it with losetup before "
                          f"vgchange"])
        self.assertEqual((words.apart_lines(order[0], order[:1]), words.apart_lines(order[1], order)), ([], []))
        report = Told()
        table.show(report, order, [Image(name, number, 8000) for number, name in enumerate("abc")])
        self.assertIn("is in candidate 1: mount that too", report.text)
