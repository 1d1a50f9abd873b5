"""What is typed for a candidate: lines that work when all are pasted at once, and those that end what they begin."""

import dataclasses
import unittest

from reraid_try import opening
from reraid_try.calls.program import Copied
from reraid_try.calls.sets import Copying, read_word
from reraid_try.checks.lvm import Piece
from reraid_try.checks.verdicts import Finding, Verdict
from reraid_try.containers import Container
from reraid_try.evidence.images import Image
from reraid_try.evidence.maps import Map
from reraid_try.opening import Opened
from reraid_try.report import typed
from reraid_try.report.typed import Shown, Typed
from reraid_try.units import SECTOR
from tests.test_candidates import SET, candidate, whole


class Lines(unittest.TestCase):
    images = [Image(f"/x/{name}.img", k, 8000) for k, name in enumerate("abcd")]

    def test_mounts(self) -> None:
        def lines(*findings: Finding) -> list[str]:
            return [line.text for line in typed.mounts(Verdict(list(findings)), Shown("candidate0", "candidate0/volume", 1000))]
        ext, xfs = Finding("", "ext4", True, "", (Piece(0, 500),)), Finding("", "xfs", True, "", (Piece(500, 500),))
        self.assertEqual(lines(ext), ["mount -o ro,noload,loop candidate0/volume /mnt"])
        self.assertEqual(lines(ext, xfs), ["mkdir -p candidate0.0 && mount -o ro,noload,loop,sizelimit=500 candidate0/volume candidate0.0",
                                           "mkdir -p candidate0.1 && mount -o ro,norecovery,loop,offset=500 candidate0/volume candidate0.1"])
        self.assertEqual(lines(Finding("", "LVM2_member", None, "", (Piece(512, 488),))),
                         ["losetup -r -f --show -o 512 candidate0/volume", "vgchange -ay"])
        thin = [Finding("", "LVM2_member", None, "", (Piece(0, 1000),), thin=tuple(f"/dev/vg/lv{k}" for k in range(count))) for count in (1, 2)]
        begun = ["losetup -r -f --show candidate0/volume", "vgchange -ay"]
        self.assertEqual(lines(thin[0]), [*begun, "mount -o ro /dev/vg/lv0 /mnt"])
        self.assertEqual(lines(thin[1]), [*begun, "mkdir -p candidate0.0 && mount -o ro /dev/vg/lv0 candidate0.0",
                                          "mkdir -p candidate0.1 && mount -o ro /dev/vg/lv1 candidate0.1"])
        self.assertEqual(lines(Finding("", "crypto_LUKS", None, "", (Piece(0, 9),))),
                         ["cryptsetup open --readonly candidate0/volume candidate0 && mount -o ro /dev/mapper/candidate0 /mnt"])
        self.assertEqual(lines(Finding("", "BitLocker", None, "", (Piece(512, 9),))),
                         ["cryptsetup open --readonly --type bitlk $(losetup -r -f --show -o 512 candidate0/volume) candidate0 && "
                          "mount -o ro /dev/mapper/candidate0 /mnt"])
        self.assertEqual(lines(Finding("", "swap", None, "", (Piece(0, 9),)), Finding("", "xfs", True, "", (Piece(0, 9), Piece(20, 9)))), [])

    def test_commands_of_a_volume_that_is_cut(self) -> None:
        it = candidate(verdict=Verdict([Finding("", "xfs", True, "", (Piece(0, 900),), lacks=100)]))
        length = read_word(SET).sectors(8000) * SECTOR + 100
        self.assertEqual(typed.commands(4, it, [Image("a b", 0, 8000), Image("c", 1, 8000)]),
                         Typed((f"reraid-mount {SET} candidate4 'a b' c", "cp --sparse=always candidate4/volume candidate4.img",
                                f"truncate -s {length} candidate4.img", "mount -o ro,norecovery,loop candidate4.img /mnt"),
                               ("umount /mnt", "rm candidate4.img", "umount candidate4")))

    def test_what_ends_it(self) -> None:
        """The last line is undone first, and a loop device is found by its file."""
        def ends(*findings: Finding) -> tuple[str, ...]:
            return typed.typed_of(typed.mounts(Verdict(list(findings)), Shown("candidate0", "candidate0/volume", 1000))).ends
        loop = "$(losetup -n -O NAME -j candidate0/volume -o 512)"
        self.assertEqual(ends(Finding("", "ext4", True, "", (Piece(0, 500),)), Finding("", "xfs", True, "", (Piece(500, 500),))),
                         ("umount candidate0.1", "umount candidate0.0"))
        self.assertEqual(ends(Finding("", "LVM2_member", None, "", (Piece(512, 488),))),
                         (f"vgchange -an $(pvs --noheadings -o vg_name {loop})", f"losetup -d {loop}"))
        self.assertEqual(ends(Finding("", "BitLocker", None, "", (Piece(512, 9),))),
                         ("umount /mnt", "cryptsetup close candidate0", f"losetup -d {loop}"))

    def test_containers_are_opened_first(self) -> None:
        """The next line finds what is open, and at the end it is closed behind all else; the map of a container is typed."""
        lines, name = opening.by_hand(Container("qcow2", ("d.qcow2",)), 3)
        held = dataclasses.replace(self.images[0], opened=Opened(Container("qcow2", ("d.qcow2",)), "/run/d", lines, name),
                                   map=Map("d.map", "", ((0, 512, "-"), (512, 512, "+"))))
        found = typed.commands(0, candidate(verdict=whole()), [held, *self.images[1:]])
        self.assertEqual((found.lines[:3], found.lines[3].split()[0]), (lines, "printf"))
        self.assertTrue(lines[1].endswith(" &") and lines[2] == "timeout 60 sh -c 'until [ -e opened/3/disk ]; do sleep 0.1; done'")
        self.assertEqual(found.lines[4], f"reraid-mount --maps candidate0.maps {SET} candidate0 opened/3/disk /x/b.img /x/c.img /x/d.img")
        self.assertEqual(found.ends, ("umount /mnt", "umount candidate0", "rm candidate0.maps", "umount -l opened/3"))

    def test_commands_of_far_copies(self) -> None:
        """With the end by which they were found, where that is not the images'."""
        it = candidate("far2:8:0:0,1", verdict=whole())
        self.assertEqual(typed.commands(4, it, self.images[:2]).lines[0], "reraid-mount far2:8:0:0,1 candidate4 /x/a.img /x/b.img")
        it.step = dataclasses.replace(it.step, copied=Copied((Copying("far", 2),), 2, end=80))
        self.assertEqual(typed.commands(4, it, self.images[:2]).lines[0], "reraid-mount --end 80 far2:8:0:0,1 candidate4 /x/a.img /x/b.img")


if __name__ == "__main__":
    unittest.main()
