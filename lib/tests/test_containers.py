"""What images in containers are, by their bytes and their names."""

import os
import pathlib
import struct
import tempfile
import unittest
from unittest import mock

from reraid_try import containers, opening
from reraid_try.containers import EWF, SPLIT, Container
from reraid_try.errors import OutsideError

E01 = b"EVF\x09\x0d\x0a\xff\x00\x01"


def footer() -> bytes:
    """The footer of a VHD."""
    sector = bytearray(512)
    sector[:8], sector[60:64] = b"conectix", struct.pack(">I", 2)
    sector[64:68] = struct.pack(">I", ~sum(sector) & 0xFFFFFFFF)
    return bytes(sector)


class Kinds(unittest.TestCase):
    """The kind of a file by its bytes."""

    def test_signatures(self) -> None:
        zeros = bytes(512)
        for kind, name, head, tail in [
                (EWF, "a", E01 + b"\1\0", zeros), ("qcow2", "a", b"QFI\xfb\0\0\0\3", zeros), ("qcow", "a", b"QFI\xfb\0\0\0\1", zeros),
                ("VMDK", "a", b"KDMV\1\0\0\0", zeros), ("VMDK", "a", b"# Disk DescriptorFile\n", zeros), ("VHDX", "a", b"vhdxfile", zeros),
                ("VDI", "a", b"<<< any text".ljust(64) + b"\x7f\x10\xda\xbe", zeros), ("VHD", "a", zeros, footer()),
                ("VHD", "a", footer(), zeros), ("gzip", "a.gz", b"\x1f\x8b\x08", zeros), ("Ex01", "a", b"EVF2\x0d\x0a\x81\x00", zeros)]:
            self.assertEqual(containers.kind_of(name, head, tail), kind)

    def test_raw(self) -> None:
        wrong = footer()[:200] + b"\1" + footer()[201:]
        for name, head, tail in [("a", b"\x1f\x8b\x08", bytes(512)), ("a.gz", bytes(512), bytes(512)), ("a", b"QFI\xfb\0\0\0\7", bytes(512)),
                                 ("a", bytes(512), wrong), ("a", b"", b""), ("a", b"conectix", b"conectix")]:
            self.assertIsNone(containers.kind_of(name, head, tail))


class Files(unittest.TestCase):
    """What files of a folder are together."""

    def setUp(self) -> None:
        folder = tempfile.TemporaryDirectory()
        self.addCleanup(folder.cleanup)
        self.folder = pathlib.Path(folder.name)

    def make(self, **files: bytes) -> None:
        """Makes files; in their names `_` stands for a dot."""
        for name, data in files.items():
            (self.folder / name.replace("_", ".")).write_bytes(data)

    def known(self, *names: str, raw: bool = False) -> list[Container | str]:
        """What these are, with the names of files alone."""
        found = containers.known([str(self.folder / name) for name in names], raw).images
        return [Container(it.kind, tuple(map(os.path.basename, it.parts))) if isinstance(it, Container) else os.path.basename(it) for it in found]

    def test_raw_images(self) -> None:
        self.make(a_img=bytes(1024), b_img=bytes(1024))
        self.assertEqual(self.known("a.img", "b.img"), ["a.img", "b.img"])

    def test_split(self) -> None:
        self.make(a_001=bytes(1024), a_002=bytes(512), b_001=bytes(1024), b_002=bytes(512), c_001=bytes(512))
        both = [Container(SPLIT, ("a.001", "a.002")), Container(SPLIT, ("b.001", "b.002"))]
        self.assertEqual(self.known("a.001", "b.001", "c.001"), [*both, "c.001"])
        self.assertEqual(self.known("a.001", "a.002", "b.001", "b.002"), both)
        self.assertEqual(self.known("a.001", "b.001", raw=True), ["a.001", "b.001"])

    def test_numbered_disks(self) -> None:
        self.make(a_000=bytes(1024), a_001=bytes(1024), a_002=bytes(1024), b_img=bytes(1024))
        self.assertEqual(self.known("a.000", "a.001", "a.002"), ["a.000", "a.001", "a.002"])
        self.assertEqual(self.known("a.001", "a.002", "b.img"), ["a.001", "a.002", "b.img"])
        self.assertEqual(self.known("a.000", "b.img"), [Container(SPLIT, ("a.000", "a.001", "a.002")), "b.img"])

    def test_a_missing_piece(self) -> None:
        self.make(a_001=bytes(1024), a_002=bytes(1024), a_004=bytes(512), b_img=bytes(1024))
        with self.assertRaisesRegex(OutsideError, r"a\.003 is missing"):
            self.known("a.001", "b.img")

    def test_segments(self) -> None:
        self.make(a_E01=E01 + b"\1\0", a_E02=E01 + b"\2\0", b_E01=E01 + b"\1\0")
        both = [Container(EWF, ("a.E01", "a.E02")), Container(EWF, ("b.E01",))]
        self.assertEqual(self.known("a.E01", "b.E01"), both)
        self.assertEqual(self.known("a.E01", "a.E02", "b.E01"), both)
        with self.assertRaisesRegex(OutsideError, "part 2 of an E01"):
            self.known("a.E02", "b.E01")

    def test_extents(self) -> None:
        text = b'# Disk DescriptorFile\nRW 16384 FLAT "a-flat.vmdk" 0\n'
        self.make(**{"a_vmdk": text, "a-flat_vmdk": bytes(1024)})
        self.assertEqual(self.known("a-flat.vmdk", "a.vmdk"), [Container("VMDK", ("a.vmdk",))])

    def test_extents_that_lie_nowhere(self) -> None:
        """A sparse VMDK whose text would begin behind all is still one; its text is not looked for."""
        head = b"KDMV" + bytes(24) + ((1 << 64) - 1).to_bytes(8, "little") + (1 << 40).to_bytes(8, "little")
        self.make(a_vmdk=head)
        self.assertEqual(self.known("a.vmdk"), [Container("VMDK", ("a.vmdk",))])

    def test_not_opened(self) -> None:
        self.make(a_L01=b"LVF\x09\x0d\x0a\xff\x00", b_gz=b"\x1f\x8b\x08")
        with self.assertRaisesRegex(OutsideError, "has files and no disk"):
            self.known("a.L01")
        with self.assertRaisesRegex(OutsideError, "unpack it first"):
            self.known("b.gz")

    def test_a_name_alone(self) -> None:
        self.make(a_qcow2=bytes(1024))
        said = containers.known([str(self.folder / "a.qcow2")])
        self.assertEqual(said.images, (str(self.folder / "a.qcow2"),))
        self.assertIn("its contents are not qcow2", said.lines[0])


class Lines(unittest.TestCase):
    """What is typed to open a container."""

    def test_by_hand(self) -> None:
        self.assertEqual(opening.by_hand(Container(EWF, ("a b.E01",)), 0), (("mkdir -p opened/0", "ewfmount 'a b.E01' opened/0"), "opened/0/ewf1"))
        self.assertEqual(opening.by_hand(Container("qcow2", ("a.qcow2",)), 1), (
            ("mkdir -p opened/1", "nbdfuse -r opened/1/disk [ qemu-nbd -r -f qcow2 a.qcow2 ] &",
             "timeout 60 sh -c 'until [ -e opened/1/disk ]; do sleep 0.1; done'"), "opened/1/disk"))
        self.assertEqual(opening.by_hand(Container(SPLIT, ("a.001", "a.002")), 2)[0][1],
                         "nbdfuse -r opened/2/disk --command nbdkit -s -r split file=a.001 file=a.002 &")

    def test_names_that_are_like_options_or_protocols(self) -> None:
        for name, typed in [("-a.qcow2", "./-a.qcow2"), ("nbd:a", "./nbd:a"), ("a/b:c", "a/b:c"), ("a.qcow2", "a.qcow2"), ("./-a", "./-a")]:
            self.assertEqual(opening.typed(name), typed)
            self.assertEqual(opening.by_hand(Container("qcow2", (name,)), 0)[0][1], f"nbdfuse -r opened/0/disk [ qemu-nbd -r -f qcow2 {typed} ] &")

    def test_no_tool(self) -> None:
        path = os.environ["PATH"]
        self.addCleanup(os.environ.__setitem__, "PATH", path)
        os.environ["PATH"] = ""
        with tempfile.TemporaryDirectory() as base, self.assertRaisesRegex(OutsideError, r"ewfmount and fusermount3 .* apt install ewf-tools fuse3"):
            opening.Opener(base).open(Container(EWF, ("a.E01",)))


class Opens(unittest.TestCase):
    """Containers that are opened, by scripts that stand for the tools."""

    def setUp(self) -> None:
        folder = tempfile.TemporaryDirectory()
        self.addCleanup(folder.cleanup)
        self.folder = folder.name
        self.tool("fusermount3", "rm -f \"$3\"/*")
        self.tool("qemu-nbd", "exit 1")
        self.enterContext(mock.patch.dict(os.environ, PATH=f"{self.folder}:{os.environ['PATH']}"))
        self.enterContext(mock.patch.object(opening, "fault", lambda it: None))
        self.opener = opening.Opener(self.folder)
        self.addCleanup(self.opener.close)

    def tool(self, name: str, lines: str) -> None:
        """Makes a script for a tool."""
        path = os.path.join(self.folder, name)
        with open(path, "w", encoding="ascii") as file:
            file.write(f"#!/bin/sh\n{lines}\n")
        os.chmod(path, 0o755)

    def test_open_and_closed(self) -> None:
        self.tool("nbdfuse", "head -c 512 /dev/zero > \"$2.new\"; mv \"$2.new\" \"$2\"; while [ -e \"$2\" ]; do sleep 0.05; done")
        self.tool("ewfmount", "head -c 512 /dev/zero > \"$2\"/new; mv \"$2\"/new \"$2\"/ewf1")
        names, opened = self.opener.all([Container("qcow2", ("a.qcow2",)), "b.img", Container(EWF, ("c.E01",))])
        self.assertEqual(names, (f"{self.folder}/opened0/disk", "b.img", f"{self.folder}/opened1/ewf1"))
        self.assertEqual([(it.name, it.typed) for it in opened], [("a.qcow2", "opened/0/disk"), ("c.E01", "opened/2/ewf1")])
        servers = [it.server for it in self.opener.mounts]
        self.assertTrue(os.path.exists(names[0]) and os.path.exists(names[2]))
        self.opener.close()
        self.assertFalse([name for name in os.listdir(self.folder) if name in ("opened0", "opened1")])
        self.assertEqual([it.returncode for it in servers], [0, 0])

    def test_what_does_not_open(self) -> None:
        self.tool("nbdfuse", "echo not a disk >&2; exit 3")
        with self.assertRaisesRegex(OutsideError, "^a.qcow2: qcow2: nbdfuse does not open it: not a disk$"):
            self.opener.open(Container("qcow2", ("a.qcow2",)))
        self.tool("ewfmount", "exit 0")
        with self.assertRaisesRegex(OutsideError, "ewfmount does not open it: it prints no reason"):
            with mock.patch.object(opening, "MAX_SECONDS", 0.3):
                self.opener.open(Container(EWF, ("c.E01",)))

    def test_what_is_not_whole(self) -> None:
        """It is not opened, and what shows less than a sector is no disk."""
        self.tool("ewfmount", "head -c 511 /dev/zero > \"$2\"/ewf1")
        with mock.patch.object(opening, "fault", lambda it: "it is cut"):
            with self.assertRaisesRegex(OutsideError, "^c.E01: E01 is incomplete: it is cut"):
                self.opener.open(Container(EWF, ("c.E01",)))
        self.assertEqual(self.opener.mounts, [])
        with self.assertRaisesRegex(OutsideError, "it shows a disk without a sector"):
            self.opener.open(Container(EWF, ("c.E01",)))


if __name__ == "__main__":
    unittest.main()
