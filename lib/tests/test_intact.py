"""Containers that are cut off, or of which files are missing."""

import pathlib
import struct
import tempfile
import unittest

from reraid_try import intact
from reraid_try.containers import EWF, SPLIT, Container


class Faults(unittest.TestCase):
    """What is missing of a container."""

    def setUp(self) -> None:
        folder = tempfile.TemporaryDirectory()
        self.addCleanup(folder.cleanup)
        self.folder = pathlib.Path(folder.name)

    def fault(self, kind: str, *files: tuple[str, bytes]) -> str:
        """What is said of a container of these files, with their names alone; the last of them that are named `-` are no parts of it."""
        for name, data in files:
            (self.folder / name).write_bytes(data)
        parts = tuple(str(self.folder / name) for name, _ in files if "-" not in name)
        return (intact.fault(Container(kind, parts)) or "").replace(f"{self.folder}/", "")

    def test_ewf(self) -> None:
        """The last file ends with a section `done`; `next` says that one more follows."""
        done, following = (bytes(900) + kind.ljust(76, b"\0") for kind in (b"done", b"next"))
        self.assertEqual(self.fault(EWF, ("a.E01", done)), "")
        self.assertEqual(self.fault(EWF, ("a.E01", following), ("a.E02", done)), "")
        self.assertEqual(self.fault(EWF, ("a.E01", following)), "a.E01 says that a further file follows, and there is none")
        for cut in (done[:-1], bytes(20), b""):
            self.assertEqual(self.fault(EWF, ("a.E01", cut)), "a.E01 is cut off, or not closed")

    def test_vdi(self) -> None:
        """As many blocks as its head says are there, each with what stands before it."""
        head = bytearray(1024)
        struct.pack_into("<I", head, 344, 1024)
        struct.pack_into("<IIII", head, 376, 2048, 512, 9, 3)
        whole = bytes(head) + bytes(3 * 2560)
        self.assertEqual(self.fault("VDI", ("a.vdi", whole)), "")
        self.assertEqual(self.fault("VDI", ("a.vdi", whole[:-1])), "a.vdi is cut off")
        self.assertEqual(self.fault("VDI", ("a.vdi", whole[:300])), "a.vdi is cut off")

    def test_flat(self) -> None:
        """A flat extent has its sectors behind its offset."""
        text = b'# Disk DescriptorFile\nRW 4 FLAT "a-flat" 2\nRW 1 ZERO\n'
        path = self.folder / "a.vmdk"
        path.write_bytes(text)
        self.assertEqual(intact.flat_fault(str(path), text), f"{self.folder}/a-flat is not there")
        for length, wrong in ((3072, None), (3071, f"{self.folder}/a-flat is shorter than {path} says")):
            (self.folder / "a-flat").write_bytes(bytes(length))
            self.assertEqual(intact.flat_fault(str(path), text), wrong)

    def test_others(self) -> None:
        """Of pieces of a disk nothing is known."""
        self.assertEqual(self.fault(SPLIT, ("a.001", bytes(512)), ("a.002", bytes(3))), "")


if __name__ == "__main__":
    unittest.main()
