"""Whether a volume begins with something known, as one of images in a wrong order mostly does not."""

import contextlib
import io

from reraid_mount import start
from reraid_try.units import SECTOR
from tests.standin import InFolder
from tests.test_images import ext_super, gpt, mbr


class Starts(InFolder):
    def said(self, data: bytes) -> str:
        """What is said of a volume that begins so."""
        with contextlib.redirect_stdout(io.StringIO()) as out:
            self.assertEqual(start.main([self.file("volume", data.ljust(1 << 20, b"\0"))]), 0)
        return out.getvalue()

    def test_known(self) -> None:
        """A file system, a table, what is encrypted: nothing is said."""
        for data in (bytes(2 * SECTOR) + ext_super(), mbr((0, 0x83, 64, 100)), gpt([(40, 99)], 2047), b"XFSB" + bytes(500), b"LUKS\xba\xbe",
                     bytes(SECTOR) + b"LABELONE"):
            self.assertEqual(self.said(data), "")

    def test_unknown(self) -> None:
        """Other bytes, zeros, and a file system that begins later."""
        for data in (b"\x5a\xa5" * 512, b"", bytes(1 << 16) + b"XFSB"):
            self.assertIn("/volume begins with no known file system, partition table or encrypted volume.", self.said(data))

    def test_usage(self) -> None:
        with self.assertRaises(SystemExit) as ended:
            start.main([])
        self.assertEqual(ended.exception.code, start.__doc__)
