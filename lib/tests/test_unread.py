"""Tests of files of which some sectors cannot be read."""

import errno
import os
import unittest
from collections.abc import Callable
from unittest import mock

from reraid_try.evidence import unread
from reraid_try.units import SECTOR

from .standin import InFolder

PREAD = os.pread


def fails_at(*bad: int, number: int = errno.EIO) -> Callable[[int, int, int], bytes]:
    """A `pread` that fails where it meets one of these sectors."""
    def pread(file: int, count: int, place: int) -> bytes:
        if any(place < sector * SECTOR + SECTOR and sector * SECTOR < place + count for sector in bad):
            raise OSError(number, "no")
        return PREAD(file, count, place)
    return pread


class Unread(InFolder):
    def setUp(self) -> None:
        super().setUp()
        self.data = bytes(number % 251 + 1 for number in range(20 * SECTOR + 100))
        self.name = self.file("volume", self.data)

    def without(self, *bad: int) -> bytes:
        """The bytes with zeros for these sectors."""
        data = bytearray(self.data)
        for sector in bad:
            part = slice(sector * SECTOR, min(len(data), sector * SECTOR + SECTOR))
            data[part] = bytes(part.stop - part.start)
        return bytes(data)

    def test_all_there(self) -> None:
        with unread.opened(self.name) as file:
            self.assertEqual(file.read(), self.data)
            self.assertEqual(file.seek(1000), 1000)
            self.assertEqual((file.read(10), file.tell()), (self.data[1000:1010], 1010))
            self.assertEqual(file.seek(0, os.SEEK_END), len(self.data))
        raw = unread.Unread(self.name)
        self.addCleanup(raw.close)
        raw.seek(20 * SECTOR)
        self.assertEqual((raw.readinto(bytearray(SECTOR)), raw.tell()), (100, len(self.data)))

    def test_zeros_for_what_is_lost(self) -> None:
        with mock.patch("os.pread", fails_at(0, 7, 8, 20)), unread.opened(self.name) as file:
            self.assertEqual(file.read(), self.without(0, 7, 8, 20))
            file.seek(6 * SECTOR + 5)
            self.assertEqual(file.read(3 * SECTOR), self.without(7, 8)[6 * SECTOR + 5:9 * SECTOR + 5])

    def test_other_faults(self) -> None:
        with mock.patch("os.pread", fails_at(3, number=errno.ENOMEM)), unread.opened(self.name) as file, self.assertRaises(OSError):
            file.read()


if __name__ == "__main__":
    unittest.main()
