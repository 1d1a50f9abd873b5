"""Rows in which patterns alone are tied tell nothing of an array."""

import contextlib
import os
import random
import tempfile
import unittest

from reraid_try.evidence import patterns
from reraid_try.evidence.relations import Relations, Rows, Tie
from reraid_try.units import SECTOR

NONE: frozenset[int] = frozenset()
ONES, HASHES, RECORD = b"\1\0" * 256, b"#" * SECTOR, bytes(range(32)) * 16
RANDOM = random.Random(3).randbytes(SECTOR)
# Images 0 and 1 hold the same; image 3 is the sum of the others.
SAME, WHOLE = Tie(1, ((0, 1),)), Tie(3, ((0, 1), (1, 1), (2, 1)))


def told(rows: list[Rows], sectors: dict[tuple[int, int], bytes], step: int = 1, images: int = 4) -> list[tuple[int, int]]:
    """The first and last of the rows that are left of a relation whose images hold random bytes if nothing else is said."""
    found = patterns.without(Relations(step, tuple(rows)), lambda image, row: sectors.get((image, row), RANDOM), images)
    return [(it.first, it.last) for it in found.rows]


class Without(unittest.TestCase):
    # Enough rows without a tie, so that the others need not count.
    LOOSE = Rows(1000, 1000 + 10 * patterns.MIN_ROWS, NONE, ())

    def test_patterns(self) -> None:
        """What repeats, and counts in steps, is a pattern; random bytes and a part of a sector are none."""
        count = b"".join(number.to_bytes(4, "little") for number in range(128))
        self.assertEqual([patterns.is_pattern(it) for it in (ONES, HASHES, RECORD, count, bytes(SECTOR), RANDOM, ONES[:100], b"")],
                         [True] * 5 + [False] * 3)

    def test_row_is_left_out(self) -> None:
        """A row goes if two images that hold the same hold a pattern there; a row of such images with other contents stays."""
        rows = [Rows(5, 5, NONE, (SAME,)), Rows(6, 6, NONE, (SAME,)), self.LOOSE]
        sectors = {(image, 5): ONES for image in (0, 1)}
        self.assertEqual(told(rows, sectors), [(6, 6), (self.LOOSE.first, self.LOOSE.last)])

    def test_parity_over_some_patterns(self) -> None:
        """A row stays if a pattern is but one of what is tied."""
        self.assertEqual(told([Rows(5, 5, NONE, (WHOLE,)), self.LOOSE], {(image, 5): RECORD for image in (0, 1)})[0], (5, 5))

    def test_runs_are_parted(self) -> None:
        """Of a run of rows the others are left, at the same step."""
        sectors = {(image, row): HASHES for image in (0, 1) for row in (20, 40, 50)}
        self.assertEqual(told([Rows(10, 70, NONE, (SAME,)), self.LOOSE], sectors, 10, 4)[:3], [(10, 10), (30, 30), (60, 70)])

    def test_hardly_anything_else(self) -> None:
        """If hardly anything but patterns is there, all rows count: parity is then all that tells."""
        rows = [Rows(0, 500, NONE, (SAME,)), Rows(501, 900, frozenset({0, 1, 2}), ())]
        sectors = {(image, row): ONES for image in (0, 1) for row in range(501)}
        self.assertEqual(told(rows, sectors), [(0, 500), (501, 900)])


class Repeats(unittest.TestCase):
    def test_a_sector(self) -> None:
        """A short pattern over and over repeats, and so does one byte, but not zeros, nor what counts, nor a text before zeros."""
        count = b"".join(number.to_bytes(4, "little") for number in range(128))
        sectors = HASHES, ONES, RECORD, bytes(SECTOR), count, RANDOM, b"BAD SECTOR".ljust(SECTOR, b"\0"), b""
        self.assertEqual([patterns.repeats(it) for it in sectors], [True] * 3 + [False] * 5)


class Held(unittest.TestCase):
    def test_sectors(self) -> None:
        """A sector is read behind the offset of its image; of what cannot be read nothing is."""
        with tempfile.TemporaryDirectory() as folder:
            name = os.path.join(folder, "a")
            with open(name, "wb") as file:
                file.write(ONES + HASHES + RECORD)
            with contextlib.closing(patterns.Sectors({4: name, 7: os.path.join(folder, "none")}, (1, 0))) as sectors:
                self.assertEqual([sectors.held(4, row) for row in (0, 1, 2)], [HASHES, RECORD, b""])
                self.assertEqual(sectors.held(7, 0), b"")

    def test_rows_that_repeat(self) -> None:
        """Of a row only the images that are asked of count."""
        with tempfile.TemporaryDirectory() as folder:
            names = {number: os.path.join(folder, str(number)) for number in (4, 7)}
            for number, data in ((4, RANDOM + HASHES), (7, RANDOM + RANDOM)):
                with open(names[number], "wb") as file:
                    file.write(data)
            with contextlib.closing(patterns.Sectors(names)) as sectors:
                self.assertEqual([sectors.repeat(row, images) for row, images in ((0, (4, 7)), (1, (7, 4)), (1, (7,)), (2, (4,)))],
                                 [False, True, False, False])
