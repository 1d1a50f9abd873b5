"""Tables of rows by elimination, beside those of `rows`, which does it another way, and by hand."""

import os
import random
import tempfile
import unittest

from reraid_try.errors import OutsideError
from reraid_try.evidence import dependence
from reraid_try.evidence.relations import Rows, Tie

from . import rows


def as_told(row: rows.Row) -> tuple[frozenset[int], tuple[Tie, ...]]:
    """The table that `rows` makes."""
    zero, ties = rows.table(row)
    return frozenset(zero), tuple(Tie(image, tuple(sorted(weights.items()))) for image, weights in sorted(ties.items()))


class Tables(unittest.TestCase):
    """The table of a row."""

    def test_by_hand(self) -> None:
        """P of three data is their sum; Q that with 1, 2 and 4; an image that is 3 times another one; equal ones; zeros."""
        one, two, three = b"\x01\0\0\0", b"\0\x01\0\0", b"\0\0\x80\0"
        p, q = b"\x01\x01\x80\0", b"\x01\x02\x3a\0"
        self.assertEqual(dependence.table([one, two, three, p, q]),
                         (frozenset(), (Tie(3, ((0, 1), (1, 1), (2, 1))), Tie(4, ((0, 1), (1, 2), (2, 4))))))
        one, three = b"\0\0\x80\0", b"\0\0\x9d\0"
        self.assertEqual(dependence.table([one, bytes(4), three, one]), (frozenset({1}), (Tie(2, ((0, 3),)), Tie(3, ((0, 1),)))))

    def test_beside_another(self) -> None:
        """Rows of arrays with lost, foreign and empty images, and of few values."""
        rnd = random.Random(5)
        made = rows.striped(rnd, 6, 6, 60, sparse=0.4)
        made += [[*row, row[0], rows.sector(rnd)] for row in rows.striped(rnd, 4, 5, 60, sparse=0.3)]
        made += rows.without(rows.striped(rnd, 7, 6, 60), 3)
        made += [[bytes(rnd.choice((0, 0, 1, 7)) for _ in range(6)) for _ in range(8)] for _ in range(200)]
        for row in made:
            self.assertEqual(dependence.table(row), as_told(row))


class Files(unittest.TestCase):
    """What is read of files."""

    def setUp(self) -> None:
        folder = tempfile.TemporaryDirectory()
        self.addCleanup(folder.cleanup)
        self.rnd, self.names = random.Random(6), [os.path.join(folder.name, str(image)) for image in range(3)]
        self.data = [self.rnd.randbytes(512 * 10), self.rnd.randbytes(512 * 10)]
        total = bytes(one ^ other for one, other in zip(*self.data))
        for name, data in zip(self.names, (bytes(1024) + self.data[0], bytes(1024) + self.data[1], bytes(2048) + total)):
            with open(name, "wb") as file:
                file.write(data + bytes(2048))

    def test_rows(self) -> None:
        """Neighbouring rows with one table are one; what lies behind an end is zeros; offsets move images."""
        tied = (Tie(2, ((0, 1), (1, 1))),)
        found = dependence.look(self.names, 0, 14, 1, (0, 0, 2))
        assert found
        every = frozenset({0, 1, 2})
        self.assertEqual(found.rows, (Rows(0, 1, every, ()), Rows(2, 11, frozenset(), tied), Rows(12, 13, every, ())))
        self.assertEqual((found.alone, found.free, found.total), (frozenset(), 4, 14))
        found = dependence.look(self.names, 0, 16, 4)
        assert found
        self.assertEqual([(it.first, it.last, sorted(it.zero), it.ties) for it in found.rows],
                         [(0, 0, [0, 1, 2], ()), (4, 8, [], ()), (12, 12, [0, 1], ())])
        self.assertEqual((found.alone, found.free, found.total), (every, 4, 4))

    def test_ends(self) -> None:
        """Nothing is told where time is up, and an image that is not there ends the run with its words."""
        self.assertIsNone(dependence.look(self.names, 0, 14, 1, seconds=-1))
        with self.assertRaises(OutsideError):
            dependence.look([*self.names, self.names[0] + ".gone"], 0, 14, 1)


if __name__ == "__main__":
    unittest.main()
