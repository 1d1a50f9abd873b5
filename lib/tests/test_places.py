"""Where parity lies by zeros: rows of arrays whose data are zeros in a part, by `rows`."""

import random
import unittest
from fractions import Fraction
from collections.abc import Sequence

from reraid_try.calls.sets import Word, made
from reraid_try.evidence import places, relations
from reraid_try.evidence.places import Places

from . import rows


def told(made_rows: Sequence[rows.Row], level: str, members: int, first: int = 64, unread: Sequence[range] = ()) -> Places:
    """The places of all images of some rows, of which the first is that of a sector."""
    return Places(relations.read(rows.text(list(made_rows), first, 1), 1), range(len(made_rows[0])), level, members, unread)


def shuffled(made_rows: Sequence[rows.Row], order: Sequence[int]) -> list[rows.Row]:
    """The rows with the images in another order: image k is what stood at a place."""
    return [[row[place] for place in order] for row in made_rows]


class Best(unittest.TestCase):
    """The placements that zeros allow."""

    def setUp(self) -> None:
        self.rnd = random.Random(12)

    def test_level_5_lost(self) -> None:
        """A RAID 5 left-symmetric of five disks of which slot 1 is lost: order, chunk and turn; the order turned round with the other turn is the
        same."""
        whole = rows.striped(self.rnd, 5, 5, 1600, chunk=16, sparse=0.6)
        found = told(shuffled(whole, (3, 0, 4, 2)), "5", 5).best([64])
        self.assertEqual({(it.turn.patterns[0][0], it.chunk, it.slots, it.against) for it in found},
                         {("ls", 16, (1, None, 3, 0, 2), 0), ("rs", 16, (2, 0, 3, None, 1), 0)})
        self.assertEqual(list(found[0].words("5", {0: 0, 1: 1, 2: 2, 3: 3})), ["5:ls:none:16:64:1,-,3,0,2", "5:la:none:16:64:1,-,3,0,2"])
        self.assertEqual(list(found[0].words("5", {0: 3, 1: 2, 2: 1, 3: 0}, (8, 9, 8, 9)))[0], "5:ls:none:16:8+9+8+9:2,-,0,3,1")

    def test_data_that_repeat(self) -> None:
        """In rows of one pattern on four data disks parity is zeros. That says nothing of where parity lies."""
        whole = rows.striped(self.rnd, 5, 5, 800, chunk=16, sparse=0.6)
        for number, row in enumerate(whole[:400]):
            pattern = b"#" * len(row[0])
            row[:] = [bytes(len(pattern)) if slot == (4 - number // 16) % 5 else pattern for slot in range(5)]
        it = told(whole, "5", 5)
        self.assertFalse(any(seen.sector < 64 + 400 for seen in it.seen))
        self.assertIn(("ls", 16, (0, 1, 2, 3, 4), 0), {(one.turn.patterns[0][0], one.chunk, one.slots, one.against) for one in it.best([64])})

    def test_data_that_repeat_beside_lost_disks(self) -> None:
        """With two disks of a RAID 6 lost, ties do not tell rows of one pattern from others. What the sectors hold does."""
        whole = rows.striped(self.rnd, 6, 6, 960, chunk=16, sparse=0.6)
        for number, row in enumerate(whole[:480]):
            pattern = b"#" * len(row[0])
            weighed = bytes(7 * byte % 251 for byte in pattern)
            p = (5 - number // 16) % 6
            row[:] = [bytes(len(pattern)) if slot == p else weighed if slot == (p + 1) % 6 else pattern for slot in range(6)]
        left = shuffled(whole, (3, 0, 4, 2))
        true = made("6", "ls", "after-q", 16, (64,), (1, None, 3, 0, 2, None))
        self.assertEqual(told(left, "6", 6).allowed([true]), [False])
        made_of = relations.read(rows.text(left, 64, 1), 1)
        it = Places(made_of, range(4), "6", 6, repeats=lambda row, _: row < 64 + 480)
        self.assertFalse(any(seen.sector < 64 + 480 for seen in it.seen))
        self.assertEqual(it.allowed([true]), [True])

    def test_parity_that_stays(self) -> None:
        """The turns of a chunk are those of one that is shorter, whose parity stays for as many rows more."""
        whole = rows.striped(self.rnd, 5, 5, 3200, chunk=32, sparse=0.6)
        it = told(shuffled(whole, (3, 0, 4, 2)), "5", 5)
        found = next(it for it in it.best([64], [32]) if it.turn.patterns[0][0] == "ls")
        self.assertEqual(list(found.words("5", {0: 0, 1: 1, 2: 2, 3: 3}, delay=4)), ["5:ls*4:none:8:64:1,-,3,0,2", "5:la*4:none:8:64:1,-,3,0,2"])
        sets = ("la", 32), ("la*4", 8), ("la", 8), ("la*4", 32)
        words = [made("5", pattern, "none", chunk, (64,), (1, None, 3, 0, 2)) for pattern, chunk in sets]
        self.assertEqual(it.allowed(words), [True, True, False, False])

    def test_level_6_two_lost(self) -> None:
        """A RAID 6 of which two disks are lost."""
        whole = rows.striped(self.rnd, 6, 6, 1600, chunk=8, sparse=0.6)
        found = told(shuffled(whole, (5, 2, 0, 3)), "6", 6).best([64])
        self.assertIn(("ls", 8, (2, None, 1, 3, None, 0)), {(it.turn.patterns[0][0], it.chunk, it.slots) for it in found})

    def test_offset(self) -> None:
        """From another offset on, rows further, the order is turned; from one within a chunk nothing fits."""
        whole = rows.striped(self.rnd, 4, 5, 1600, chunk=16, sparse=0.5)
        it = told(rows.without(whole, 2), "5", 4)
        self.assertEqual([place.slots for place in it.best([64]) if place.turn.patterns[0][0] == "ls"], [(0, 1, None, 2)])
        self.assertEqual([place.slots for place in it.best([64 + 16]) if place.turn.patterns[0][0] == "ls"], [(2, 0, 1, None)])
        self.assertEqual(it.best([64 + 8], [16]), [])

    def test_full(self) -> None:
        """Where no sector is zeros nothing is told."""
        it = told(rows.without(rows.striped(self.rnd, 4, 5, 400), 2), "5", 4)
        self.assertEqual((it.told, it.best([64])), (False, []))
        self.assertTrue(it.allowed([made_word((2, 0, 1, None))])[0])


def made_word(slots: tuple[int | None, ...], pattern: str = "ls", chunk: int = 16) -> Word:
    """A set of level 5 from sector 64 on."""
    return made("5", pattern, "none", chunk, (64,), slots)


class Unread(unittest.TestCase):
    """Areas that were not read, which are zeros in the image, say nothing of where parity lies."""

    def setUp(self) -> None:
        rnd = random.Random(7)
        self.true, self.other = made_word((0, 1, 2, 3)), made_word((0, 1, 2, 3), "rs")
        # Half of the rows are full, and in as many an image that has parity there was not read.
        self.rows = [list(row) for row in rows.striped(rnd, 4, 5, 640, chunk=16, sparse=0.1)]
        self.gaps = [range(64 + 16 * turn, 64 + 16 * turn + 16) for turn in range(40) if turn % 2]
        for gap in self.gaps:
            for row in self.rows[gap.start - 64:gap.stop - 64]:
                row[3 - (gap.start - 64) // 16 % 4] = bytes(rows.COLUMNS)

    def test_parity_is_left(self) -> None:
        """All disks are there, so a row in which not all others are tied is no row of the array; no map has to say so."""
        it = told(self.rows, "5", 4)
        self.assertEqual((it.told, it.against(self.true)), (True, 0))
        self.assertEqual(it.allowed([self.true, self.other]), [True, False])

    def test_no_parity_is_left(self) -> None:
        """A disk is lost: zeros that were not read speak against the true set, but where maps name them."""
        made_rows, word = rows.without(self.rows, 2), made_word((0, 1, None, 2))
        self.assertGreater(told(made_rows, "5", 4).against(word) or 0, Fraction(1, 8))
        self.assertEqual(told(made_rows, "5", 4, unread=self.gaps).against(word), 0)
        # In no order, one within another, and one that begins before the first row.
        mixed = [range(0, 70), *reversed(self.gaps), range(81, 90)]
        seen = {it.sector for it in told(made_rows, "5", 4, unread=mixed).seen}
        self.assertEqual(seen & {row for gap in mixed for row in gap}, set())
        self.assertLessEqual({it.sector for it in told(made_rows, "5", 4).seen}, seen | {row for gap in mixed for row in gap})


class Allowed(unittest.TestCase):
    """Which sets zeros allow."""

    def test_sets(self) -> None:
        """The true set and its like, and none with another order, chunk or turn; of what is not known here nothing is said."""
        whole = rows.striped(random.Random(5), 4, 5, 1600, chunk=16, sparse=0.5)
        it = told(rows.without(whole, 2), "5", 4)
        self.assertTrue(it.allowed([made_word((0, 1, None, 2))])[0])
        self.assertTrue(it.allowed([made_word((0, 1, None, 2), "la")])[0])
        self.assertFalse(it.allowed([made_word((1, 0, None, 2))])[0])
        self.assertFalse(it.allowed([made_word((0, 1, 2, None))])[0])
        self.assertFalse(it.allowed([made_word((0, 1, None, 2), "rs")])[0])
        self.assertFalse(it.allowed([made_word((0, 1, None, 2), chunk=32)])[0])
        self.assertTrue(it.allowed([made_word((0, 1, None, 2), "unheard-of")])[0])
        self.assertTrue(it.allowed([made_word((0, 1, None, 9))])[0])

        self.assertEqual(it.allowed([made_word((0, 1, None, 2)), made_word((1, 0, None, 2)), made_word((0, 1, None, 9))]), [True, False, True])

    def test_an_image_left_out(self) -> None:
        """Of a set that leaves one of the images out nothing is said: that may be the damaged one, and hold parity in good rows."""
        it = told(rows.striped(random.Random(5), 4, 5, 1600, chunk=16, sparse=0.5), "5", 4)
        self.assertEqual((it.against(made_word((0, 1, 2, 3))), it.against(made_word((0, 1, None, 3)))), (0, None))
        self.assertEqual(it.allowed([made_word((1, 0, 2, 3)), made_word((0, 1, None, 3))]), [False, True])

    def test_other_shapes(self) -> None:
        """Of sets of another level, or of other numbers of members, nothing is said."""
        it = told(rows.without(rows.striped(random.Random(5), 4, 5, 1600, chunk=16, sparse=0.5), 2), "5", 4)
        for slots in ((0, 1, None, None, 2), (0, 1, 2)):
            self.assertIsNone(it.against(made_word(slots)))
        self.assertIsNone(it.against(made("6", "ls", "after-q", 16, (64,), (1, 0, None, 2))))
        self.assertIsNotNone(it.against(made_word((1, 0, None, 2))))

    def test_hardly_more_than_the_best(self) -> None:
        """A set against which a tenth of the rows speaks is left out beside one against which none does, and stays by itself."""
        pairs = [(rows.sector(random.Random(k)), rows.sector(random.Random(1000 + k))) for k in range(1, 401)]
        sums = [bytes(a ^ b for a, b in zip(*pair)) for pair in pairs]
        made_rows = [[one, bytes(rows.COLUMNS), other, both] if k % 10 else [bytes(rows.COLUMNS), one, other, both]
                     for k, ((one, other), both) in enumerate(zip(pairs, sums), 1)]
        it = told(made_rows, "5", 4)
        words = [made_word(slots, "parity-last") for slots in ((0, 1, 2, 3), (2, 1, 3, 0))]
        self.assertEqual([it.against(word) for word in words], [0, Fraction(1, 10)])
        self.assertEqual((it.allowed(words), it.allowed(words[1:])), ([True, False], [True]))

    def test_fixed(self) -> None:
        """Parity that stands on one disk: which that is."""
        rnd = random.Random(6)
        made_rows = []
        for number in range(400):
            data = [rows.sector(rnd) if (number // 8 + place) % 3 else bytes(rows.COLUMNS) for place in range(3)]
            made_rows.append([*data[:2], rows.plus(rows.plus(data[0], data[1]), data[2])])
        it = told(made_rows, "5", 4)
        self.assertTrue(it.allowed([made_word((0, 1, None, 2), "parity-last")])[0])
        self.assertTrue(it.allowed([made_word((1, None, 0, 2), "parity-last")])[0])
        self.assertFalse(it.allowed([made_word((0, 2, None, 1), "parity-last")])[0])


class Turns(unittest.TestCase):
    """Where P and Q lie, by the pictures of md's layouts of four disks."""

    PICTURES = {("ls", "after-q"): "Q..P ..PQ .PQ. PQ..", ("rs", "after-q"): "PQ.. .PQ. ..PQ Q..P",
                ("n-restart", "by-slot"): "..PQ .PQ. PQ.. Q..P",
                ("n-continue", "by-slot"): "..QP .QP. QP.. P..Q", ("ls-6", "after-q"): "..PQ .P.Q P..Q ..PQ",
                ("rs-6", "after-q"): "P..Q .P.Q ..PQ P..Q", ("parity-last", "after-q"): "..PQ ..PQ ..PQ ..PQ",
                ("parity-first", "after-q"): "PQ.. PQ.. PQ.. PQ..", ("parity-first-6", "after-q"): "P..Q P..Q P..Q P..Q"}

    def test_level_6(self) -> None:
        """Each turn of level 6."""
        for turn in places.TURNS_6:
            with self.subTest(turn.patterns[0]):
                drawn = [(picture.index("P"), picture.index("Q")) for picture in self.PICTURES[turn.patterns[0]].split()]
                self.assertEqual([turn.parity(row, 4) for row in range(4)], drawn)

    def test_level_5(self) -> None:
        """Each turn of level 5."""
        self.assertEqual([[turn.parity(row, 4) for row in range(5)] for turn in places.TURNS_5],
                         [[(3,), (2,), (1,), (0,), (3,)], [(0,), (1,), (2,), (3,), (0,)], [(3,)] * 5, [(0,)] * 5])


if __name__ == "__main__":
    unittest.main()
