"""How far apart images hold the same sectors: files made by hand."""

import dataclasses
import os
import random
import tempfile
import unittest
from unittest import mock

from reraid_try.evidence import shifts
from reraid_try.evidence.shifts import Distances, Shift

ZERO = bytes(512)


class Files(unittest.TestCase):
    """What files tell."""

    def setUp(self) -> None:
        folder = tempfile.TemporaryDirectory()
        self.addCleanup(folder.cleanup)
        self.folder, self.rnd = folder.name, random.Random(3)

    def write(self, number: int, sectors: list[bytes]) -> str:
        """A file of sectors."""
        name = os.path.join(self.folder, str(number))
        with open(name, "wb") as file:
            file.write(b"".join(sectors))
        return name

    def told(self, names: dict[int, str], first: int, last: int) -> list[Shift]:
        """The distances that tell."""
        return list(shifts.distances(names, first, last).told)

    def sectors(self, count: int) -> list[bytes]:
        """So many sectors, each of its own."""
        return [self.rnd.randbytes(512) for _ in range(count)]

    def test_moved(self) -> None:
        """An image that holds what another one does 24 sectors further, beside contents of its own; what is on an image twice tells nothing."""
        same, table = self.sectors(40), self.sectors(1)[0]
        names = {2: self.write(2, self.sectors(20) + same + [table] * 30), 5: self.write(5, self.sectors(44) + same + [table] * 30 + [ZERO] * 99)}
        self.assertEqual(self.told(names, 0, 90), [Shift(2, 5, 24, 40)])
        self.assertEqual(self.told(names, 0, 60), [Shift(2, 5, 24, 16)])

    def test_how_much_is_read(self) -> None:
        """So much of each image, and no more of all: 60 sectors of each, or 80 of both."""
        same = self.sectors(90)
        names = {0: self.write(0, same), 1: self.write(1, [ZERO] * 8 + same)}
        for each, of_all, shown in ((60 * 512, 1 << 20, 52), (1 << 20, 80 * 512, 32), (1 << 20, 1 << 20, 90)):
            with mock.patch.multiple(shifts, MAX_READ=each, MAX_OF_ALL=of_all):
                self.assertEqual(self.told(names, 0, 100), [Shift(0, 1, 8, shown)])

    def test_too_few(self) -> None:
        """A few sectors in common, and many of which no distance stands out, tell none."""
        few = self.sectors(shifts.MIN_SHOWN - 1)
        names = {0: self.write(0, few + self.sectors(9)), 1: self.write(1, self.sectors(9) + few)}
        self.assertEqual(self.told(names, 0, 20), [])
        many = self.sectors(200)
        mixed = many[:]
        self.rnd.shuffle(mixed)
        self.assertEqual(self.told({0: self.write(0, many), 1: self.write(1, mixed)}, 0, 200), [])

    def test_weak(self) -> None:
        """A distance that stands out but is of few of the contents in common tells of images that no other distance connects."""
        same, many, strong = self.sectors(30), self.sectors(1600), self.sectors(600)
        mixed = many[:]
        self.rnd.shuffle(mixed)
        names = {0: self.write(0, same + many), 1: self.write(1, [ZERO] * 8 + same + mixed)}
        self.assertEqual([(it.one, it.other, it.distance) for it in self.told(names, 0, 1700)], [(0, 1, 8)])
        names = {0: self.write(0, same + many + [ZERO] * 2 + strong[:304]), 2: self.write(2, strong),
                 1: self.write(1, [ZERO] * 8 + same + mixed + [ZERO] * 2 + strong[304:])}
        self.assertEqual([(it.one, it.other) for it in self.told(names, 0, 2400)], [(0, 2), (1, 2)])

    def test_weaker(self) -> None:
        """Distances that do not tell are kept beside those that do, but of too few sectors; multiples of 2048 sectors come first."""
        many, few, more, two = self.sectors(300), self.sectors(3), self.sectors(5), self.sectors(2)
        names = {0: self.write(0, many + few + more + two)}
        moved = [ZERO] * 16 + many + [ZERO] * 35 + more + [ZERO] * 16 + two + [ZERO] * (2348 - 374) + few
        names[1] = self.write(1, moved)
        self.assertEqual(shifts.distances(names, 0, 2600), Distances((Shift(0, 1, 16, 300),), (Shift(0, 1, 2048, 3), Shift(0, 1, 48, 5))))

    def test_twice(self) -> None:
        """What is on an image twice tells no distance, though it is on another one once."""
        table = self.sectors(20)
        names = {0: self.write(0, table + self.sectors(9) + table), 1: self.write(1, self.sectors(5) + table)}
        self.assertEqual(self.told(names, 0, 60), [])

    def test_places_in_later_blocks(self) -> None:
        """Places are those of the image, in whatever block it is read."""
        one = self.sectors(1)
        name = self.write(0, [ZERO] * 9000 + one)
        self.assertEqual(list(shifts.taken(name, 0, 9001, 1).values()), [9000])
        self.assertEqual(list(shifts.taken(name, 8999, 9001, 1).values()), [9000])

    def test_equal_files_lie_apart_by_any_number(self) -> None:
        """Distances that are no multiples of eight sectors are left out, though more sectors have them."""
        one = {value: value for value in range(60)}
        other = {value: value + (1003 if value < 40 else 24576) for value in range(60)}
        self.assertEqual(shifts.shift(one, other), (24576, 20))
        self.assertIsNone(shifts.shift(one, {value: value + 1003 for value in range(60)}))

    def test_some_taken(self) -> None:
        """Of many sectors some are taken, the same of each image."""
        same = self.sectors(512)
        one, other = self.write(0, same), self.write(1, [ZERO] * 8 + same)
        taken, moved = shifts.taken(one, 0, 512, 8), shifts.taken(other, 0, 520, 8)
        self.assertTrue(20 < len(taken) < 150)
        self.assertEqual(shifts.shift(taken, moved), (8, len(taken)))


class Told(unittest.TestCase):
    """What distances tell."""

    def test_potentials(self) -> None:
        """Beginnings that agree, whichever image comes first; none of a circle, as copies on the next disk make, nor of two groups."""
        self.assertEqual(shifts.potentials([Shift(0, 1, 8, 20), Shift(1, 2, -24, 30), Shift(0, 2, -16, 25)]), {0: 16, 1: 24, 2: 0})
        self.assertIsNone(shifts.potentials([Shift(0, 1, 8, 20), Shift(1, 2, 8, 30), Shift(0, 2, -8, 25)]))
        self.assertIsNone(shifts.potentials([Shift(0, 1, 8, 20), Shift(2, 3, 8, 30)]))
        self.assertIsNone(shifts.potentials([]))

    def test_strongest(self) -> None:
        """Of distances that do not agree those count that most sectors have; nothing of none."""
        self.assertEqual(shifts.strongest([Shift(0, 1, 8, 20), Shift(1, 2, -24, 30), Shift(0, 2, -40, 25)]), {0: 40, 1: 24, 2: 0})
        self.assertEqual(shifts.strongest([]), {})
        # Two that agree count together, and a weaker one beside one that tells; one that none tells counts for nothing.
        found = [Shift(0, 1, 0, 57), Shift(0, 2, 24, 82), Shift(0, 3, 265, 88), Shift(1, 2, 24, 110), Shift(1, 3, 49, 150), Shift(2, 3, 25, 53)]
        self.assertEqual(shifts.strongest(found), {0: 0, 1: 0, 2: 24, 3: 49})
        two, weak = [Shift(0, 1, 8, 30), Shift(0, 2, 5, 20), Shift(1, 2, 0, 22)], Shift(0, 2, 5, 3)
        self.assertEqual(shifts.strongest(two), {0: 0, 1: 8, 2: 8})
        self.assertEqual(shifts.strongest(two, [weak]), {0: 0, 1: 8, 2: 5})
        self.assertEqual(shifts.strongest(two, [weak, Shift(1, 2, 90, 99)]), {0: 0, 1: 8, 2: 5})

    def test_agree(self) -> None:
        """Distances that might not agree and do; in a chain they cannot but agree, and of some images they say nothing of the others."""
        ring = [Shift(0, 1, 8, 20), Shift(1, 2, -24, 30), Shift(0, 2, -16, 25)]
        self.assertTrue(shifts.agree(ring, 3))
        self.assertFalse(shifts.agree(ring[:2], 3))
        self.assertFalse(shifts.agree(ring, 4))
        self.assertFalse(shifts.agree([*ring, Shift(3, 4, 8, 20)], 4))
        self.assertFalse(shifts.agree([Shift(0, 1, 8, 20), Shift(1, 2, 8, 30), Shift(0, 2, -8, 25)], 3))
        # One of many may be another one.
        many = [Shift(one, other, 8 * (other - one), 20) for one in range(4) for other in range(one + 1, 4)]
        self.assertTrue(shifts.agree([*many[:5], Shift(2, 3, 800, 19)], 4))
        self.assertFalse(shifts.agree([*many[:4], Shift(1, 3, 800, 19), Shift(2, 3, 88, 19)], 4))

    def test_apart(self) -> None:
        """Copies one chunk further on the next disk, as of a RAID 10 with the layout offset=2; far ones; beginnings are none."""
        self.assertEqual(shifts.apart([Shift(0, 1, -128, 90), Shift(0, 2, 128, 90), Shift(1, 3, -128, 90), Shift(2, 3, 128, 90)], 4), 128)
        self.assertEqual(shifts.apart([Shift(0, 1, 90112, 50), Shift(1, 2, 90112, 50), Shift(0, 2, -90112, 50)], 3), 90112)
        # Of a lost disk too, which leaves no circle; and of three copies, of which the third lies twice as far.
        self.assertEqual(shifts.apart([Shift(0, 1, 90112, 50), Shift(1, 2, 90112, 50)], 3), 90112)
        self.assertEqual(shifts.apart([Shift(0, 1, 512, 50), Shift(0, 2, 1024, 50), Shift(1, 3, -1024, 50), Shift(2, 3, 512, 50)], 4), 512)
        self.assertIsNone(shifts.apart([Shift(0, 1, 8, 20), Shift(1, 2, -24, 30), Shift(0, 2, -36, 25), Shift(0, 3, -40, 25)], 4))
        self.assertIsNone(shifts.apart([Shift(0, 1, 0, 20)], 2))
        # One pair of four images tells nothing of the others, and of three images two are most.
        self.assertIsNone(shifts.apart([Shift(1, 3, 49152, 90)], 4))
        self.assertEqual(shifts.apart([Shift(1, 2, 49152, 90)], 3), 49152)
        # Far copies of five disks of which one is missing: what few sectors of other pairs show does not count, unless as many nearly do.
        other = [Shift(0, 1, -304648, 39), Shift(0, 2, -132616, 39), Shift(1, 3, 132616, 39)]
        far = [Shift(0, 3, -172032, 14166), Shift(1, 2, 172032, 14424), Shift(2, 3, 172032, 14507)]
        self.assertEqual(shifts.apart([*other, *far], 4), 172032)
        self.assertIsNone(shifts.apart([*(dataclasses.replace(it, shown=1000) for it in other), *far], 4))
        self.assertEqual([shifts.layout(128), shifts.layout(90112), shifts.layout(65536)], ["offset", "far", "far"])
        self.assertEqual([shifts.layout(32768), shifts.layout(96)], ["offset", "far"])


if __name__ == "__main__":
    unittest.main()
