"""Images whose imaging may have stopped: which ones are, what is said, and what is tried without them."""

import unittest
from collections.abc import Sequence

from reraid_try.errors import OutsideError
from reraid_try.evidence import stopped as early_ends
from reraid_try.evidence.image_groups import ImageGroup
from reraid_try.evidence.images import Image
from reraid_try.evidence.ties import Known, Told
from reraid_try.options import Options
from reraid_try.policy import stopped
from reraid_try.policy.plain import Target, Span
from reraid_try.policy.shapes import Shape
from reraid_try.units import SECTOR
from tests.standin import InFolder

FULL, SHORT = 1000, 600
OPTIONS = Options(("a", "b", "c", "d"))


class Found(InFolder):
    def images(self, *parts: tuple[int, int]) -> list[Image]:
        """Images of so many sectors, which are filled up to a sector."""
        names = [self.file(f"{k}.img", b"x" * filled * SECTOR + bytes((sectors - filled) * SECTOR)) for k, (sectors, filled) in enumerate(parts)]
        return [Image(name, k, sectors) for k, (name, (sectors, _)) in enumerate(zip(names, parts))]

    def found(self, *parts: tuple[int, int], end: int = FULL) -> list[int]:
        """The numbers of those that may be ended early."""
        return [image.number for image in early_ends.found(self.images(*parts), end)]

    def test_one(self) -> None:
        """It ends where most others hold data."""
        self.assertEqual(self.found((FULL, 900), (SHORT, SHORT), (FULL, 900), (FULL, 800)), [1])

    def test_two(self) -> None:
        self.assertEqual(self.found((FULL, 900), (SHORT, SHORT), (FULL, 900), (FULL, 900), (500, 500), (FULL, 900)), [1, 4])

    def test_shorter_disks(self) -> None:
        """Longer disks hold nothing behind the end of an array on all of them, or a table at their end alone, or one disk of them holds something."""
        self.assertEqual(self.found((FULL, SHORT), (SHORT, SHORT), (FULL, SHORT), (FULL, SHORT)), [])
        tabled = self.images((FULL, SHORT), (SHORT, SHORT), (FULL, SHORT))
        for image in (tabled[0], tabled[2]):
            with open(image.name, "r+b") as file:
                file.seek((FULL - 33) * SECTOR)
                file.write(b"EFI PART" * 33 * 64)
        self.assertEqual(early_ends.found(tabled, FULL), [])
        self.assertEqual(self.found((FULL, 900), (SHORT, SHORT), (FULL, SHORT), (FULL, SHORT)), [])
        self.assertEqual(self.found((FULL, 900), (FULL, 900), (FULL, 900)), [])

    def test_part(self) -> None:
        """In a part of the disks what lies behind it does not count."""
        parts = (FULL, 900), (SHORT, SHORT), (FULL, 900)
        self.assertEqual((self.found(*parts, end=SHORT), self.found(*parts, end=SHORT + 100)), ([], [1]))

    def test_unreadable(self) -> None:
        with self.assertRaises(OutsideError):
            early_ends.holds_behind(Image(f"{self.folder}/none", 0, FULL), SHORT, FULL)


class Targets(unittest.TestCase):
    images = tuple(Image(f"{name}.img", k, SHORT if name == "b" else FULL + k) for k, name in enumerate("abcd"))

    def targets(self, group: ImageGroup, short: Sequence[int] = (1,), span: Span = Span(0, SHORT), chunk: int | None = None) -> list[Target]:
        """What is tried."""
        told = Told((Known(group, chunk, 8),), (), True)
        return stopped.targets([self.images[number] for number in short], told, span, self.images, OPTIONS)

    def test_level_5(self) -> None:
        """Without the one that ends early, to the end of the shortest other one; parity tells nothing then, so landmarks are asked."""
        target, = self.targets(ImageGroup((0, 1, 2, 3), 900, 0, 999, "5", 1), chunk=128)
        shapes = (Shape("5", 4, 1),)
        self.assertEqual((target.images, target.span, target.shapes, target.by_thousands), ((0, 2, 3), Span(0, FULL), shapes, shapes))
        self.assertEqual((target.begin, target.asked, target.tied), (8, (("chunks", "128"),), True))

    def test_level_6(self) -> None:
        """With one left out parity tells something still; with a disk lost too it does not."""
        target, = self.targets(ImageGroup((0, 1, 2, 3), 900, 0, 999, "6", 2))
        self.assertEqual((target.shapes, target.by_thousands), ((Shape("6", 4, 1),), ()))
        target, = self.targets(ImageGroup((0, 1, 2, 3), 900, 0, 999, "6", 1))
        self.assertEqual((target.shapes, target.by_thousands), ((Shape("6", 5, 2),), (Shape("6", 5, 2),)))

    def test_partition(self) -> None:
        """A part of the disks keeps its end."""
        found = self.targets(ImageGroup((0, 1, 2, 3), 900, 0, 999, "5", 1), span=Span(64, 950, True))
        self.assertEqual([it.span for it in found], [Span(64, 950, True)])

    def test_nothing(self) -> None:
        """None if the level does not bear it, if it is no level of parity, or if no such image is tied."""
        self.assertEqual(self.targets(ImageGroup((0, 1, 2, 3), 900, 0, 999, "5", 0)), [])
        self.assertEqual(self.targets(ImageGroup((0, 1, 2, 3), 900, 0, 999, "10", 1)), [])
        self.assertEqual(self.targets(ImageGroup((0, 2, 3), 900, 0, 999, "5", 1)), [])
        self.assertEqual(self.targets(ImageGroup((0, 1, 2, 3), 900, 0, 999, "5", 1), ()), [])
        self.assertEqual(self.targets(ImageGroup((0, 1, 2, 3), 900, 0, 999, "6", 1), (1, 2)), [])

    def test_line(self) -> None:
        self.assertEqual(stopped.line(self.images[1], self.images), "image 1 b.img ends at sector 600, 59% of the longest: others hold data after "
                         "it, so its imaging may have stopped")


if __name__ == "__main__":
    unittest.main()
