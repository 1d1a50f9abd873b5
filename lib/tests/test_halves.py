"""Two images that hold the same in most rows alone, beside others: each is left out in turn."""

import types
import unittest
from typing import Any
from unittest import mock

from reraid_try.checks.verdicts import Score
from reraid_try.evidence.image_groups import ImageGroup
from reraid_try.evidence.images import Image
from reraid_try.evidence.ties import Known, Told
from reraid_try.options import Options
from reraid_try.policy import mirrors, plain
from reraid_try.policy.evident import Evident
from reraid_try.policy.mirrors import Grouped
from reraid_try.policy.plain import Target, Span

# Of a stripe over mirrors: images 0 and 3 are the same, 1 and 4 were, and the copy of 2 is missing.
IMAGES = tuple(Image(f"{k}.img", k, 900, first=0, like=0 if k == 3 else None) for k in range(5))
STALE = ImageGroup((1, 4), 860, 0, 899, "10", 1)
OPTIONS = Options(("a",) * 5)


class Halves(unittest.TestCase):
    def halves(self, *image_groups: ImageGroup, images: tuple[Image, ...] = IMAGES, span: Span = Span(0, 900),
               options: Options = OPTIONS) -> list[Target]:
        """What is tried."""
        return plain.halves_targets(Told(tuple(map(Known, image_groups)), (), True), images, span, options)

    def test_target(self) -> None:
        """All images, of which two are named."""
        target, = self.halves(STALE)
        self.assertEqual((target.images, target.copied, target.halves), ((0, 1, 2, 3, 4), True, ((1, 4),)))
        self.assertEqual(target.why, "images 1 and 4 hold the same in most rows: one may be an older state of the other, so each is left out in turn")

    def test_none(self) -> None:
        """None of images that are the same, of three that are alike, of ties by parity, of few images, in a partition, or where RAID 10 is not asked
        for."""
        for group in (ImageGroup((0, 3), 860, 0, 899, "10", 1), ImageGroup((0, 1, 4), 860, 0, 899, "10", 1), ImageGroup((1, 4), 860, 0, 899, "5", 1)):
            self.assertEqual(self.halves(group), [])
        self.assertEqual(self.halves(STALE, images=IMAGES[1:3] + IMAGES[4:]), [])
        self.assertEqual(self.halves(STALE, span=Span(0, 900, True)), [])
        self.assertEqual(self.halves(STALE, options=Options(("a",) * 5, levels=("5", "6"))), [])

    def test_groups(self) -> None:
        """Each of the two is alone in turn, by its place among the images; of two such pairs there are four ways."""
        found = list(mirrors.without_one([(0, 3)], [(1, 4)], (0, 1, 2, 3, 4)))
        self.assertEqual([it.groups for it in found], [((0, 3), (1,), (2,)), ((0, 3), (2,), (4,))])
        self.assertEqual([it.groups for it in mirrors.without_one([(5, 9)], [(6, 8)], (5, 6, 8, 9))], [((0, 3), (1,)), ((0, 3), (2,))])
        self.assertEqual(len(list(mirrors.without_one([(0, 3)], [(1, 4), (2, 5)], range(6)))), 4)
        self.assertEqual(list(mirrors.without_one([], [(1, 4)], (0, 1, 4))), [])

    def test_order(self) -> None:
        """Each way is tried with nothing relaxed before one is with something, and what is content ends that."""
        for good, wanted in ((None, [(1, 0), (4, 0), (1, 1), (4, 1)]), ((4, 0), [(1, 0), (4, 0)])):
            tried: list[tuple[int, int]] = []
            search: Any = types.SimpleNamespace(images=IMAGES, options=OPTIONS, tested=[])

            def grouped(_scope: Any, it: Grouped, counts: range) -> bool:
                tried.append((1 if (1,) in it.groups else 4, counts[0]))
                if tried[-1] == good:
                    search.tested.append(types.SimpleNamespace(score=Score.CHECKED))
                return False
            search.grouped = grouped
            it = Evident(search)
            with mock.patch.object(mirrors, "near", side_effect=AssertionError):
                self.assertEqual(it.copies(search, self.halves(STALE)[0], 0), good is not None)
            self.assertEqual(tried, wanted)


if __name__ == "__main__":
    unittest.main()
