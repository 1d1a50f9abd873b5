"""What is tried first, by what is known of images."""

import dataclasses
import unittest

from reraid_try.calls.sets import read_word
from reraid_try.evidence.image_groups import ImageGroup, Old
from reraid_try.evidence.metadata import Member
from reraid_try.evidence.ties import Known, Told
from reraid_try.evidence.unlike import Unlike
from reraid_try.options import Options
from reraid_try.policy import plain
from reraid_try.policy.plain import Target, Span
from reraid_try.policy.shapes import Shape

SPAN = Span(0, 1000)
ALL = Options(("a", "b"))


def group(images: int, level: str, parity: int, old: tuple[Old, ...] = (), others: tuple[int, ...] = (), loose: int = 0) -> ImageGroup:
    """A group of so many images from 0 on."""
    return ImageGroup(tuple(range(images)), 500, 8, 900, level, parity, old, None, others, loose, 8 if loose else None)


class Shapes(unittest.TestCase):
    """The shapes of a group."""

    def shapes(self, it: ImageGroup) -> list[Shape]:
        """What is tried of it."""
        targets = plain.tied(Told((Known(it),), (), True), it.images, SPAN, ALL)
        return [shape for target in targets for shape in target.shapes]

    def test_by_parity(self) -> None:
        """As many disks are lost as ties say."""
        self.assertEqual(self.shapes(group(4, "5", 1)), [Shape("5", 4)])
        self.assertEqual(self.shapes(group(4, "5", 0)), [Shape("5", 5, 1)])
        self.assertEqual([self.shapes(group(6, "6", parity)) for parity in (2, 1, 0)],
                         [[Shape("6", 6)], [Shape("6", 7, 1)], [Shape("6", 8, 2), Shape("5", 7, 1)]])

    def test_old(self) -> None:
        """An old disk is left out and counts as lost."""
        it = group(6, "6", 2, (Old(4, 100, 50),))
        target, = plain.tied(Told((Known(it, 256),), (), True), it.images, SPAN, ALL)
        self.assertEqual((target.images, target.shapes, target.asked), ((0, 1, 2, 3, 5), (Shape("6", 6, 1),), (("chunks", "256"),)))

    def test_in_doubt(self) -> None:
        """Where not few rows say another number of ties, that is tried after; where rows are not tied, that one of the disks is old."""
        self.assertEqual(self.shapes(group(4, "5", 0, others=(1,))), [Shape("5", 5, 1), Shape("5", 4)])
        self.assertEqual(self.shapes(group(4, "5", 1, loose=9)), [Shape("5", 4), Shape("5", 4, 1, 1)])
        # Where a level 5 has lost a disk already, an old one would be one too many.
        self.assertEqual(self.shapes(group(4, "5", 0, loose=9)), [Shape("5", 5, 1)])

    def test_unsound(self) -> None:
        """What few rows leave out, or do not tie, may be bad areas: all images are tried as well. Not where these are many rows, nor where parity
        tells nothing with all of them."""
        def unsound(it: ImageGroup) -> tuple[tuple[int, ...], Shape] | None:
            """The images and the shape that are tried as well."""
            target, = plain.tied(Told((Known(it),), (), True), it.images, SPAN, ALL)
            return (target.unsound.images, target.unsound.shape) if target.unsound else None
        self.assertEqual(unsound(group(4, "5", 1, loose=125)), ((0, 1, 2, 3), Shape("5", 4)))
        self.assertIsNone(unsound(group(4, "5", 1, loose=126)))
        self.assertIsNone(unsound(group(4, "5", 1)))
        self.assertIsNone(unsound(group(4, "5", 0, loose=9)))
        old = (Old(0, 50, 50), Old(4, 60, 50))
        self.assertEqual(unsound(group(6, "6", 2, old)), ((0, 1, 2, 3, 4, 5), Shape("6", 6)))
        self.assertEqual(unsound(group(6, "6", 1, (Old(4, 60, 50),))), ((0, 1, 2, 3, 4, 5), Shape("6", 7, 1)))
        self.assertIsNone(unsound(group(6, "6", 2, (Old(0, 60, 50), Old(4, 66, 50)))))

    def test_options(self) -> None:
        """Levels and members that are not asked for are not tried."""
        told = Told((Known(group(4, "5", 1)),), (), True)
        self.assertEqual(plain.tied(told, range(4), SPAN, Options(("a",), levels=("0", "6"))), [])
        self.assertEqual(plain.tied(told, range(4), SPAN, Options(("a",), members=(5,))), [])


class Targets(unittest.TestCase):
    """What is tried of images."""

    def test_two_arrays(self) -> None:
        """Each group is searched for itself."""
        other = ImageGroup((7, 8, 9), 500, 8, 900, "5", 1)
        targets = plain.tied(Told((Known(group(5, "6", 1)), Known(other)), (5, 6), True), range(10), SPAN, ALL)
        self.assertEqual([(it.images, it.shapes) for it in targets], [((0, 1, 2, 3, 4), (Shape("6", 6, 1),)), ((7, 8, 9), (Shape("5", 3),))])
        self.assertEqual(plain.untied(Told((Known(other),), (), True), range(10), SPAN, ALL), [])

    def test_copies(self) -> None:
        """Copies are searched as RAID 10 of all images, and not where that is not asked for."""
        told = Told((Known(ImageGroup((0, 2), 500, 8, 900, "10", 0, copies=((0, 2),))),), (1,), True)
        target, = plain.copied(told, range(3), SPAN, ALL)
        self.assertEqual((target.images, target.copied, target.shapes, target.why), ((0, 1, 2), True, (), "images 0 and 2 hold the same data"))
        self.assertEqual(plain.copied(told, range(3), SPAN, Options(("a",), levels=("5",))), [])
        self.assertEqual(plain.perhaps_copied(told, range(3), SPAN, ALL), [])
        self.assertEqual(plain.tied(told, range(3), SPAN, ALL), [])

    def test_copies_beside_a_foreign_image(self) -> None:
        """One that nothing ties is left out, or one of three that hold the same; between few members missing and more."""
        pair, three = (Known(ImageGroup(images, 900, 8, 900, "10", 0, copies=((0, 2),))) for images in ((0, 2), (0, 2, 3)))
        self.assertEqual([plain.doubtful(told) for told in (Told((pair,), (1, 3), True), Told((three,), (1,), True), Told((pair,), (), True))],
                         [[1, 3], [1, 0, 2, 3], []])
        all_of, = plain.copied(Told((pair,), (1, 3), True), range(4), SPAN, ALL)
        found = plain.without_each([all_of], [1, 3])
        self.assertEqual([(target.images, target.missing) for target in found],
                         [((0, 1, 2, 3), (0, 1)), ((0, 2, 3), (0, 1)), ((0, 1, 2), (0, 1)), ((0, 1, 2, 3), (2, 3))])
        left_out = [f"images 0 and 2 hold the same data; image {image} may be no member or a bad copy, so it is left out" for image in (1, 3)]
        self.assertEqual([target.why for target in found], [all_of.why, *left_out, all_of.why])
        self.assertTrue(all(target.copied for target in found))

    def test_no_image_to_be_left_out(self) -> None:
        """A target stays as it is where no image is doubtful, or hardly more than copies would be left."""
        for count, images in ((4, ()), (3, (1,))):
            targets = [Target(tuple(range(count)), SPAN, "why", copied=True)]
            self.assertEqual(plain.without_each(targets, images), targets)

    def test_two_images_that_are_the_same_in_some_rows(self) -> None:
        """Copies of a RAID 10, as is tried first, or what level 5 has of three disks of which one is lost."""
        told = Told((Known(ImageGroup((0, 2), 500, 8, 900, "5", 0)),), (1,), True)
        target, later = plain.perhaps_copied(told, range(3), SPAN, ALL)
        self.assertEqual((target.missing, later), ((0, 1), dataclasses.replace(target, missing=(2, 3))))
        self.assertEqual((target.images, target.copied, target.shapes), ((0, 1, 2), True, ()))
        self.assertEqual(target.why, "images 0, 2 hold the same data in 500 rows of those sampled: copies, or RAID 5 whose third disk is missing "
                         "and held zeros there")
        tied, = plain.tied(told, range(3), SPAN, ALL)
        self.assertEqual(tied.shapes, (Shape("5", 3, 1),))
        self.assertEqual(tied.why, "images 0, 2: hold the same data in 500 rows of those sampled, as RAID 5 does if its third disk is missing and "
                                   "held zeros there")
        self.assertEqual(plain.copied(told, range(3), SPAN, ALL), [])
        three = Told((Known(ImageGroup((0, 1, 2), 500, 8, 900, "5", 0)),), (), True)
        self.assertEqual(plain.perhaps_copied(three, range(3), SPAN, ALL), [])

    def test_untied(self) -> None:
        """What nothing ties may be a RAID 0, or has lost what it bears; where relations were not to be had nothing is said."""
        target, = plain.untied(Told((), (0, 1, 2), True), range(3), SPAN, ALL)
        self.assertEqual(target.shapes, (Shape("0", 3), Shape("5", 4, 1), Shape("6", 5, 2)))
        self.assertEqual(plain.untied(Told(), range(3), SPAN, ALL), [])
        # Landmarks are asked too where some hold the same in few rows; not of copies.
        few, copies = (ImageGroup((0, 1, 2), 51, 8, 900, "10", 0, copies=those) for those in ((), ((0, 1),)))
        for told, shapes in ((Told((), (0, 1, 2), True), target.shapes), (Told((Known(few),), (), True), target.shapes), (Told(), ()),
                             (Told((Known(copies),), (2,), True), ()), (Told((Known(group(3, "5", 0)),), (), True), ())):
            self.assertEqual(plain.silent(told, range(3), ALL), shapes)
            self.assertEqual(plain.untied(told, range(3), SPAN, ALL), [] if told.known or not shapes else [target])

    def test_unexplained(self) -> None:
        """Landmarks by the thousand tell of images that parity ties as no level can; not of copies, or of what is not asked for."""
        lost, copies = group(3, "6", 0, old=tuple(Old(image, 9, 8) for image in range(3))), ImageGroup((0, 1), 500, 8, 900, "10", 0, copies=((0, 1),))
        told = Told((Known(lost),), (), True)
        self.assertEqual((lost.lost, plain.tied(told, range(3), SPAN, ALL)), (5, []))
        target, = plain.unexplained(told, range(3), SPAN, ALL)
        self.assertEqual((target.images, target.shapes, target.by_thousands), ((0, 1, 2), (), (Shape("0", 3), Shape("5", 4, 1), Shape("6", 5, 2))))
        self.assertEqual(target.why, "images 0, 1, 2: no level explains what parity matches, so only landmarks by the thousand are tried")
        self.assertEqual([it.by_thousands for it in plain.unexplained(told, range(3), SPAN, Options(("a",), levels=("5",)))], [(Shape("5", 4, 1),)])
        for other, options in ((Told((Known(copies),), (2,), True), ALL), (Told((), (0, 1, 2), True), ALL), (Told(), ALL),
                               (told, Options(("a",), levels=("10",)))):
            self.assertEqual(plain.unexplained(other, range(3), SPAN, options), [])

    def test_apart(self) -> None:
        """The line says why copies are looked for, and which."""
        self.assertEqual([plain.apart_target(distance, range(3), SPAN).why for distance in (4096, 4098)],
                         [f"much of the data is on another image too, {distance} sectors apart, as in RAID 10 of layout "
                          f"{layout}" for distance, layout in ((4096, "offset"), (4098, "far"))])

    def test_unlike(self) -> None:
        """Images whose data begin at unlike sectors are asked for with an offset for each."""
        target = plain.unlike_target(Unlike((16, 64, 16), Known(group(3, "5", 1))), range(3), SPAN, ALL)
        self.assertEqual(dict(target.asked) | {"window": ""}, {"mode": "each", "offsets": "16,64", "window": ""})
        self.assertTrue(target.is_each)
        self.assertEqual(target.shapes, (Shape("5", 3),))

    def test_states_of_one_disk(self) -> None:
        """Without one of two states of a disk all is tried but RAID 10, and beside what is found the other state in the same slot."""
        group = ImageGroup((0, 1, 3, 4, 5), 700, 8, 900, "10", 0, states=(0, 5))
        self.assertEqual(plain.states(Told((Known(group),), (), True)), (0, 5))
        self.assertIsNone(plain.states(Told((Known(dataclasses.replace(group, states=None)),), (), True)))
        rest = Told((Known(ImageGroup((1, 3, 4, 5), 500, 8, 900, "5", 0)),), (), True)
        target, = plain.without_state(rest, (1, 3, 4, 5), (0, 5), SPAN, ALL)
        self.assertEqual((target.images, target.shapes, target.by_thousands), ((1, 3, 4, 5), (Shape("5", 5, 1),), (Shape("5", 5, 1),)))
        self.assertIn("without image 0, which may be an older state of image 5", target.why)
        silent, = plain.without_state(Told((), (1, 3, 4, 5), True), (1, 3, 4, 5), (0, 5), SPAN, ALL)
        self.assertEqual(silent.shapes, (Shape("0", 4), Shape("5", 5, 1), Shape("6", 6, 2)))
        word = read_word("5:la:none:512:64:4,5,3,-,1")
        other = plain.other_state(target, word, target.shapes[0])
        assert other
        self.assertEqual((other.word, other.images), ("5:la:none:512:64:4,0,3,-,1", (0, 1, 3, 4)))
        self.assertEqual(dict(other.asked), {"offsets": "64", "chunks": "512"})
        self.assertIsNone(plain.other_state(target, read_word("5:la:none:512:64:4,-,3,-,1"), target.shapes[0]))
        self.assertIsNone(plain.other_state(dataclasses.replace(target, states=None), word, target.shapes[0]))

    def test_guessed(self) -> None:
        """Beginnings that parity does not show are those of a level that has lost as many disks as it bears."""
        target, = plain.guessed_targets((64, 16, 16), range(3), SPAN, ALL)
        self.assertEqual(dict(target.asked) | {"window": ""}, {"mode": "each", "offsets": "16,64", "window": ""})
        self.assertEqual((target.images, target.shapes, target.tied, target.moved), ((0, 1, 2), (Shape("5", 4, 1), Shape("6", 5, 2)), False, ()))
        self.assertEqual(target.why, "the distances between equal data on the images suggest that their data begin at sectors 64, 16, 16")
        self.assertEqual(plain.guessed_targets((64, 16, 16), range(3), SPAN, Options(("a",), levels=("0", "10"))), [])

    def test_images_of_a_partition_alone(self) -> None:
        """Their data begin at other sectors than those of whole disks; as many disks are lost as a level bears, or none of a RAID 0."""
        first, second = plain.moved_targets([(4096, 2048), (2048, 0)], (0, 3), SPAN, ALL)
        self.assertEqual((first.images, first.moved, first.is_each, first.tied, second.moved), ((0, 3), (4096, 2048), True, False, (2048, 0)))
        self.assertEqual(first.shapes, (Shape("5", 3, 1), Shape("6", 4, 2), Shape("0", 2)))
        self.assertEqual(dict(first.asked)["offsets"], "2048,4096")
        self.assertIn("images 0, 3: some are of only a partition, so their data begin at sectors 4096, 2048", first.why)
        self.assertEqual(plain.moved_targets([(4096, 2048)], (0, 3), SPAN, Options(("a",), levels=("10",))), [])

    def test_metadata(self) -> None:
        """What metadata name: layout, chunk and offset; a disk is lost where a slot is not named, and an old one is left out."""
        seen = ((0, 3, 9), (2, 0, 9), (3, 1, 9), (5, 2, 4))
        said = [Member(image, "md 1.2", "a", "raid6", 5, "left-symmetric", 128, slot, 2048, events) for image, slot, events in seen]
        target = plain.metadata_target(said, SPAN, ALL)
        assert target
        self.assertEqual((target.images, target.shapes), ((0, 2, 3), (Shape("6", 5, 2),)))
        self.assertEqual(dict(target.asked), {"patterns": "ls", "syndromes": "after-q", "offsets": "2048", "chunks": "128"})
        self.assertIn("may be wrong", target.why)
        self.assertIsNone(plain.metadata_target([Member(0, "md 1.2", "a", "raid10", 4, "near=2", 128, 0, 2048)], SPAN, ALL))
        self.assertIsNone(plain.metadata_target([Member(0, "md 1.2", "a", "raid1", 2, "", None, 0, 2048)], SPAN, ALL))

    def test_metadata_on_few_disks(self) -> None:
        """If more disks would be missing than the level bears, images without metadata are the others, and nothing is tried if these do not do."""
        said = [Member(0, "md 1.2", "a", "raid5", 4, "left-symmetric", 128, 1, 2048, 9)]
        cases: list[tuple[list[int], tuple[int, ...], tuple[Shape, ...]]] = [
            ([1, 2, 3], (0, 1, 2, 3), (Shape("5", 4),)), ([2, 3], (0, 2, 3), (Shape("5", 4, 1),)), ([3], (0, 3), ()), ([], (0,), ()),
            ([1, 2, 3, 4], (0, 1, 2, 3, 4), ())]
        for bare, images, shapes in cases:
            target = plain.metadata_target(said, SPAN, ALL, bare)
            assert target
            self.assertEqual((target.images, target.shapes), (images, shapes))
        three = [dataclasses.replace(said[0], image=image, slot=image) for image in range(3)]
        target = plain.metadata_target(three, SPAN, ALL, [4])
        assert target
        self.assertEqual((target.images, target.shapes), ((0, 1, 2), (Shape("5", 4, 1),)))
        self.assertEqual(target.why, "metadata on images 0, 1, 2 (md 1.2) describe it, and may be wrong")


if __name__ == "__main__":
    unittest.main()
