"""The lines of `reraid relations`, and what they tell of arrays. The rows are made by `rows`."""

import dataclasses
import random
import unittest

from reraid_try.evidence import image_groups, relations

from . import rows

NUMBER = 400


def told(made: list[rows.Row], step: int = 1) -> list[image_groups.ImageGroup]:
    """The image groups of some rows."""
    return image_groups.image_groups(relations.read(rows.text(made, 2048, step), step), range(len(made[0])))


class Lines(unittest.TestCase):
    """What is read of the output."""

    TEXT = ("rows 2048 2112 zero - tied 5=143*0+1*2 6=1*1\n"
            "rows 2176 2176 zero 0,3 tied -\n"
            "together 0,2,5 in 2 rows\n"
            "together 1,6 in 2 rows\n"
            "others 3\n"
            "alone 3,4\n"
            "free 1 of 3\n")

    def test_whole(self) -> None:
        """All parts of an output."""
        found = relations.read(self.TEXT, 64)
        first, second = found.rows
        self.assertEqual((first.first, first.last, first.zero), (2048, 2112, frozenset()))
        self.assertEqual(first.ties, (relations.Tie(5, ((0, 143), (2, 1))), relations.Tie(6, ((1, 1),))))
        self.assertEqual([tie.plain for tie in first.ties], [False, True])
        self.assertEqual(sorted(sorted(it) for it in first.tied()), [[0, 2, 5], [1, 6]])
        self.assertEqual((found.count(first), found.count(second)), (2, 1))
        self.assertEqual((second.zero, second.ties), (frozenset({0, 3}), ()))
        self.assertEqual([(sorted(it.images), it.rows) for it in found.together], [([0, 2, 5], 2), ([1, 6], 2)])
        self.assertEqual((found.alone, found.free, found.total, found.others), (frozenset({3, 4}), 1, 3, 3))

    def test_objects(self) -> None:
        """The same output as objects of JSON."""
        objects = ('{"rows":[2048,2112],"zero":[],"tied":[[5,[[143,0],[1,2]]],[6,[[1,1]]]]}\n'
                   '{"rows":[2176,2176],"zero":[0,3],"tied":[]}\n'
                   '{"together":[0,2,5],"rows":2}\n{"together":[1,6],"rows":2}\n{"others":3}\n{"alone":[3,4]}\n{"free":1,"of":3}\n')
        self.assertEqual(relations.read(objects, 64), relations.read(self.TEXT, 64))

    def test_cut_off(self) -> None:
        """What came before a fault stands."""
        found = relations.read(self.TEXT[:self.TEXT.index("together")], 64)
        self.assertEqual((len(found.rows), found.total), (2, 0))

    def test_no_line(self) -> None:
        """A line that is none is refused."""
        texts = ("rows 1 2 zero - tied", "rows 1 2 zero - tied 4=0*", "reraid: plan line 3", "alone")
        for line in (*texts, "{", '{"rows":[1],"zero":[],"tied":[]}', "{}"):
            with self.subTest(line), self.assertRaises(relations.Unreadable):
                relations.read(line + "\n", 1)

    def test_other_numbers(self) -> None:
        """All that names images has their other numbers."""
        found = relations.renumbered(relations.read(self.TEXT, 64), [10, 21, 32, 43, 54, 65, 76])
        first, second = found.rows
        self.assertEqual(first.ties, (relations.Tie(65, ((10, 143), (32, 1))), relations.Tie(76, ((21, 1),))))
        self.assertEqual((second.zero, found.alone), (frozenset({10, 43}), frozenset({43, 54})))
        self.assertEqual([(sorted(it.images), it.rows) for it in found.together], [([10, 32, 65], 2), ([21, 76], 2)])
        self.assertEqual((found.step, found.free, found.total, found.others), (64, 1, 3, 3))

    def test_made_rows(self) -> None:
        """The rows that tests are made of have the ties of a RAID 6 by its definition: P is the sum of the data, Q that with the powers of 2."""
        row = rows.striped(random.Random(1), 5, 6, 1)[0]
        data, p, q = [row[1], row[2], row[3]], row[4], row[0]
        self.assertEqual(rows.table([*data, p, q]), ([], {3: {0: 1, 1: 1, 2: 1}, 4: {0: 1, 1: 2, 2: 4}}))


class ImageGroups(unittest.TestCase):
    """What the rows of arrays tell."""

    def setUp(self) -> None:
        self.rnd = random.Random(7)

    def test_level_5(self) -> None:
        """All disks of a RAID 5 and a foreign one."""
        found, = told(rows.beside(rows.striped(self.rnd, 4, 5, NUMBER), rows.alone(self.rnd, NUMBER)))
        self.assertEqual((found.images, found.level, found.parity, found.lost, found.members), ((0, 1, 2, 3), "5", 1, 0, 4))
        self.assertEqual((found.first, found.last, found.old, found.reshape, found.loose), (2048, 2048 + NUMBER - 1, (), None, 0))

    def test_level_5_lost(self) -> None:
        """A RAID 5 that lacks a disk is known by rows of which most is zeros."""
        found, = told(rows.without(rows.striped(self.rnd, 5, 5, 4 * NUMBER, sparse=0.6), 2))
        self.assertEqual((found.images, found.level, found.parity, found.lost, found.members), ((0, 1, 2, 3), "5", 0, 1, 5))

    def few_rows(self, joining: int, others: int = 600) -> list[rows.Row]:
        """Rows of three images: so many untied ones, 60 that tie the second to the third, and so many that tie the first to the third."""
        empty, made = bytes(rows.COLUMNS), [[rows.sector(self.rnd) for _ in range(3)] for _ in range(others)]
        for number in range(60 + joining):
            same = rows.sector(self.rnd)
            made.insert(number * 5, [empty, same, same] if number < 60 else [same, empty, same])
        return made

    def test_a_disk_that_few_rows_tie(self) -> None:
        """Where few rows of a RAID 5 that lacks a disk have zeros, one that is in a tenth of the ties belongs to it, and not one in fewer."""
        found, = told(self.few_rows(6))
        self.assertEqual((found.images, found.level, found.parity, found.lost, found.members), ((0, 1, 2), "5", 0, 1, 4))
        self.assertEqual([it.images for it in told(self.few_rows(5))], [(1, 2)])

    def test_image_groups_that_few_rows_tie_stay_apart(self) -> None:
        """Two pairs of copies of which few rows tie one to the other."""
        made = [[rows.sector(self.rnd) for _ in range(4)] for _ in range(600)]
        for number in range(70):
            one, other = rows.sector(self.rnd), rows.sector(self.rnd)
            made.insert(number * 5, [one, one, other, other] if number < 60 else [rows.sector(self.rnd), one, one, other])
        self.assertEqual([it.images for it in told(made)], [(0, 1), (2, 3)])

    def test_level_6(self) -> None:
        """All disks of a RAID 6, and the same with one or two lost."""
        made = rows.striped(self.rnd, 6, 6, 4 * NUMBER, sparse=0.4)
        for lost in range(3):
            with self.subTest(lost=lost):
                found, = told(made)
                self.assertEqual((len(found.images), found.level, found.parity, found.lost, found.members), (6 - lost, "6", 2 - lost, lost, 6))
            made = rows.without(made, 1)

    def test_mostly_empty(self) -> None:
        """A RAID 6 of which all but a part is zeros, behind metadata of each disk's own: all its disks are there, also where each row has zeros."""
        metadata, rest = rows.beside(*(rows.alone(self.rnd, 200) for _ in range(5))), [[bytes(rows.COLUMNS)] * 5] * 300
        found, = told(metadata + rows.striped(self.rnd, 5, 6, 24) + rest)
        self.assertEqual((found.level, found.parity, found.lost, found.first, found.loose), ("6", 2, 0, 2048 + 200, 0))
        sparse = [row for row in rows.striped(self.rnd, 5, 6, 400, sparse=0.6) if bytes(rows.COLUMNS) in row]
        found, = told(metadata + sparse + rest)
        self.assertEqual((found.level, found.parity, found.lost), ("6", 2, 0))

    def test_level_0(self) -> None:
        """Disks of a RAID 0 are tied nowhere."""
        self.assertEqual(told([[rows.sector(self.rnd) for _ in range(4)] for _ in range(NUMBER)]), [])

    def test_an_equal_sector_of_another_array(self) -> None:
        """Two arrays whose images take turns in the heap: where image 1 holds what 2 holds, no row of the other array is untied."""
        one, other = rows.striped(self.rnd, 3, 5, NUMBER), rows.striped(self.rnd, 3, 5, NUMBER)
        for row, another in list(zip(one, other))[100:106]:
            another[0], another[2] = row[1], rows.plus(row[1], another[1])
        made = [[sector for pair in zip(row, another) for sector in pair] for row, another in zip(one, other)]
        found = {it.images: it for it in told(made)}
        self.assertEqual(set(found), {(0, 2, 4), (1, 3, 5)})
        self.assertEqual((found[0, 2, 4].level, found[0, 2, 4].parity, found[0, 2, 4].loose), ("5", 1, 0))

    def test_level_6_or_5(self) -> None:
        """Where most rows are tied nowhere, and ties with weights besides 1 stand in the others, it may be either."""
        made = [[rows.sector(self.rnd) for _ in range(3)] for _ in range(NUMBER)]
        for row in made[::8]:
            row[2] = rows.plus(row[0], row[1], 2)
        found, = told(made)
        self.assertEqual((found.level, found.parity, found.is_either), ("6", 0, True))
        full, = told(rows.striped(self.rnd, 5, 6, NUMBER))
        self.assertFalse(full.is_either)

    def test_two_arrays(self) -> None:
        """Two arrays in one heap, the one of them a RAID 6 that lacks a disk."""
        six, five = rows.without(rows.striped(self.rnd, 6, 6, NUMBER), 3), rows.striped(self.rnd, 3, 5, NUMBER)
        found = told(rows.beside(six, five))
        self.assertEqual([(it.images, it.level, it.lost) for it in found], [((0, 1, 2, 3, 4), "6", 1), ((5, 6, 7), "5", 0)])

    def test_two_arrays_that_hold_the_same(self) -> None:
        """Two level 5 of which a disk each holds the same noise in some rows are no level 6; nor is a third one beside them part of it."""
        for part in (30, 3):
            made = rows.beside(*(rows.striped(self.rnd, disks, 5, NUMBER) for disks in (4, 3, 3)))
            for number in range(1, NUMBER, part):
                made[number][0] = made[number][5] = rows.sector(self.rnd)
            found = told(made)
            self.assertEqual([(it.images, it.level, it.parity, it.lost) for it in found],
                             [((0, 1, 2, 3), "5", 1, 0), ((4, 5, 6), "5", 1, 0), ((7, 8, 9), "5", 1, 0)])
            self.assertEqual([it.loose for it in found], [len(range(1, NUMBER, part))] * 2 + [0])

    def test_two_arrays_with_the_same_data(self) -> None:
        """The same where parity holds in the rows that both have, and one of their disks is zeros in most rows."""
        one, other = (rows.striped(self.rnd, 4, 5, NUMBER, sparse=0.3) for _ in range(2))
        for number in range(0, NUMBER, 4):
            other[number] = one[number]
        for number, row in enumerate(other):
            if number % 5:
                row[3], row[2] = bytes(rows.COLUMNS), rows.plus(row[2], row[3])
        found = told(rows.beside(one, other))
        self.assertEqual([(it.images, it.level, it.parity) for it in found], [((0, 1, 2, 3), "5", 1), ((4, 5, 6, 7), "5", 1)])

    def test_old(self) -> None:
        """A disk of a RAID 6 that dropped out: from row 100 on rows were written without it, but for each fifth."""
        made = rows.striped(self.rnd, 6, 6, NUMBER)
        for number, row in enumerate(made):
            if number >= 100 and number % 5:
                row[4] = rows.sector(self.rnd)
        found, = told(made)
        self.assertEqual([(it.image, it.rows, it.first) for it in found.old], [(4, 240, 2048 + 101)])
        self.assertEqual((found.current, found.lost, found.members), ((0, 1, 2, 3, 5), 1, 6))
        self.assertIn("sector 2149", found.old[0].line("d.img"))

    def test_bad_rows(self) -> None:
        """Rows of a RAID 5 that do not cancel: how many, and from where on."""
        made = rows.striped(self.rnd, 4, 5, NUMBER)
        for number in range(200, 230):
            made[number][1] = rows.sector(self.rnd)
        found, = told(made)
        self.assertEqual((found.level, found.parity, found.loose, found.loose_first), ("5", 1, 30, 2248))

    def test_reshape(self) -> None:
        """A RAID 5 that was grown from four disks to five as far as row 160."""
        before, after = rows.striped(self.rnd, 5, 5, 160), rows.striped(self.rnd, 4, 5, NUMBER - 160)
        found, = told(before + rows.beside(after, [[bytes(rows.COLUMNS)]] * len(after)))
        assert found.reshape
        self.assertEqual((found.reshape.last, found.reshape.sector, sorted(found.reshape.before), sorted(found.reshape.after)),
                         (2207, 2208, [0, 1, 2, 3, 4], [0, 1, 2, 3]))
        self.assertEqual(found.reshape.line(), "parity changes for good between sectors 2207 and 2208: before, it matches 5 images; after, only 4, "
                                               "without image 4. A reshape may have stopped there. Or an older array of 4 disks follows what a "
                                               "newer array wrote. Or image 4 is no member, but holds data of members, such as a journal. Or "
                                               "nothing is stored on image 4 there, since it is zeros there")

        self.assertEqual(found.reshape.short(), "perhaps a reshape from 4 to 5 disks stopped between sectors 2207 and 2208, as reported above. Then "
                                                "no single layout gives the whole volume: the first array ends there, and the second begins. To "
                                                "search for the first: --members 5 --first 1130496. To search for the second: --members 4, without "
                                                "image 4. Their layouts may have no rating. If the array was growing, take the volume of the first "
                                                "array up to its sector (2208 - OFFSET) * DATA DISKS, rounded down to whole stripes. From there "
                                                "on take that of the second")
        self.assertIn("--members 5 --first 1048576.", dataclasses.replace(found.reshape, last=99).short())

    def test_older_array_behind_what_is_written(self) -> None:
        """The same is seen where an older array of four disks still stands behind what one of five wrote, so it is not called a reshape alone."""
        older = rows.beside(rows.striped(self.rnd, 4, 5, NUMBER - 160), rows.alone(self.rnd, NUMBER - 160))
        found, = told(rows.striped(self.rnd, 5, 5, 160) + older)
        assert found.reshape
        self.assertEqual((found.reshape.last, found.reshape.sector), (2207, 2208))
        self.assertIn("Or an older array of 4 disks follows what a newer array wrote", found.reshape.line())
        self.assertNotIn("zeros", found.reshape.line())

    def test_little_is_stored(self) -> None:
        """Where the last rows of a RAID 5 of three disks have data on one of them alone, parity is a copy of that, and the third is zeros."""
        made = rows.striped(self.rnd, 3, 5, 160)
        made += [[same, bytes(rows.COLUMNS), same] for same in (rows.sector(self.rnd) for _ in range(16))]
        found, = told(made)
        assert found.reshape
        self.assertEqual((found.reshape.last, found.reshape.sector, found.reshape.empty), (2207, 2208, True))
        self.assertIn("Or nothing is stored on image 1 there, since it is zeros there", found.reshape.line())

    def test_reshape_in_what_is_empty(self) -> None:
        """Where the rows around it are zeros, it lies somewhere between those that are not."""
        before, after = rows.striped(self.rnd, 5, 5, 160), rows.striped(self.rnd, 4, 5, NUMBER - 160)
        made = before[:150] + [[bytes(rows.COLUMNS)] * 5] * 40 + rows.beside(after, [[bytes(rows.COLUMNS)]] * len(after))[30:]
        found, = told(made)
        assert found.reshape
        self.assertEqual((found.reshape.last, found.reshape.sector), (2048 + 149, 2048 + 190))

    def test_no_reshape(self) -> None:
        """Neither an array of which an end is empty nor one with an old disk is a reshape."""
        made = rows.striped(self.rnd, 6, 6, NUMBER)
        for row in made[200:]:
            row[2] = rows.sector(self.rnd)
        self.assertIsNone(told(made)[0].reshape)
        self.assertIsNone(told(rows.striped(self.rnd, 4, 5, 200) + [[bytes(rows.COLUMNS)] * 4] * 200)[0].reshape)

    def test_copies(self) -> None:
        """The pairs of a RAID 10 are copies, and no RAID 5 of two disks."""
        made = []
        for _ in range(NUMBER):
            one, other = rows.sector(self.rnd), rows.sector(self.rnd)
            made.append([one, other, one, other])
        self.assertEqual([(it.images, it.level, it.copies) for it in told(made)], [((0, 2), "10", ((0, 2),)), ((1, 3), "10", ((1, 3),))])

    def test_copies_in_nearly_all_rows(self) -> None:
        """Two images are copies where nine in ten of the rows hold the same, and not where fewer do."""
        for same, copies in ((18, ((0, 1),)), (17, ())):
            made = []
            for number in range(20):
                one = rows.sector(self.rnd)
                made.append([one, one if number < same else rows.sector(self.rnd)])
            found = relations.read(rows.text(made), 1)
            self.assertEqual(image_groups.copies_of(found, frozenset((0, 1))), copies)

    def test_a_copy_of_one_disk(self) -> None:
        """A RAID 5 of four disks of which one was imaged twice is no array of copies."""
        made = [[*row, row[1]] for row in rows.striped(self.rnd, 4, 5, NUMBER)]
        found, = told(made)
        self.assertEqual(found.images, (0, 1, 2, 3, 4))
        self.assertNotEqual(found.level, image_groups.COPIES)

    def test_states_of_one_disk(self) -> None:
        """A disk that failed and the one that took its place hold the same in some rows. Copies hold it in all, those of RAID 10 on many pairs."""
        for same, states in ((100, (0, 1)), (24, None), (NUMBER, None)):
            made = []
            for number in range(NUMBER):
                one, last = rows.sector(self.rnd), rows.sector(self.rnd)
                made.append([one, one if number < same else rows.sector(self.rnd), last])
            found = relations.read(rows.text(made), 1)
            self.assertEqual(image_groups.states_of(found, frozenset(range(3))) if same < NUMBER else told(made)[0].states, states)
        turning = [[one, one, other, other] if number % 2 else [other, one, one, other] for number in range(NUMBER)
                   for one, other in [(rows.sector(self.rnd), rows.sector(self.rnd))]]
        self.assertIsNone(image_groups.states_of(relations.read(rows.text(turning), 1), frozenset(range(4))))

    def test_turning_copies(self) -> None:
        """Copies of a RAID 10 of five disks, of which each row has other pairs, are no RAID 5."""
        made = []
        for number in range(NUMBER):
            one, other, last = (rows.sector(self.rnd) for _ in range(3))
            made.append([one, one, other, other, last] if number // 8 % 2 else [last, one, one, other, other])
        found, = told(made)
        self.assertEqual((found.images, found.level, found.copies, found.lost), ((0, 1, 2, 3, 4), "10", (), None))


class Among(unittest.TestCase):
    """The ties of some images that follow from those of a row."""

    def among(self, line: str, *images: int) -> list[tuple[int, tuple[tuple[int, int], ...]]]:
        """The ties of these images."""
        found = image_groups.ties_among(relations.read(f"rows 0 0 zero - tied {line}\n", 1).rows[0], frozenset(images))
        return [(tie.image, tie.weights) for tie in found]

    def test_within(self) -> None:
        """A tie of these images alone stands; one that holds another image tells nothing of them."""
        self.assertEqual(self.among("2=1*0+1*1 4=1*0+1*3", 0, 1, 2), [(2, ((0, 1), (1, 1)))])
        self.assertEqual(self.among("4=1*0+1*3", 0, 1, 4), [])

    def test_another_image_that_is_the_same(self) -> None:
        """Image 1 belongs to another array and holds what 2 holds, or a third of it (244 is the inverse of 3): 4 is still the sum of 0 and 2."""
        self.assertEqual(self.among("2=1*1 4=1*0+1*1", 0, 2, 4), [(4, ((0, 1), (2, 1)))])
        self.assertEqual(self.among("2=3*1 4=1*0+1*1", 0, 2, 4), [(4, ((0, 1), (2, 244)))])
        self.assertEqual(self.among("2=1*1 4=1*0+1*1 5=1*0", 0, 2, 4, 5), [(4, ((0, 1), (2, 1))), (5, ((0, 1),))])
        self.assertEqual(self.among("2=1*1 4=1*1", 0, 2, 4), [(4, ((2, 1),))])

    def test_two_others(self) -> None:
        """Of three ties that hold two other images one is left, of two none."""
        self.assertEqual(self.among("3=1*0+1*1 4=1*0+2*1", 3, 4), [])
        # 3 + 4 = 3b, so b = 244*3 + 244*4, and a = 3 + b; 5 is 2 and a.
        self.assertEqual(self.among("3=1*0+1*1 4=1*0+2*1 5=1*0+1*2", 2, 3, 4, 5), [(5, ((2, 1), (3, 245), (4, 244)))])
        self.assertEqual(self.among("3=1*0+1*1 4=1*0+2*1 6=1*0", 3, 4, 6), [(6, ((3, 245), (4, 244)))])


class Chunks(unittest.TestCase):
    """How long a chunk is, by where ties change."""

    def test_level_6(self) -> None:
        """The places of P and Q turn at each border, at level 6 with none and with one lost."""
        for lost in (0, 1):
            made = rows.striped(random.Random(3), 6, 6, 320, chunk=32)
            made = rows.without(made, 2) if lost else made
            for step in (1, 8):
                with self.subTest(lost=lost, step=step):
                    found = relations.read(rows.text(made[::step], 2048 + 16, step), step)
                    self.assertEqual(image_groups.chunk_of(found, range(6 - lost)), (32, 16))

    def test_borders_at_few_places(self) -> None:
        """Changes that lie at all places, and at each of them in few rows, as an image makes that is of the array here and there, tell no chunk."""
        made = rows.striped(random.Random(3), 6, 6, 2048, chunk=512)
        for first in range(24, 2048, 56):
            made[first:first + 8] = rows.striped(random.Random(first), 6, 6, 8, chunk=8)
        found = relations.read(rows.text(made[::8], 2048, 8), 8)
        self.assertGreater(len(list(image_groups.borders(found, frozenset(range(6))))), 20)
        self.assertIsNone(image_groups.chunk_of(found, range(6)))

    def test_level_5(self) -> None:
        """At level 5 the ties are the same in all rows."""
        found = relations.read(rows.text(rows.striped(random.Random(3), 5, 5, 320)), 1)
        self.assertIsNone(image_groups.chunk_of(found, range(5)))


if __name__ == "__main__":
    unittest.main()
