"""What is asked of `reraid relations`, and what is gathered of its answers; the program is stood in for by `rows`."""

import dataclasses
import os
import random
import tempfile
import unittest
from collections.abc import Mapping, Sequence
from unittest import mock

from reraid_try.calls.commands import Answer, Words
from reraid_try.evidence import ties, unlike
from reraid_try.evidence.image_groups import ImageGroup
from reraid_try.evidence.images import Image
from reraid_try.evidence.shifts import Distances, Shift
from reraid_try.evidence.ties import Ties

from . import rows

ZERO = bytes(rows.COLUMNS)


class Standin:
    """Answers `reraid relations` over images that are lists of sectors, by their names; it keeps what it was asked."""

    def __init__(self, images: Mapping[str, Sequence[bytes]], answer: Answer | None = None) -> None:
        self.images, self.answer = images, answer
        self.asked: list[list[str]] = []

    def run(self, words: Words, text: str | None = None, seconds: float | None = None) -> Answer:
        """The relations of the images that are named."""
        told = [str(word) for word in words]
        self.asked.append(told)
        if self.answer:
            return self.answer
        operands = dict(word.split("=", 1) for word in told[2:told.index("--")])
        images = [self.images[name] for name in told[told.index("--") + 1:]]
        offsets = [int(it) for it in operands["offsets"].split("+")] if "offsets" in operands else [0] * len(images)
        places = range(int(operands["from"]), int(operands["end"]), int(operands["step"]))
        made = [[image[place + offset] for image, offset in zip(images, offsets)] for place in places]
        return Answer(0, rows.text(made, places.start, places.step).encode()) if made else Answer(0, b"")

    def shell(self, pipeline: Sequence[Words], text: str | None = None, seconds: float | None = None) -> Answer:
        """Nothing is asked so."""
        raise NotImplementedError

    def tell(self, line: str) -> None:
        """Nothing is shown."""

    def note(self, line: str, status: int | None = 0, seconds: float = 0) -> None:
        """Nothing is kept."""


def disks(made: Sequence[rows.Row], before: int = 0) -> tuple[Standin, list[Image]]:
    """The images of some rows, which begin behind so many sectors of zeros."""
    columns = {f"{number}.img": [ZERO] * before + [row[number] for row in made] for number in range(len(made[0]))}
    return Standin(columns), [Image(name, number, len(columns[name]), first=before) for number, name in enumerate(columns)]


class Told(unittest.TestCase):
    """What is gathered of some images."""

    def test_level_6_lost(self) -> None:
        """A RAID 6 that lacks a disk, from sector 24 on, beside a foreign disk: level, members, beginning and chunk."""
        rnd = random.Random(2)
        made = rows.beside(rows.without(rows.striped(rnd, 6, 6, 600, chunk=16), 1), rows.alone(rnd, 600))
        runner, images = disks(made, 24)
        told = Ties(runner, images, 9).told(range(6), 0, 624)
        self.assertEqual((told.asked, told.alone, len(told.known)), (True, (5,), 1))
        known = told.known[0]
        self.assertEqual((known.group.images, known.group.level, known.group.lost, known.group.members), ((0, 1, 2, 3, 4), "6", 1, 6))
        self.assertEqual((known.begin, known.chunk), (24, 16))
        line = "images 0, 1, 2, 3, 4: parity matches RAID 6, 6 disks, 1 missing, chunks of 8 KiB, first match at sector 24"
        self.assertEqual(ties.lines(told), [line, "image 5: matches nothing. No member, zeros, too old or damaged to tell, or from an array that "
                                                  "misses as many disks as its level tolerates"])

    def test_some_images(self) -> None:
        """Of some images of a heap the numbers are those that they have among all."""
        rnd = random.Random(4)
        runner, images = disks(rows.beside(rows.alone(rnd, 300), rows.striped(rnd, 3, 5, 300)))
        told = Ties(runner, images, 9).told((1, 2, 3), 0, 300)
        self.assertEqual([it.group.images for it in told.known], [(1, 2, 3)])
        self.assertEqual(runner.asked[0], ["reraid", "relations", "from=0", "end=300", "step=1", "--", "1.img", "2.img", "3.img"])

    def test_step(self) -> None:
        """No more rows are asked for than `MAX_ROWS`."""
        runner, images = disks([[ZERO, ZERO]])
        runner.answer = Answer(0, b"alone 0,1\nfree 0 of 0\n")
        Ties(runner, images, 9).told((0, 1), 100, 100 + 10 * ties.MAX_ROWS + 1)
        self.assertIn("step=11", runner.asked[0])

    def test_rows_are_read_once(self) -> None:
        """What was asked of the same images and rows is kept; other rows are asked for."""
        runner, images = disks([[ZERO, ZERO]])
        runner.answer = Answer(0, b"alone 0,1\nfree 0 of 0\n")
        asked = Ties(runner, images, 9)
        self.assertIs(asked.told((0, 1), 0, 300), asked.told([0, 1], 0, 300))
        asked.told((0, 1), 0, 299)
        self.assertEqual(len(runner.asked), 2)

    def test_no_relations(self) -> None:
        """A program whose time is up, one that failed, and an answer that is none tell nothing."""
        for answer in (Answer(None), Answer(11, b"", "reraid: image read fault"), Answer(0, b"something else\n")):
            with self.subTest(answer=answer):
                runner, images = disks([[ZERO, ZERO]])
                runner.answer = answer
                self.assertEqual(Ties(runner, images, 9).told((0, 1), 0, 1), ties.Told())

    def test_no_command(self) -> None:
        """A program that does not know the command is asked once, and the images are read here."""
        rnd = random.Random(11)
        with tempfile.TemporaryDirectory() as folder:
            data = [[rnd.randbytes(512) for _ in range(40)] for _ in range(2)]
            data.append([bytes(one ^ other for one, other in zip(*sectors)) for sectors in zip(*data)])
            images = []
            for number, sectors in enumerate(data):
                images.append(Image(os.path.join(folder, str(number)), number, 40))
                with open(images[-1].name, "wb") as file:
                    file.write(b"".join(sectors))
            runner, _ = disks([[ZERO]])
            runner.answer = Answer(1, b"", "reraid: word 1 is not understood")
            told = Ties(runner, images, 9).told((0, 1, 2), 0, 40)
        self.assertEqual([(it.group.images, it.group.level, it.group.lost, it.begin) for it in told.known], [((0, 1, 2), "5", 0, 0)])
        self.assertEqual(len(runner.asked), 1)

    def test_old_and_loose(self) -> None:
        """An old disk of a RAID 6 is named; rows of a RAID 5 in which nothing is tied are counted."""
        rnd = random.Random(6)
        made = rows.striped(rnd, 5, 6, 400)
        for row in made[100:]:
            row[3] = rows.sector(rnd)
        runner, images = disks(made)
        said = ties.lines(Ties(runner, images, 9).told(range(5), 0, 400))
        self.assertIn("RAID 6, 5 disks, 1 missing, counting one that is old, damaged or from another array", said[0])
        self.assertEqual(said[1][:67], "image 3 is old or damaged from sector 100 on, or from another array")
        made = rows.striped(rnd, 4, 5, 400)
        for row in made[50:60]:
            row[0] = rows.sector(rnd)
        runner, images = disks(made)
        said = ties.lines(Ties(runner, images, 9).told(range(4), 0, 400))
        self.assertIn("parity matches nothing in 10 rows of those sampled, the first at sector 50. Possible causes: bad areas, an old or half "
                      "rebuilt disk, parity that was never written", said[1])

    def test_since_when_a_disk_is_old(self) -> None:
        """Where rows are looked at that lie far apart, those before the first in which it is old say from which row on it is, of images that are
        moved too; a row with zeros tells nothing."""
        rnd = random.Random(13)
        made = rows.striped(rnd, 5, 6, 3000)
        for row in made[1207:]:
            row[3] = rows.sector(rnd)
        empty = [rows.sector(rnd), ZERO, ZERO, rows.sector(rnd), ZERO]
        made[1206] = [*empty[:4], empty[0]]
        runner, images = disks(made)
        for offsets, since in (((), 1207), ((8, 8, 8, 8, 8), 1199)):
            with mock.patch.object(ties, "MAX_ROWS", 100):
                known, = Ties(runner, images, 9).told(range(5), 0, 2900, offsets).known
            self.assertEqual([(it.image, it.first) for it in known.group.old], [(3, since)])
        runner.answer = Answer(None)
        self.assertEqual(Ties(runner, images, 9).since(known.group.old[0], known.group, 0, {}), known.group.old[0])

    def test_reshape(self) -> None:
        """Where rows are looked at that lie far apart, those between them say where a reshape stopped."""
        rnd = random.Random(12)
        before, after = rows.striped(rnd, 5, 5, 3001), rows.striped(rnd, 4, 5, 6000)
        runner, images = disks(before + rows.beside(after, [[ZERO]] * len(after)))
        with mock.patch.object(ties, "MAX_ROWS", 100):
            known, = Ties(runner, images, 9).told(range(5), 0, 9001).known
        assert known.group.reshape
        self.assertEqual((known.group.reshape.last, known.group.reshape.sector), (3000, 3001))

    def said(self, *known: ImageGroup, alone: tuple[int, ...] = ()) -> list[str]:
        """What is said of groups, and of images that nothing ties."""
        return ties.lines(ties.Told(tuple(map(ties.Known, known)), alone, True))

    def test_a_half_rebuilt_disk(self) -> None:
        """A disk that is zeros in some rows is old at level 6, since the others have a tie less there; at level 5 these rows are not tied. Zeros that
        are data leave all ties."""
        for level, members in ((6, 5), (5, 4)):
            rnd = random.Random(9)
            made = rows.striped(rnd, members, level, 400)
            for row in made[200:300]:
                row[1] = bytes(len(row[1]))
            runner, images = disks(made)
            group = Ties(runner, images, 9).told(range(members), 0, 400).known[0].group
            self.assertEqual([(it.image, it.rows, it.first) for it in group.old], [(1, 100, 200)] if level == 6 else [])
            self.assertEqual((group.loose, group.loose_first), (0, None) if level == 6 else (100, 200))
            line = ties.lost_line(group)
            self.assertIn("counting one that is old" if level == 6 else ", but not in all rows", line)
        runner, images = disks(rows.striped(random.Random(9), 5, 6, 400, sparse=0.3))
        group = Ties(runner, images, 9).told(range(5), 0, 400).known[0].group
        self.assertEqual((group.old, group.loose), ((), 0))

    def test_twins(self) -> None:
        """An image that is tied to its twin alone, which is not asked, is not tied to nothing."""
        told = ties.Told((ties.Known(ImageGroup((0, 2), 90, 0, 99, "10", 0, copies=((0, 2),))),), (1, 3), True)
        self.assertEqual(ties.lines(told, {1: 4})[1:], ["image 1: matches only image 4, which holds the same data",
                                                        "image 3: matches nothing. Its copy is missing, or it is no member, zeros or damaged"])
        self.assertEqual(ties.lines(told, {1: 4, 3: 5})[1:], ["image 1: matches only image 4, which holds the same data",
                                                              "image 3: matches only image 5, which holds the same data"])
        self.assertEqual(ties.lines(ties.Told((), (1,), True), {1: 4}), [])

    def test_parts_of_a_nested_array(self) -> None:
        """Two arrays of one level with as many disks each may be one RAID 50; so may one, beside as many images as another has left."""
        five, other = ImageGroup((0, 2, 4), 500, 8, 900, "5", 1), ImageGroup((1, 3), 500, 8, 900, "5", 0)
        six = ImageGroup((5, 6, 7), 500, 8, 900, "6", 1)
        whole = dataclasses.replace(other, images=(1, 3, 8), parity=1)
        self.assertEqual(self.said(five, whole)[2:], ["images 0, 2, 4 and images 1, 3, 8: 2 arrays of RAID 5 with 3 disks each. Each stands by "
                                                      "itself, or they are the parts of one RAID 50, which is not searched (docs/RECIPES.md tells "
                                                      "how to join them)"])
        self.assertEqual(len(self.said(five, six)), 2)
        lost = "matches nothing. No member, zeros, too old or damaged to tell, or from an array that misses as many disks as its level tolerates"
        self.assertEqual(self.said(five, alone=(1, 3))[1:], [f"images 1, 3: {lost}, such as the other part of a RAID 50 with images 0, 2, 4"])
        self.assertEqual(self.said(five, alone=(1,))[1:], [f"image 1: {lost}"])
        self.assertEqual(self.said(six, alone=(1, 3))[1:], [f"images 1, 3: {lost}, such as the other part of a RAID 60 with images 5, 6, 7"])
        self.assertEqual(self.said(six, alone=(1, 3, 4))[1:], [f"images 1, 3, 4: {lost}"])

    def test_level_6_or_5(self) -> None:
        """Few ties with weights besides 1 are of level 6 with two disks lost, or of level 5 with one: both are said."""
        few = ImageGroup((0, 1, 2), 40, 8, 900, "6", 0)
        self.assertEqual(self.said(few), ["images 0, 1, 2: RAID 6 with 2 of 5 disks missing, or RAID 5 with 1 of 4. Parity matches in only 40 rows "
                                          "of those "
                                          "sampled, perhaps because the missing disks hold zeros in these"])
        self.assertEqual(self.said(dataclasses.replace(few, level="5")), ["images 0, 1, 2: parity matches RAID 5, 4 disks, 1 missing"])
        self.assertEqual(self.said(dataclasses.replace(few, parity=1)), ["images 0, 1, 2: parity matches RAID 6, 4 disks, 1 missing"])

    def test_copies(self) -> None:
        """Copies are said, and that a copy is lost."""
        rnd = random.Random(8)
        made = [[one, one, other] for one, other in ((rows.sector(rnd), rows.sector(rnd)) for _ in range(100))]
        runner, images = disks(made)
        self.assertEqual(ties.lines(Ties(runner, images, 9).told(range(3), 0, 100)),
                         ["images 0 and 1 hold the same data", "image 2: matches nothing. Its copy is missing, or it is no member, zeros or damaged"])


class UnlikeOffsets(unittest.TestCase):
    """Offsets that differ, by distances and by what ties the images then."""

    starts = (16, 16, 64, 32)

    def array(self, made: list[rows.Row], first: Sequence[int] = (16, 16, 3, 5), before: int = 0) -> tuple[Ties, list[Image]]:
        """Four disks with these rows, which two of them have from sector 16 on, one from 64 and one from 32, where other volumes come before that
        begin alike. So many rows of zeros come before the others."""
        rnd, same = random.Random(5), rows.sector(random.Random(6))
        columns = {}
        for number, start in enumerate(self.starts):
            other = [same] * (first[number] < start) + [rows.sector(rnd) for _ in range(first[number] + 1, start)]
            columns[f"{number}.img"] = [ZERO] * first[number] + other + [ZERO] * before + [row[number] for row in made]
        longest = max(map(len, columns.values()))
        columns = {name: (column + [ZERO] * longest)[:longest] for name, column in columns.items()}
        images = [Image(name, number, longest, first=first[number]) for number, name in enumerate(columns)]
        return Ties(Standin(columns), images, 90), images

    def offsets(self, it: tuple[Ties, list[Image]], *told: Shift, weaker: Sequence[Shift] = (), named: Mapping[int, Sequence[int]] | None = None) \
            -> list[tuple[int, ...]]:
        """The offsets that are found by these distances, or by what a text names."""
        ties_of, images = it
        found = unlike.look(ties_of, images, Distances(tuple(told), tuple(weaker)), images[0].sectors, named or {})
        self.known = found[0].known if found else None
        return [one.offsets for one in found]

    def test_found(self) -> None:
        """Distances tell of two pairs, and where images begin to hold something how far these are apart."""
        it = self.array(rows.striped(random.Random(9), 4, 5, 400))
        self.assertEqual(self.offsets(it, Shift(0, 2, 48, 40), Shift(1, 3, 16, 30)), [self.starts, (0, 0, 48, 16)])
        assert self.known
        self.assertEqual((self.known.group.level, self.known.group.parity, self.known.begin), ("5", 1, 0))
        self.assertEqual(unlike.Unlike(self.starts, self.known).line(),
                         "the data begin at different sectors of the images; parity matches at these: 16, 16, 64, 32")

    def test_other_volumes_before_each(self) -> None:
        """Where an image begins to hold something tells nothing where other volumes come before: parity tells where the data begin."""
        it = self.array(rows.striped(random.Random(9), 4, 5, 400), (3, 3, 3, 3))
        ring = Shift(0, 2, 48, 40), Shift(2, 3, -32, 30), Shift(1, 3, 16, 9)
        self.assertEqual(self.offsets(it, *ring)[0], self.starts)
        # Another distance, which chance made, does not agree.
        self.assertEqual(self.offsets(it, *ring, Shift(0, 1, 8, 8))[0], self.starts)
        # Image 3 is reached by a weaker distance alone, or begins as far on as another image, which it does not; or a text says where.
        self.assertEqual(self.offsets(it, *ring[:1], Shift(0, 1, 0, 9), weaker=[Shift(0, 3, 24, 5), Shift(3, 1, -16, 4)])[0], self.starts)
        self.assertEqual(self.offsets(it, *ring[:1], Shift(0, 1, 0, 9)), [])
        self.assertEqual(self.offsets(it, *ring[:1], Shift(0, 1, 0, 9), named={0: (8, 16), 3: (3, 32)})[0], self.starts)
        self.assertEqual(self.offsets(it, named=dict(enumerate(zip(self.starts, (3, 3, 3, 3)))))[0], self.starts)

    def test_where_they_begin(self) -> None:
        """Rows of zeros come first: where images begin to hold something, or a text names of most, or by what data usually begin at."""
        it = self.array(rows.striped(random.Random(9), 4, 5, 400), before=24)
        ring = Shift(0, 2, 48, 40), Shift(2, 3, -32, 30), Shift(1, 3, 16, 9)
        self.assertEqual(self.offsets(it, *ring), [(40, 40, 88, 56), self.starts, (0, 0, 48, 16)])
        self.assertEqual(self.offsets(it, *ring, named={0: (8, 16), 1: (16, 24), 2: (8, 64)}), [self.starts, (40, 40, 88, 56), (0, 0, 48, 16)])
        images = it[1]
        self.assertEqual(unlike.beginnings(images, (0, 0, 48, 16), 4099, {}), [4096, 16, 2048])
        self.assertEqual(unlike.beginnings(images, (0, 0, 48, 16), 10251, {0: (16,)}), [16, 10248, 10240])

    def test_same_beginning(self) -> None:
        """Image 3 begins where another one does, which nothing shows but parity."""
        made = rows.striped(random.Random(9), 4, 5, 400)
        runner, images = disks(made)
        columns = {name: [ZERO] * (24 * (number % 2)) + [row[number] for row in made] + [ZERO] * 24 for number, name in enumerate(runner.images)}
        images = [Image(name, number, 424, first=2) for number, name in enumerate(columns)]
        self.assertEqual(self.offsets((Ties(Standin(columns), images, 90), images), Shift(0, 1, 24, 40), Shift(0, 2, 0, 30)), [(0, 24, 0, 24)])

    def lost(self) -> tuple[Ties, list[Image]]:
        """The disks of a level 5 that lacks one, most rows of which are full."""
        return self.array(rows.without(rows.striped(random.Random(3), 5, 5, 400, sparse=0.45), 4))

    def test_a_disk_is_lost(self) -> None:
        """Few rows are tied: that is believed where distances agree that might not, and not else."""
        it, ring = self.lost(), (Shift(0, 2, 48, 40), Shift(2, 3, -32, 30), Shift(1, 3, 16, 9), Shift(0, 1, 0, 9))
        self.assertEqual(self.offsets(it, *ring[:3]), [])
        found = self.offsets(it, *ring)
        assert self.known
        self.assertEqual((found[0], self.known.group.parity, self.known.group.lost), (self.starts, 0, 1))

    def test_time(self) -> None:
        """No way is asked about where the sixth part of a step's time is up."""
        it = self.array(rows.striped(random.Random(9), 4, 5, 400))
        it[0].seconds = -1
        self.assertEqual(self.offsets(it, Shift(0, 2, 48, 40), Shift(1, 3, 16, 30)), [])

    def test_ways(self) -> None:
        """That all begin at one sector is no way; without distances where images begin to hold something tells."""
        images = [Image(f"{number}.img", number, 464, first=first) for number, first in enumerate((16, 16, 70))]
        self.assertEqual(unlike.ways(images[:2], Distances(), {}), [])
        self.assertEqual(unlike.ways(images, Distances(weaker=(Shift(0, 2, 8, 9),)), {}), [(0, 0, 48)])
        self.assertEqual(unlike.ways(images[:2], Distances((Shift(0, 1, 8, 40),)), {}), [(0, 8)])
        # The likely ones of each part come first, and no more than so many ways.
        self.assertEqual(list(unlike.chosen([[1, 2], [3, 4, 5]], 1)), [(1, 4), (2, 3)])
        self.assertEqual(list(unlike.chosen([[1, 2], [3, 4, 5]], 3)), [(2, 5)])
        many = [Image(f"{number}.img", number, 464, first=8 * number) for number in range(9)]
        self.assertEqual(len(unlike.ways(many, Distances((Shift(0, 1, 8, 40),)), {})), unlike.MAX_WAYS)

    def test_images_of_a_partition_alone(self) -> None:
        """How far their data lie from those of whole disks is known. Parity tells where they begin, or else where images begin to hold something."""
        made, images = self.array(rows.striped(random.Random(9), 4, 5, 400))
        way = tuple(start - min(self.starts) for start in self.starts)
        first, *_ = unlike.moved(made, images, way, images[0].sectors)
        self.assertEqual((first.offsets, first.known.group.parity), (self.starts, 1))
        self.assertEqual(unlike.moved(made, images, (0, 8, 0, 0), images[0].sectors), [])
        some = [Image(f"{number}.img", number, 9000, first=first) for number, first in enumerate((2064, 16))]
        self.assertEqual(unlike.silent(some, (2048, 0)), [(2064, 16), (4096, 2048), (2048, 0)])
        self.assertEqual(unlike.silent([dataclasses.replace(it, sectors=4000) for it in some], (2048, 0)), [(2064, 16), (2048, 0)])

    def test_guessed(self) -> None:
        """Distances that agree say the offsets, with the beginning that an image tells; not where they say nothing of one image or one number."""
        images = [Image(f"{number}.img", number, 464, first=first) for number, first in enumerate((16, 3, 70))]
        self.assertEqual(unlike.guessed(images, [Shift(0, 1, 8, 40), Shift(1, 2, 8, 30)]), (48, 56, 64))
        self.assertEqual(unlike.guessed(images, [Shift(0, 1, 80, 40), Shift(1, 2, 80, 30)]), (16, 96, 176))
        self.assertEqual(unlike.guessed(images, [Shift(0, 1, 8, 40)]), ())
        self.assertEqual(unlike.guessed(images, [Shift(0, 1, 0, 40), Shift(1, 2, 0, 30)]), ())
        self.assertEqual(unlike.guessed(images, []), ())

    def test_none(self) -> None:
        """Where nothing ties the images at unlike offsets either, none are told."""
        rnd = random.Random(10)
        runner, images = disks([[rows.sector(rnd) for _ in range(3)] for _ in range(300)])
        self.assertEqual(self.offsets((Ties(runner, images, 9), images), Shift(0, 1, 8, 40)), [])


if __name__ == "__main__":
    unittest.main()
