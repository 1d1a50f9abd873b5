"""Texts that stand in images in place of what could not be read: which sectors are such, what ties say of them, and what is told."""

import dataclasses
import io
import os
import random
from collections.abc import Iterable, Sequence
from typing import Any, cast
from unittest import mock

from reraid_try.calls.commands import Answer
from reraid_try.evidence import fills, texts
from reraid_try.evidence.image_groups import ImageGroup, Old
from reraid_try.evidence.fills import Fill, Why
from reraid_try.evidence.images import Image, unread_by
from reraid_try.evidence.maps import Map
from reraid_try.evidence.relations import Relations, Rows, Tie
from reraid_try.evidence.texts import Held, Text
from reraid_try.evidence.ties import Known, Ties, Told
from reraid_try.units import SECTOR
from tests.standin import InFolder, Standin

BAD = b"BAD SECTOR "
ROWS = 200


def full(text: bytes) -> bytes:
    """A sector of a text over and over."""
    return (text * SECTOR)[:SECTOR]


def once(text: bytes) -> bytes:
    """A sector of a text before zeros."""
    return text.ljust(SECTOR, b"\0")


def held(*sectors: tuple[int, bytes]) -> Held:
    """What holds these texts at these sectors."""
    it = Held(Text(sectors[0][1]), Text(sectors[0][1]))
    for sector, text in sectors:
        it.add(sector, Text(text))
    return it


class Texts(InFolder):
    def test_sectors(self) -> None:
        for sector, text in ((full(BAD), Text(BAD)), (full(b"\xde\xad\xbe\xef"), Text(b"\xde\xad\xbe\xef")), (full(b"ab"), Text(b"ab")),
                             (once(b"UNREADABLE 12"), Text(b"UNREADABLE 12", False)), (once(b"DEAD"), Text(b"DEAD", False)),
                             (full(b"AAAAAAAAAAAAAAAAB"), Text(b"AAAAAAAAAAAAAAAAB")), (full(b"x" * 63 + b"y"), Text(b"x" * 63 + b"y")),
                             (full(b"\0\0\0\1"), Text(b"\0\0\0\1")), (once(b"a" * 60 + b"bcde"), Text(b"a" * 60 + b"bcde", False))):
            self.assertEqual(texts.text_of(sector), text, text)
        for sector in (bytes(SECTOR), full(b"\xff"), full(b"x" * 64 + b"y"), full(BAD)[:-1] + b"!", os.urandom(SECTOR), once(b"BAD"),
                       once(b"\x01\x02\x03\x04abc"), once(b"12 34 56"), once(b"a" * 65 + b"b"), once(b"\xfe" * 20)):
            self.assertIsNone(texts.text_of(sector), sector[:70])

    def test_some_sectors_of_a_block(self) -> None:
        block = b"".join(full(BAD) if place in (8, 9, 24) else os.urandom(SECTOR) for place in range(32))
        self.assertEqual(list(texts.texts(block)), [Text(BAD)] * 2)
        self.assertEqual(list(texts.texts(once(b"BAD SECTOR") + bytes(8 * SECTOR))), [Text(b"BAD SECTOR", False)])
        self.assertEqual(list(texts.texts(full(BAD)[:100])), [])

    def test_all_sectors_that_are_like_a_text(self) -> None:
        block = full(BAD)[:SECTOR - 1] + b"!" + full(BAD) * 3 + bytes(SECTOR) + full(BAD[4:] + BAD[:4]) + once(BAD) + full(BAD)[:100]
        wanted = Text(BAD).like
        self.assertEqual([place for place, _ in texts.like(block, wanted)], [1, 2, 3, 5])
        numbered = b"".join(full(b"LBA %04X " % number) for number in (9, 10, 10, 11)) + full(b"LBA nnnn ")
        self.assertEqual([(place, text.number) for place, text in texts.like(numbered, Text(b"LBA 0001 ").like)],
                         [(0, b"0009"), (1, b"000A"), (2, b"000A"), (3, b"000B")])

    def test_what_is_like(self) -> None:
        self.assertEqual(Text(b"bcda").like, Text(b"abcd").like)
        self.assertNotEqual(Text(b"bcda", False).like, Text(b"abcd", False).like)
        self.assertNotEqual(Text(b"abcd", False).like, Text(b"abcd").like)
        self.assertEqual((Text(b"SECTOR 12 ").like, Text(b"SECTOR 9A0 ").like), (Text(b"SECTOR 0 "),) * 2)
        self.assertEqual([Text(it).number for it in (b"SECTOR 12 ", b"BAD ", b"0123456789", b"\xff12", b"BAD 0x0A 7")], [b"12", b"", b"", b"", b"0"])
        self.assertEqual([Text(it).needle for it in (b"LBA 12 bad block ", b"0123", b"\xde\xad")], [b" bad block ", b"0123", b"\xde\xad"])

    def test_numbers_that_count(self) -> None:
        def follows(one: bytes, other: bytes) -> bool:
            return Text(b"at " + other).follows(Text(b"at " + one))
        for pair in ((b"9", b"10"), (b"09", b"0A"), (b"7", b"7"), (b"1024", b"1536"), (b"0FFF", b"1000"), (b"200", b"400")):
            self.assertTrue(follows(*pair), pair)
        for pair in ((b"10", b"9"), (b"5", b"7"), (b"1536", b"1024"), (b"9", b"F1")):
            self.assertFalse(follows(*pair), pair)
        self.assertFalse(Text(BAD).follows(Text(BAD)))

    def test_runs(self) -> None:
        it = held((5, BAD), (6, BAD), (9, BAD))
        self.assertEqual((it.runs, it.sectors, it.varies, it.is_one), ([(5, 7), (9, 10)], 3, False, True))
        self.assertEqual([held(*((sector, b"S %d" % (number)) for sector, number in enumerate(numbers))).is_one
                          for numbers in ([4, 5, 6], [4, 9, 2], [4, 4, 4], [4, 5, 4], [*range(11), 50], [*range(9), 50])],
                         [True, False, True, False, True, False])
        self.assertFalse(held((1, b"S 1"), (3, b"S 3")).is_one)
        self.assertEqual(it.joined(held((1, BAD), (7, BAD))).runs, [(1, 2), (5, 7), (7, 8), (9, 10)])

    def test_the_map(self) -> None:
        it = held((0, BAD), (1, BAD), (9, BAD))
        self.assertEqual(it.gaps(12).gaps(12), [range(0, 2), range(9, 10)])
        self.assertEqual(it.gaps(12).text, "0 +\n0 1024 -\n1024 3584 +\n4608 512 -\n5120 1024 +\n")
        self.assertEqual((it.gaps(10).gaps(10), it.gaps(10).unread(10)), ([range(0, 2), range(9, 10)], 3 + 2))

    def test_what_is_outside_of_gaps(self) -> None:
        gaps = [range(5, 10), range(20, 22)]
        for run, left in (((0, 5), [(0, 5)]), ((0, 6), [(0, 5)]), ((5, 10), []), ((6, 9), []), ((9, 21), [(10, 20)]), ((10, 20), [(10, 20)]),
                          ((4, 30), [(4, 5), (10, 20), (22, 30)]), ((30, 31), [(30, 31)])):
            self.assertEqual(list(texts.outside([run], gaps)), left, run)

    def test_where_it_is_looked(self) -> None:
        with mock.patch.multiple(texts, FIRST_BYTES=1000, SPREAD=4, BLOCK=100):
            self.assertEqual(texts.parts_of(700), [(0, 700)])
            self.assertEqual(texts.parts_of(1200), [(0, 1000), (1000, 1100), (1100, 1200)])
            self.assertEqual(texts.parts_of(2050), [(0, 1000), *((place, place + 100) for place in range(1000, 2000, 200)), (2000, 2050)])

    def test_what_is_seen(self) -> None:
        short = once(b"ref: master")
        blocks = {16: full(BAD), 17: full(BAD), 24: short, 25: short, 32: once(b"bad 1"), 33: once(b"bad 2"), 34: once(b"bad 3"), 40: full(b"ab")}
        file = io.BytesIO(b"".join(blocks.get(place, b"\1" + bytes(SECTOR - 1)) for place in range(48)))
        with mock.patch("reraid_try.evidence.reading.data_runs", lambda _, first, last: [(first, last)]):
            self.assertEqual([it.runs for it in texts.seen(file, 48 * SECTOR).sorted([])], [[(32, 35)], [(16, 18)]])
            self.assertEqual([it.runs for it in texts.seen(file, 48 * SECTOR).sorted([range(17, 20)])], [[(32, 35)]])
            file = io.BytesIO(bytes(8 * SECTOR) + short + bytes(7 * SECTOR) + short)
            self.assertEqual([it.runs for it in texts.seen(file, 17 * SECTOR).sorted([])], [[(8, 9), (16, 17)]])
            self.assertEqual(texts.all_like(file, 17 * SECTOR, []).found, {})
            self.assertEqual([it.runs for it in texts.all_like(file, 16 * SECTOR, [Text(b"ref: master", False)]).found.values()], [[(8, 9)]])

    def test_how_it_is_said(self) -> None:
        self.assertEqual([Text(b"BAD \n").quoted(), Text(b"\xde\xad", True).quoted(), Text(b"gone", False).quoted()],
                         ['"BAD \\n" over and over', "de ad over and over", '"gone" before zeros'])
        self.assertEqual([Text(it).has_words for it in (b"BAD", b"b4d ", b"BAD\xff", b"12 34")], [True, False, False, False])


def rows(*them: tuple[int, int, Iterable[int], Sequence[Sequence[int]]]) -> Relations:
    """Rows with these images zeros and these tied, from a first to a last one."""
    return Relations(1, tuple(Rows(first, last, frozenset(zero), tuple(Tie(it[0], tuple((image, 1) for image in it[1:])) for it in tied))
                              for first, last, zero, tied in them))


class Asked(InFolder):
    def test_rows_of_a_run(self) -> None:
        tied = frozenset({0, 1, 2})
        for found, why in ((None, Why.UNTOLD), (rows(), Why.UNTOLD), (rows((5, 7, (), ())), Why.UNREAD), (rows((5, 7, (), [[2, 0, 1]])), Why.STORED),
                           (rows((5, 7, (1,), [[2, 0]])), Why.STORED), (rows((5, 7, (), [[2, 0]])), Why.UNREAD),
                           (rows((5, 6, (), ()), (7, 8, (), [[2, 0, 1]])), Why.STORED), (rows((5, 7, (), ()), (8, 9, (), [[2, 0, 1]])), Why.UNREAD)):
            self.assertIs(fills.in_run(found, tied), why, found)

    def test_rows_beside_a_run(self) -> None:
        """Parity holds where all images of the group are tied, but for those that are zeros; two that hold the same by chance are not enough.
        Rows of zeros alone count from the first row of the group on."""
        group = ImageGroup((0, 1, 2), 100, 5, 99, "5", 1)
        for found, told in ((None, False), (rows((1, 1, (), [[2, 0, 1]]), (9, 9, (), ())), True), (rows((1, 1, (), [[2, 0]])), False),
                            (rows((1, 1, (1,), [[2, 0]])), True), (rows((1, 1, (0, 1, 2), ())), False), (rows((5, 5, (0, 1, 2), ())), True),
                            (rows((1, 1, (), ()), (9, 9, (), ())), False)):
            self.assertIs(fills.holds_beside(found, group), told, found)

    def test_which_rows_are_asked(self) -> None:
        asked: list[tuple[Sequence[int], int, int, int]] = []

        class Kept:
            """Ties that keep what is asked, and say that rows beside a run are tied, and those of a run are not."""

            def relations(self, numbers: Sequence[int], first: int, end: int, step: int) -> Relations:
                asked.append((numbers, first, end, step))
                return rows((first, first, (), [list(reversed(numbers))] if len(asked) % 2 == 0 else []))
        ties, group = cast(Any, Kept()), ImageGroup((0, 1, 2), 100, 0, 99, "5", 1)
        for run, first in (((5, 7), [(5, 7, 1), (4, 8, 3)]), ((0, 40), [(0, 40, 3), (40, 41, 41)]), ((90, 100), [(90, 100, 1), (89, 100, 11)])):
            asked.clear()
            self.assertIs(fills.of_run(ties, group, run, 100), Why.UNREAD)
            self.assertEqual(asked, [((0, 1, 2), *it) for it in first])
        for run in ((95, 101), (0, 100)):
            self.assertIs(fills.of_run(ties, group, run, 100), Why.UNTOLD)
        asked[:] = [([], 0, 0, 0)]
        self.assertIs(fills.of_run(ties, group, (5, 7), 100), Why.STORED)

    def test_a_run_beside_which_parity_fails(self) -> None:
        """Nothing tells that a text is an imaging program's if parity holds neither in it nor beside it."""
        class Loose:
            """Ties of images of which none are tied."""

            def relations(self, _numbers: Sequence[int], first: int, _end: int, _step: int) -> Relations:
                return rows((first, first, (), []))
        self.assertIs(fills.of_run(cast(Any, Loose()), ImageGroup((0, 1, 2), 100, 0, 99, "5", 1), (5, 7), 100), Why.UNTOLD)

    def test_which_image_groups_tell(self) -> None:
        """Parity tells of a group that has some to spare, and not of as many disks as are left when the level bears no more."""
        def group(level: str | None, parity: int, *images: int, old: tuple[int, ...] = ()) -> ImageGroup:
            return ImageGroup(images, 100, 0, 99, level, parity, tuple(Old(image, 9, 5) for image in old))
        known = [group("5", 1, 0, 1, 2), group("6", 0, 3, 4, 5), group("10", 0, 6, 7), group("5", 1, 8, 9),
                 group("6", 1, 10, 11, 12, 13, old=(13,))]
        found = fills.telling(Told(tuple(map(Known, known)), asked=True))
        self.assertEqual(found, [known[0], known[4]])
        self.assertEqual([fills.group_of(found, image) for image in (1, 3, 6, 8, 10, 13)],
                         [known[0], None, None, None, known[4], None])

    def test_places_of_a_text(self) -> None:
        images = [Image(name, number, 100) for number, name in enumerate("abc")]
        known = [ImageGroup((0, 1, 2), 100, 0, 99, "5", 1)]
        it = held(*((sector, BAD) for sector in range(1, 40, 2)))
        for told, why in ((["unread"] * 11 + ["stored"], Why.UNREAD), (["unread"] * 10 + ["stored"], Why.STORED), (["untold"], Why.UNTOLD),
                          (["untold", "unread"], Why.UNREAD), (["untold", "stored"], Why.STORED)):
            answers = iter([Why(word) for word in told])
            with mock.patch.object(fills, "of_run", lambda *_: next(answers)), mock.patch.object(fills, "MAX_PLACES", len(told)):
                here = held(*((2 * sector, BAD) for sector in range(len(told))))
                self.assertIs(fills.asked(cast(Ties, None), images, known, 0, here), why)
        with mock.patch.object(fills, "of_run", side_effect=[Why.UNREAD] * 7) as of_run:
            self.assertIs(fills.asked(cast(Ties, None), images, known, 0, it), Why.UNREAD)
        self.assertEqual([call.args[2][0] for call in of_run.call_args_list], list(range(1, 40, 6)))
        self.assertIs(fills.asked(cast(Ties, None), images, [], 0, it), Why.UNTOLD)

    def test_an_old_disk(self) -> None:
        """Parity that fails in far more rows than texts fill says nothing of these: it fails for an old disk."""
        image = Image("a.img", 0, 1000)
        found = [Fill(image, held(*((sector, BAD) for sector in range(80))), Why.UNREAD, 1000)]
        for loose, told in ((0, True), (20, True), (21, False)):
            self.assertIs(fills.explained(found, ImageGroup((0, 1, 2), 100, 0, 99, "5", 1, loose=loose), 10), told)

    def test_what_is_told(self) -> None:
        image = Image("a.img", 0, 1000)
        many = held(*((sector, BAD) for sector in range(8)))
        for it, alike, told in ((Fill(image, held((5, b"ab")), Why.UNREAD, 9), 3, True), (Fill(image, many, Why.STORED, 9), 1, False),
                                (Fill(image, many, Why.UNTOLD, 9), 1, True), (Fill(image, many, Why.UNTOLD, 9), 2, False),
                                (Fill(image, held(*((sector, BAD) for sector in range(7))), Why.UNTOLD, 9), 1, False),
                                (Fill(image, held(*((sector, b"\xde\xad") for sector in range(8))), Why.UNTOLD, 9), 1, False),
                                (Fill(image, dataclasses.replace(many, text=Text(BAD, False)), Why.UNTOLD, 9), 1, False),
                                (Fill(image, dataclasses.replace(many, text=Text(BAD, False), varies=True), Why.UNTOLD, 9), 1, True)):
            self.assertIs(fills.is_told(it, alike, 4), told, it)

    def test_lines(self) -> None:
        image = Image("a.img", 3, 1000)
        it = Fill(image, held((5, BAD), (6, BAD), (9, BAD)), Why.UNREAD, 900)
        seen = 'image 3 a.img holds "BAD SECTOR " over and over in 3 of the 900 sectors read, from sector 5 to 9, in 2 places'
        self.assertEqual(it.line(),
                         f"{seen}. Parity is consistent beside these sectors, and not in them. Probably an imaging program wrote the text in place "
                         f"of what it could not read. So these sectors count as unread, as if a mapfile listed them")
        mapped = dataclasses.replace(it, image=dataclasses.replace(image, map=Map("a.map", "", ())))
        self.assertTrue(mapped.line().endswith("what it could not read"))
        untold = dataclasses.replace(it, why=Why.UNTOLD)
        self.assertEqual(untold.line(),
                         f"{seen}. Either an imaging program wrote it in place of what it could not read, or it is stored data. Parity does not "
                         f"tell, so these sectors count as read. If an imaging program wrote it, write a mapfile and run again:\n    "
                         r"printf '0 +\n0 2560 +\n2560 1024 -\n3584 1024 +\n4608 512 -\n5120 506880 +\n' > a.img.map")
        many = dataclasses.replace(untold, held=held(*((2 * sector, BAD) for sector in range(200))))
        self.assertTrue(many.line().endswith("save the mapfile that --json prints in the event fill as a.img.map, and run again"))
        counting = Fill(image, held((5, b"S 5"), (6, b"S 6")), Why.UNREAD, 900)
        self.assertIn('"S 5" over and over, with a running number, in 2 of the 900 sectors read, from sector 5 to 6. Parity',
                      counting.line())
        self.assertEqual(it.fields(), {"image": 3, "holds": '"BAD SECTOR " over and over', "sectors": 3, "of": 900, "runs": [[5, 2], [9, 1]],
                                       "why": "unread", "map": it.held.gaps(1000).text})
        self.assertEqual([other.fields()["map"] for other in (mapped, untold)], [None, it.held.gaps(1000).text])

    def test_what_counts_as_unread(self) -> None:
        images = [Image("a", 0, 100), Image("b", 1, 100, map=Map("b.map", "", ())), Image("c", 2, 100)]
        found = [Fill(images[0], held((5, BAD)), Why.UNREAD, 9), Fill(images[0], held((2, b"ab")), Why.UNREAD, 9),
                 Fill(images[1], held((5, BAD)), Why.UNREAD, 9), Fill(images[2], held((5, BAD)), Why.UNTOLD, 9)]
        there = fills.counted_unread(images, found)
        self.assertEqual([it.unread.gaps(100) if it.unread else None for it in there], [[range(2, 3), range(5, 6)], [range(0, 100)], None])
        self.assertEqual([unread_by(there), unread_by(there[:1]), unread_by(there[1:]), unread_by(there[2:])],
                         ["the maps and the texts that count as unread", "the texts that count as unread", "the maps", "the maps"])


class Images(InFolder):
    """Three images of a RAID 5, of which a text stands in one, or in the volume."""

    def images(self, *changes: tuple[int, int, bytes], sums: bool = True) -> list[Image]:
        """The images, with these sectors changed: an image, a row and what stands there."""
        noise = random.Random(1)
        disks = [bytearray(noise.randbytes(ROWS * SECTOR)) for _ in range(2)]
        disks.append(bytearray(one ^ other for one, other in zip(*disks)) if sums else bytearray(noise.randbytes(ROWS * SECTOR)))
        for image, row, sector in changes:
            disks[image][row * SECTOR:(row + 1) * SECTOR] = sector
        return [Image(self.file(f"{number}.img", bytes(disk)), number, ROWS, first=0) for number, disk in enumerate(disks)]

    def told(self, images: Sequence[Image], first: int = ROWS * SECTOR) -> list[Fill]:
        """What is told of them."""
        return fills.told(Ties(Standin(("reraid relations", Answer(1))), images, 60), images, first)

    def test_in_one_image(self) -> None:
        changes = [(1, row, full(BAD)) for row in (*range(40, 56), *range(80, 88), 99)]
        found = self.told(self.images(*changes))
        self.assertEqual([(it.image.number, it.held.runs, it.why, it.looked_at) for it in found],
                         [(1, [(40, 56), (80, 88), (99, 100)], Why.UNREAD, ROWS)])
        self.assertEqual([it.held.runs for it in self.told(self.images(*changes), 85 * SECTOR)], [[(40, 56), (80, 85)]])

    def test_in_two_images(self) -> None:
        changes = [(image, row, full(b"\xde\xad\xbe\xef")) for image in (0, 2) for row in range(40 + image, 56 + image)]
        self.assertEqual([(it.image.number, it.held.runs, it.why) for it in self.told(self.images(*changes))],
                         [(0, [(40, 56)], Why.UNREAD), (2, [(42, 58)], Why.UNREAD)])

    def test_in_the_volume(self) -> None:
        """Parity goes over what is stored."""
        plain = self.images()
        with open(plain[0].name, "rb") as one, open(plain[2].name, "rb") as other:
            data, parity = one.read(), other.read()
        changes = []
        for row in range(40, 56):
            was = data[row * SECTOR:(row + 1) * SECTOR]
            parity_now = bytes(a ^ b ^ c for a, b, c in zip(parity[row * SECTOR:], was, full(BAD)))
            changes += [(0, row, full(BAD)), (2, row, parity_now)]
        self.assertEqual(self.told(self.images(*changes)), [])

    def test_where_parity_tells_nothing(self) -> None:
        changes = [(1, row, full(BAD)) for row in range(40, 48)]
        self.assertEqual([(it.image.number, it.why) for it in self.told(self.images(*changes, sums=False))], [(1, Why.UNTOLD)])
        everywhere = [(image, row, full(BAD)) for image in range(3) for row in range(10 * image + 40, 10 * image + 48)]
        self.assertEqual(self.told(self.images(*everywhere, sums=False)), [])
        self.assertEqual(self.told(self.images(*[(1, row, full(b"\1\2")) for row in range(40, 48)], sums=False)), [])

    def test_by_its_map(self) -> None:
        images = self.images(*[(1, row, full(BAD)) for row in range(40, 56)])
        for gap, runs in (((40, 16), []), ((44, 4), [(40, 44), (48, 56)])):
            blocks = ((0, gap[0] * SECTOR, "+"), (gap[0] * SECTOR, gap[1] * SECTOR, "-"), (sum(gap) * SECTOR, (ROWS - sum(gap)) * SECTOR, "+"))
            images[1] = dataclasses.replace(images[1], map=Map("1.map", "", blocks))
            found = self.told(images)
            self.assertEqual([run for it in found for run in it.held.runs], runs)
            self.assertIs(fills.counted_unread(images, found)[1].fill, None)

    def test_images_that_say_nothing(self) -> None:
        images = self.images(*[(1, row, full(BAD)) for row in range(40, 56)])
        self.assertEqual([it.why for it in self.told(images[1:2])], [])
        images[1] = dataclasses.replace(images[1], like=0)
        self.assertEqual(self.told(images), [])
        images = self.images(*[(1, row, full(BAD)) for row in range(40, 56)], sums=False)
        self.assertEqual(len(self.told(images)), 1)
        self.assertEqual(self.told([dataclasses.replace(images[0], first=None), *images[1:]]), [])
