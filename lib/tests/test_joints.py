"""Long files at the borders of chunks, volumes that contradict each other, and what settles which of them keeps its rating."""

import gzip
import random
import types
import unittest
from collections.abc import Mapping
from typing import Any, cast
from unittest import mock

from reraid_try.calls.sets import read_word
from reraid_try.checks import joints, kin, looks, rivals, settling
from reraid_try.checks.candidates import Candidate
from reraid_try.checks.joints import Duel, Grid, Joints
from reraid_try.checks.verdicts import Score, Verdict
from reraid_try.evidence.images import Image
from reraid_try.units import KIB, SECTOR
from tests.standin import InFolder
from tests.test_candidates import SET, candidate, whole

CHUNK = 64 * KIB
OTHER = "5:rs:none:128:2048:0,1,2"
IMAGES = [Image(f"i{k}", k, 9) for k in range(5)]


def packed(seed: int, size: int) -> bytes:
    """A gzip file of about so many bytes that do not shrink, up to whole sectors."""
    data = gzip.compress(random.Random(seed).randbytes(size), 1, mtime=0)
    return data.ljust(-(-len(data) // SECTOR) * SECTOR, b"\0")


def swapped(volume: bytes, *pairs: tuple[int, int]) -> bytes:
    """A volume in which these chunks stand in each other's place."""
    chunks = [volume[at:at + CHUNK] for at in range(0, len(volume), CHUNK)]
    for one, other in pairs:
        chunks[one], chunks[other] = chunks[other], chunks[one]
    return b"".join(chunks)


class AtBorders(InFolder):
    """A volume of files of three chunks each, whose layout repeats after four chunks."""

    files = [packed(seed, 3 * CHUNK - 40 * KIB) for seed in range(16)]
    volume = b"".join(it.ljust(3 * CHUNK, b"\0") for it in files)

    def look(self, volume: bytes, period: int = 4, seconds: float = 60) -> Joints:
        """What its long files say."""
        return joints.look(self.file("volume", volume), len(volume), Grid(CHUNK, period), seconds)

    def test_the_right_order(self) -> None:
        found = self.look(self.volume)
        self.assertEqual((found.whole, found.torn, sorted(found.heads.values())[0] > 2 * CHUNK, len(found.heads)), (16, 0, True, 16))
        self.assertFalse(found.speak_against)

    def test_chunks_in_a_wrong_order(self) -> None:
        """Of each period of four chunks the second and third are swapped: all files that cross their borders break there."""
        found = self.look(swapped(self.volume, *((at + 1, at + 2) for at in range(0, 48, 4))))
        self.assertEqual((found.whole, found.torn > 8, found.speak_against), (0, True, True))
        self.assertIn(f"{found.torn} files break at borders of chunks across which no intact file continues; 0 intact files", found.text())

    def test_files_that_are_overwritten(self) -> None:
        """A file that breaks in the midst of a chunk, or where others go on whole, says nothing of the order."""
        data = bytearray(self.volume)
        for number in (3, 7, 12):
            place = 3 * number * CHUNK + CHUNK + (50 if number < 10 else 2) * KIB
            data[place:place + 8 * KIB] = bytes(8 * KIB)
        found = self.look(bytes(data))
        self.assertEqual((found.whole, found.torn, sum(not size for size in found.heads.values())), (13, 0, 3))

    def test_short_files(self) -> None:
        """Files within a chunk are whole in any order, and are not read."""
        short = b"".join(packed(seed, 20 * KIB).ljust(CHUNK, b"\0") for seed in range(4))
        self.assertEqual(self.look(short), Joints())

    def test_the_time(self) -> None:
        self.assertEqual(self.look(self.volume, seconds=-1).heads, {})

    def test_how_many_may_break(self) -> None:
        for good, torn, against in ((0, 0, False), (7, 1, True), (8, 1, False), (80, 10, False), (80, 11, True)):
            with mock.patch.object(joints, "FEW_TORN", 8):
                self.assertIs(Joints(good, torn).speak_against, against)


class Periods(unittest.TestCase):
    def test_after_how_many_chunks_a_layout_repeats(self) -> None:
        for text, period in (("5:ls:none:8:0:0,1,2,3", 12), ("5:parity-last:none:8:0:0,1,2,3", 3), ("6:la:after-q:8:0:0,1,2,3,4", 15),
                             ("6:ls-6:after-q:8:0:0,1,2,3,4", 12), ("0:plain:none:8:0:0,1,2", 3), ("near2:8:0:0,1,2", 3), ("far2:8:0:0,1,2,3", 4),
                             ("5:la*16:none:8:0:0,1,2", 96)):
            self.assertEqual(joints.period_of(read_word(text)), period, text)

    def test_borders(self) -> None:
        grid = Grid(10, 4)
        self.assertEqual([grid.joints(*it) for it in ((0, 9), (9, 10), (35, 52), (0, 400))], [set(), {0}, {3, 0}, {0, 1, 2, 3}])


def having(heads: Mapping[str, int], torn: int = 0) -> Verdict:
    """A verdict with long whole files, and these files at the borders of chunks."""
    found = whole()
    found.joints = Joints(9, torn, dict(heads))
    return found


class Scores(unittest.TestCase):
    def test_files_that_break_where_none_goes_on(self) -> None:
        """They take the highest score away: a checker that reports no errors is left, or nothing."""
        torn, unchecked, summed = having({}, 5), having({}, 5), having({}, 5)
        unchecked.findings[0].clean = None
        summed.findings[0].kind = "btrfs"
        self.assertEqual([it.score for it in (having({}), torn, unchecked, summed)], [Score.WHOLE, Score.CHECKED, Score.KNOWN, Score.WHOLE])
        self.assertEqual([len(it.less) for it in (having({}), torn, unchecked, summed)], [0, 1, 1, 0])
        self.assertEqual(candidate(verdict=torn).doubts, torn.less)

    def test_kept_for_another_run(self) -> None:
        it = having({"a": 7}, 5)
        self.assertEqual(looks.verdict_of(looks.fields_of(it)), it)
        self.assertIsNone(looks.verdict_of(looks.fields_of(whole())).joints)


class Duels(unittest.TestCase):
    def test_files_of_two_volumes(self) -> None:
        one, other = Joints(heads={"a": 9, "b": 0, "c": 5, "d": 0}), Joints(heads={"a": 0, "b": 3, "c": 5, "e": 2})
        self.assertEqual([joints.duel(*it) for it in ((one, other), (one, one), (one, None))], [Duel(1, 1), Duel(0, 0), Duel(0, 0)])
        for told, wins in ((Duel(0, 0), (False, False)), (Duel(0, 1), (False, True)), (Duel(2, 4), (False, False)), (Duel(2, 5), (False, True)),
                           (Duel(3, 1), (True, False))):
            self.assertEqual((told.first_wins, told.second_wins), wins)


class Rivals(unittest.TestCase):
    """Two sets of the same images that contradict each other, both with long whole files."""

    def scores(self, *some: Candidate) -> list[str]:
        """Their ratings, the same however often they are put in order."""
        for _ in range(3):
            kin.in_order(some, IMAGES)
        return [it.score.rating for it in some]

    def test_a_file_that_is_broken_in_one_alone(self) -> None:
        good, bad = candidate(SET, having({"a": 9, "b": 7, "c": 0})), candidate(OTHER, having({"a": 9, "b": 0, "c": 0}))
        self.assertEqual(self.scores(bad, good), ["", "++"])
        self.assertEqual((bad.doubts, good.doubts), ([f"1 file is broken in it and intact in {SET}"], []))

    def test_more_files_are_broken_in_one(self) -> None:
        heads = {str(number): 9 for number in range(8)}
        good, bad = candidate(SET, having({**heads, "0": 0})), candidate(OTHER, having({**heads, "1": 0, "2": 0, "3": 0}))
        self.assertEqual(self.scores(bad, good), ["", "++"])
        self.assertEqual(bad.doubts, [f"3 files are broken in it and intact in {SET}, and 1 the other way round"])

    def test_nothing_tells_them_apart(self) -> None:
        """Neither keeps the highest rating, and each says which other set contradicts it."""
        one, other = candidate(SET, having({"a": 9})), candidate(OTHER, having({"b": 9}))
        self.assertEqual(self.scores(one, other), ["+", "+"])
        self.assertEqual(one.doubts, [f"{OTHER} contradicts it and is supported as well: at most one of the two is right"])
        self.assertEqual(other.doubts, [f"{SET} contradicts it and is supported as well: at most one of the two is right"])

    def test_the_same_bytes(self) -> None:
        """Two words for one volume do not contradict each other."""
        one, other = candidate(SET, having({"a": 9}), volume=4), candidate(OTHER, having({"a": 9}), volume=4)
        self.assertEqual(self.scores(one, other), ["++", "++"])
        other.volume = 5
        self.assertEqual(self.scores(one, other), ["+", "+"])

    def test_a_disk_more(self) -> None:
        """A set with a stale disk in the slot that another one leaves empty gives way if more files are whole without it."""
        stale, without = candidate(SET, having({"a": 0, "b": 9})), candidate("5:ls:none:128:2048:0,-,2", having({"a": 9, "b": 9}))
        self.assertEqual(self.scores(stale, without), ["", "++"])
        alike = candidate(SET, having({"a": 9})), candidate("5:ls:none:128:2048:0,-,2", having({"a": 9}))
        self.assertEqual(self.scores(*alike), ["++", "++"])

    def test_of_other_images(self) -> None:
        some = candidate(SET, having({"a": 9})), candidate("5:ls:none:128:2048:3,4,-", having({"a": 0, "b": 9}))
        self.assertEqual(self.scores(*some), ["++", "++"])


class Settled(InFolder):
    """The bytes of volumes that files do not tell apart are compared."""

    def settle(self, some: list[Candidate], volumes: Mapping[str, bytes]) -> list[int | None]:
        """Numbers of their volumes, whose bytes are these."""
        opened: list[str] = []

        def volume(source: Any, _most: int, _seconds: float) -> Any:
            opened.append(source.word.text)
            path = self.file(f"{len(opened)}.volume", volumes[source.word.text])
            return mock.MagicMock(__enter__=lambda _: types.SimpleNamespace(path=path, mounted=True), __exit__=lambda *_: None)
        room = types.SimpleNamespace(mounts=True, volume=volume)
        tests = types.SimpleNamespace(room=room, images=IMAGES, options=types.SimpleNamespace(seconds=9))
        for _ in range(2):
            settling.settle(cast(Any, tests), some, lambda *_: True)
        self.opened = len(opened)
        return [it.volume for it in some]

    def test_the_same_and_others(self) -> None:
        third = "5:la:none:128:2048:0,1,2"
        some = [candidate(text, having({"a": 9})) for text in (SET, OTHER, third)]
        data = random.Random(1).randbytes(64 * KIB)
        self.assertEqual(self.settle(some, {SET: data, OTHER: data, third: data[:-1] + b"!"}), [1, 1, 2])
        self.assertEqual(self.opened, 4)

    def test_what_files_tell(self) -> None:
        """No bytes are read where files tell, or where one set alone has the highest rating."""
        some = [candidate(SET, having({"a": 9})), candidate(OTHER, having({"a": 0}))]
        self.assertEqual((self.settle(some, {}), self.opened), ([1, 2], 0))
        self.assertEqual((self.settle([candidate(SET, whole(longest=50))], {}), self.opened), ([None], 0))

    def test_no_mounts(self) -> None:
        tests = types.SimpleNamespace(room=types.SimpleNamespace(mounts=False))
        self.assertFalse(settling.same_bytes(cast(Any, tests), candidate(), candidate()))

    def test_open(self) -> None:
        one, other = candidate(SET, having({"a": 9})), candidate(OTHER, having({"a": 0}))
        self.assertEqual((rivals.is_open(one, one), rivals.is_open(one, other)), (True, False))
