"""Which images a command names, and by which numbers images are told where a scope has some of them alone."""

import dataclasses
import types
import unittest
from collections.abc import Sequence
from typing import Any, cast
from unittest import mock

from reraid_try.calls.commands import Answer
from reraid_try.calls.program import Copied
from reraid_try.calls.sets import Copying, read_word
from reraid_try.checks import damage
from reraid_try.checks.candidates import Candidate
from reraid_try.checks.members import named
from reraid_try.checks.rows import Rows
from reraid_try.checks.tests import Tests
from reraid_try.checks.volumes import Room
from reraid_try.evidence.images import Image
from reraid_try.evidence.maps import Map
from reraid_try.options import Options
from reraid_try.policy.scope import Scope
from reraid_try.report import typed, words
from tests.standin import InFolder, Standin, Told, put
from tests.test_candidates import candidate, scope_of, whole


def images(*lengths: int) -> list[Image]:
    """Images of so many sectors."""
    return [Image(f"i{number}", number, sectors) for number, sectors in enumerate(lengths)]


def among(numbers: Sequence[int], *answers: tuple[str, object]) -> Scope:
    """A scope over images that have these numbers among all, of which `reraid` says this."""
    scope = scope_of(*answers)
    seen = tuple(Image(f"i{number}", number, 8000) for number in numbers)
    setattr(scope, "evidence", types.SimpleNamespace(images=seen, filled=1000, window=8000, start=0, end=8000, unread=0))
    return scope


class Named(unittest.TestCase):
    """Which images are named."""

    def named(self, text: str, *lengths: int) -> tuple[str, tuple[str, ...], int]:
        """The set, the images that are named for it, and where its members end."""
        it = named(read_word(text), images(*lengths))
        return it.word.text, it.names, it.end

    def test_a_shorter_image_in_no_slot(self) -> None:
        """It would end the volume where it ends itself, so it is not named, and the others have new numbers."""
        self.assertEqual(self.named("5:ls:none:128:2048:3,0,2", 9000, 700, 9100, 9200), ("5:ls:none:128:2048:2,0,1", ("i0", "i2", "i3"), 9000))
        self.assertEqual(self.named("near2:128:2048:3,-,2,0", 9000, 700, 9100, 9200), ("near2:128:2048:2,-,1,0", ("i0", "i2", "i3"), 9000))

    def test_all_else_is_named(self) -> None:
        """Where no image in no slot is the shortest the set stays that of the table; so do far copies, whose distance comes from where all end."""
        for text, lengths, end in (("5:ls:none:128:2048:3,0,2", (9000, 9001, 9100, 9200), 9000), ("5:ls:none:128:2048:3,0,2", (9000,) * 4, 9000),
                                   ("5:ls:none:128:2048:0,1,-", (9000, 8000), 8000), ("far2:128:2048:0,2", (9000, 700, 9100), 700),
                                   ("5:ls:none:128:2048:-,-,-", (9000, 700), 700)):
            self.assertEqual(self.named(text, *lengths), (text, tuple(f"i{number}" for number in range(len(lengths))), end))

    def test_maps(self) -> None:
        """Maps have the numbers of those that are named."""
        seen = images(9000, 700, 9100)
        seen[2] = dataclasses.replace(seen[2], map=Map("m", "0 +\n", ()))
        self.assertEqual(named(read_word("0:plain:none:8:0:0,2"), seen).maps, "map 1\n0 +\n")
        self.assertEqual(named(read_word("0:plain:none:8:0:0,1"), seen).maps, "map 2\n0 +\n")
        self.assertIsNone(named(read_word("0:plain:none:8:0:0,1"), seen[:2]).maps)

    def test_what_to_type(self) -> None:
        """The line to type names the same images, and says why they have other numbers."""
        it = candidate("5:ls:none:128:2048:3,0,2", whole())
        lines = ("reraid-mount 5:ls:none:128:2048:2,0,1 candidate4 i0 i2 i3", "reraid-mount 5:ls:none:128:2048:3,0,2 candidate4 i0 i1 i2 i3")
        for lengths, line, told in (((9000, 700, 9100, 9200), lines[0], True), ((9000, 9001, 9100, 9200), lines[1], False)):
            seen, report = images(*lengths), Told()
            words.say_class(report, 4, it, seen)
            self.assertIn(f"    {line}", report.text.splitlines())
            self.assertEqual(f"  {words.ALONE}" in report.text.splitlines(), told)
            self.assertIn("unused images: i1", report.text)

    def test_what_to_type_where_texts_count_as_unread(self) -> None:
        """The maps are typed too, those beside the images without their comments, unless they are long, or the set has copies."""
        it, seen = candidate("5:ls:none:128:2048:2,0,1", whole()), images(9000, 9000, 9000)
        beside = Map("m", "# comment 100%\n0x0 +\n0x0 0x400 +\n", ((0, 1024, "+"),))
        seen[0], seen[2] = dataclasses.replace(seen[0], fill=Map("", "", ((0, 512, "+"), (512, 512, "-")))), dataclasses.replace(seen[2], map=beside)
        maps = "printf 'map 0\\n0 +\\n0 512 +\\n512 512 -\\nmap 2\\n0 +\\n0 1024 +\\n' > candidate4.maps"
        self.assertEqual(typed.commands(4, it, seen).lines[:2],
                         (maps, "reraid-mount --maps candidate4.maps 5:ls:none:128:2048:2,0,1 candidate4 i0 i1 i2"))
        self.assertEqual(typed.commands(4, it, seen).ends[-2:], ("umount candidate4", "rm candidate4.maps"))
        said = "(what counts as unread is computed from parity if the other images have their part of it; what is lost cannot be read)"
        self.assertEqual(typed.of_maps(it.word, seen, True), [f"  {said}"])
        report = Told()
        words.say_class(report, 4, it, seen)
        self.assertEqual(report.text.splitlines()[-1], typed.of_maps(it.word, seen, True)[0])
        for other, changed in ((it, [dataclasses.replace(seen[0], map=beside), *seen[1:]]), (candidate("5:ls:none:128:2048:2,-,1", whole()), seen),
                               (it, [dataclasses.replace(seen[0], fill=Map("", "", ((0, 512, "-"),) * 500)), *seen[1:]])):
            self.assertEqual(typed.commands(4, other, changed).lines[0].split()[:2], ["reraid-mount", other.word.text])
        self.assertIn("--json prints those of texts", typed.of_maps(it.word, seen)[0])
        self.assertEqual(typed.of_maps(it.word, seen[1:2]), [])

    def test_what_a_mount_shows_of_what_counts_as_unread(self) -> None:
        """It is found by parity only if parity is left, and of copies in another one."""
        damaged = [dataclasses.replace(image, map=Map("m", "", ())) for image in images(9000, 9000)]
        for text, said in (("5:ls:none:128:2048:0,1,2", "computed from parity"), ("5:ls:none:128:2048:0,1,-", "no parity is left"),
                           ("6:ls:by-data:128:2048:0,1,-,2", "computed from parity"), ("6:ls:by-data:128:2048:0,-,-,1", "no parity is left"),
                           ("0:plain:none:128:2048:0,1", "no parity is left"), ("near2:128:2048:0,1", "from another copy")):
            told = typed.of_maps(read_word(text), damaged)
            self.assertEqual((len(told), said in told[0]), (1, True), (text, told))


class Read(InFolder):
    """The volume that is looked at is that of the line to type."""

    def over(self, seen: Sequence[Image], *answers: tuple[str, object]) -> Tests:
        """Tests over these images."""
        self.standin = Standin(*answers)  # type: ignore[arg-type]
        room = Room(self.standin, self.folder, mounts=False)
        self.addCleanup(room.close)
        return Tests(Options(tuple(it.name for it in seen), jobs=1), self.standin, Told(), room, seen)

    def asked(self, command: str) -> list[str]:
        """The words behind a command that was asked."""
        return next(words[2:] for words, _ in self.standin.asked if words[1] == command)

    def test_volume_beside_a_shorter_image(self) -> None:
        check = ("reraid check", put("unsound 0 of 9\npass\n"))
        tests = self.over(images(9000, 700, 9100), ("reraid write", put("")))
        tests.begins(candidate("0:plain:none:8:0:0,2", scope=scope_of(check)))
        self.assertEqual(self.asked("write")[0::2], ["set=0:plain:none:8:0:0,1", "--", "i2"])
        tests = self.over(images(9000, 700, 9100), ("reraid write", put("")))
        with mock.patch.object(tests.checks, "look", return_value=whole()):
            tests.read(candidate("0:plain:none:8:0:0,2", scope=scope_of(check)))
        self.assertEqual(self.asked("write"), ["set=0:plain:none:8:0:0,1", "end=9000", "--", "i0", "i2"])

    def test_what_maps_leave_lost(self) -> None:
        """By the images that are named, with their numbers there."""
        seen = images(9000, 700, 9100)
        seen[2] = dataclasses.replace(seen[2], map=Map("m", "0 +\n", ()))
        tests = self.over(seen, ("reraid salvage", put("good 90 of 100\n")))
        self.assertEqual(tests.lost(named(read_word("0:plain:none:8:0:0,2"), seen), True), ["10 of 100 sectors (10%) lost by the maps"])
        words_asked, text = self.standin.asked[0]
        self.assertEqual((words_asked[2:], text), (["set=0:plain:none:8:0:0,1", "form=lost", "end=9000", "--", "i0", "i2"], "map 1\n0 +\n"))

    def test_far_copies_end_where_they_were_found(self) -> None:
        """With the end that was asked for."""
        tests = self.over(images(9000, 700, 9100), ("reraid mirrorwrite", put("")))
        it = candidate("far2:8:0:0,2", scope=scope_of())
        it.step = dataclasses.replace(it.step, copied=Copied((Copying("far", 2),), 2, end=80))
        tests.begins(it)
        self.assertEqual(self.asked("mirrorwrite"), ["set=far2:8:0:0,2", "end=80", "--", "i0", "i1", "i2"])


class Numbers(InFolder):
    """A scope over images 1, 3, 4 and 6 of a heap: in its own sets they are 0 to 3."""

    heap = (1, 3, 4, 6)

    def found(self, listed: str, *answers: tuple[str, object], unsound: int = 9) -> Candidate:
        """A candidate of that scope, as it is made of a listed set, with so many unsound rows."""
        scope = among(self.heap, *answers)
        it = candidate(scope.word(listed).text, whole(), scope=scope, unsound=unsound)
        it.listed = read_word(listed)
        return it

    def test_what_is_left_out(self) -> None:
        """The scope is asked by its own numbers, and people are told of those among all."""
        def told(answered: list[str], _: str) -> Answer:
            return put(f"unsound {0 if '0,1,-,3' in answered[2] else 9} of 9\nfail\n")
        it = self.found("6:la:by-data:8:0:0,1,2,3", ("reraid check", told))
        self.assertEqual(it.word.text, "6:la:by-data:8:0:1,3,4,6")
        report, standin = Told(), Standin()
        room = Room(standin, self.folder, mounts=False)
        self.addCleanup(room.close)
        tests = Tests(Options(("a",), jobs=1), standin, report, room, images(*[8000] * 7))
        places, = tests.left_out(it)
        self.assertEqual((places, report.lines), (frozenset({2}), ["  6:la:by-data:8:0:1,3,4,6: 9 rows inconsistent, 9 because of image 4"]))
        lesser = damage.lesser(it, places)
        self.assertEqual((lesser.word.text, lesser.listed and lesser.listed.text, lesser.step.relaxed),
                         ("6:la:by-data:8:0:1,3,-,6", "6:la:by-data:8:0:0,1,-,3", ["without image 4"]))
        both = damage.lesser(it, frozenset({3, 0}))
        self.assertEqual((both.word.text, both.step.relaxed), ("6:la:by-data:8:0:-,3,4,-", ["without image 1 and image 6"]))
        five = self.found("5:ls:none:8:0:0,1,2,3")
        self.assertEqual(tests.left_out(five), [frozenset({image}) for image in range(4)])

    def test_what_is_old(self) -> None:
        """An image in no slot that is old is named by its number among all."""
        def told(answered: list[str], text: str) -> Answer:
            rows = int(text.split("window ")[1].split()[0])
            return put(f"unsound {min(3, rows // 2000) if '0,3,1,2' in answered[2] else 900} of {rows}\nfail\n")
        it = self.found("6:ls:by-data:128:2048:0,-,1,2", ("reraid check", told))
        found, = Rows(it.scope).old(it)
        self.assertEqual((found.image, found.slot, found.text("abcdefg")[:40]), (6, 1, "g is old or damaged from row 1999 on, or"))

    def stale(self, unsound: Sequence[int], rows: int = 1000) -> tuple[list[str], list[tuple[list[str], str]]]:
        """What is said of image 5 of the heap, which is none of the scope's and which ties name as old, where so many of the rows are unsound with it
        in slot 1 and in slot 4, and what was asked."""
        def told(answered: list[str], text: str) -> Answer:
            window = min(rows, int(text.split("window ")[1].split()[0]))
            bad = unsound[answered[2].endswith(",4")] if "i5" in answered else rows
            return put(f"unsound {max(0, bad - (rows - window))} of {window}\nfail\n")
        it = self.found("6:ls:by-data:128:2048:0,-,1,2,-", ("reraid check", told))
        found = Rows(it.scope).old(it, [Image("i5", 5, 7000, first=8)])
        return [old.text("abcdefg") for old in found], [it for it in cast(Any, it.scope).standin.asked if "i5" in it[0]]

    def test_what_ties_name_as_old(self) -> None:
        """It is asked of beside the images of the scope, in each empty slot, and named with the slot and the row from which on it is old; also where
        most rows are unsound, and not where nearly all are, or none."""
        said, asked = self.stale((800, 950))
        self.assertEqual(said, ["f is old or damaged from row 200 on, or from another array. In slot 1, parity is consistent with it in all but 800 "
                                "of 1000 rows"])
        self.assertEqual(asked[0][0][2:], ["set=6:ls:by-data:128:2048:0,4,1,2,-", "--", "i0", "i1", "i2", "i3", "i5"])
        self.assertIn("length 100000\nlength 7000\nend 7000\n", asked[0][1])
        said, _ = self.stale((880, 300))
        self.assertEqual(said, ["f is old or damaged from row 700 on, or from another array. In slot 4, parity is consistent with it in all but 300 "
                                "of 1000 rows"])
        self.assertEqual([self.stale((bad, 1000))[0] for bad in (900, 0)], [[], []])


if __name__ == "__main__":
    unittest.main()
