"""Tests of arrays of arrays: how images are divided among the sub-arrays, and what is shown and undone."""

import contextlib
import io
import pathlib
import tempfile
import unittest

from reraid_mount import legs

ONE, TWO = "5:ls:none:512:2048:0,1,2", "5:ls:none:512:2048:1,-,0"
OVER = "0:plain:none:1024:0:0,1"

# A program that notes its words, and fails if they have a word.
PROGRAM = """#!/bin/sh
echo "${{RERAID_LEG-no}} $*" >>{0}
case " $* " in *" bad "*) exit 7 ;; esac
"""


class Reading(unittest.TestCase):
    def test_layouts(self) -> None:
        self.assertEqual(legs.read_legs(f"{ONE}+{TWO}"), [legs.Leg(ONE, None), legs.Leg(TWO, None)])
        self.assertEqual([leg.images for leg in legs.read_legs(f"{ONE}+{TWO}")], [3, 2])
        self.assertEqual(legs.read_legs("6:ls*16:after-q:128:2048:0,-,1,-"), [legs.Leg("6:ls*16:after-q:128:2048:0,-,1,-", None)])

    def test_plus_signs_of_offsets(self) -> None:
        found = legs.read_legs("5:la:none:128:2048+4096+0:0,1,2+near2:128:2048+8:0,1")
        self.assertEqual([leg.layout for leg in found], ["5:la:none:128:2048+4096+0:0,1,2", "near2:128:2048+8:0,1"])

    def test_ends(self) -> None:
        self.assertEqual([leg.end for leg in legs.read_legs("far2:128:0:0,1@4096+near3:8:0:0,1,2")], [4096, None])

    def test_refused(self) -> None:
        one = "5:ls:none:512:2048"
        for text in ("", "+", one, f"{one}:0,1,2+", f"{one}:0,1,2+x", f"{one}:0,1,2 ", f"{one}:0,,2", f"{one}:0,1,2@", "raid5:128:0:0,1"):
            with self.subTest(text), self.assertRaisesRegex(legs.Wrong, "a layout is expected"):
                legs.read_legs(text)
        with self.assertRaisesRegex(legs.Wrong, "25 layouts: give at most 24"):
            legs.read_legs("+".join(["near2:8:0:0,1"] * 25))


class Words(unittest.TestCase):
    def test_images(self) -> None:
        asked = legs.read_words(["--no-maps", f"legs={ONE}+{TWO}", OVER, "look", "a", "b", "c", "d", "e", "f"])
        self.assertEqual([list(images) for _, images in asked.parts()], [["a", "b", "c"], ["d", "e"]])
        self.assertEqual((list(asked.left()), asked.layout, asked.folder, list(asked.options)), (["f"], OVER, "look", ["--no-maps"]))

    def test_refused(self) -> None:
        with tempfile.TemporaryDirectory() as folder:
            (pathlib.Path(folder) / "look.legs").mkdir()
            for words, why in (
                ([f"legs={ONE}+{TWO}", OVER, "look", "a", "b", "c", "d"], "take 5 images, and 4 are given"),
                (["--maps", "m", f"legs={ONE}", OVER, "look", "a", "b", "c"], "put the mapfiles beside the images"),
                ([f"legs={ONE}", OVER], "give the layout over the volumes, DIR and the images"),
                ([f"legs={ONE}", OVER, f"{folder}/look", "a", "b", "c"], "look.legs exists"),
            ):
                with self.subTest(why), self.assertRaisesRegex(legs.Wrong, why):
                    legs.read_words(words)


class Showing(unittest.TestCase):
    def setUp(self) -> None:
        self.room = pathlib.Path(self.enterContext(tempfile.TemporaryDirectory()))
        self.notes, self.program = self.room / "notes", self.room / "program"
        self.program.write_text(PROGRAM.format(self.notes), encoding="utf-8")
        self.program.chmod(0o755)
        self.look = str(self.room / "look")

    def said(self, *words: str) -> tuple[int, str, str]:
        out, err = io.StringIO(), io.StringIO()
        with contextlib.redirect_stdout(out), contextlib.redirect_stderr(err):
            status = legs.main([str(self.program), *words])
        return status, out.getvalue(), err.getvalue()

    def test_sub_arrays_come_first(self) -> None:
        status, out, _ = self.said("--no-maps", "--end", "99", f"legs={ONE}@77+{TWO}", OVER, self.look, "a", "b", "c", "d", "e", "f")
        self.assertEqual(status, 0)
        self.assertEqual(self.notes.read_text(encoding="utf-8").splitlines(), [
            f"yes --no-maps --end 77 {ONE} {self.look}.legs/0 a b c",
            f"yes --no-maps {TWO} {self.look}.legs/1 d e",
            f"no --no-maps --end 99 {OVER} {self.look} {self.look}.legs/0/volume {self.look}.legs/1/volume f",
        ])
        self.assertIn(f"then, for the sub-arrays: for leg in {self.look}.legs/*; do ", out)

    def test_one_that_fails_is_undone(self) -> None:
        status, out, err = self.said(f"legs={ONE}+{TWO}", OVER, self.look, "a", "b", "c", "bad", "e")
        self.assertEqual((status, out), (7, ""))
        self.assertIn("sub-array 1", err)
        self.assertEqual(sorted(path.name for path in self.room.iterdir()), ["notes", "program"])

    def test_the_array_fails(self) -> None:
        status, out, _ = self.said(f"legs={ONE}", OVER, self.look, "a", "b", "c", "bad")
        self.assertEqual((status, out), (7, ""))
        self.assertFalse((self.room / "look.legs").exists())

    def test_refused(self) -> None:
        status, out, err = self.said(f"legs={ONE}+", OVER, self.look, "a", "b", "c")
        self.assertEqual((status, out), (1, ""))
        self.assertTrue(err.startswith("reraid-mount: legs="))
        self.assertFalse(self.notes.exists())


if __name__ == "__main__":
    unittest.main()
