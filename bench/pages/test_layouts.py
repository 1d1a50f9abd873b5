"""Tests of the count of files that read parts of layouts."""

import pathlib
import tempfile
import unittest

import layouts


class Reading(unittest.TestCase):
    def test_parts(self) -> None:
        for text in ("geo.head.level ≡ Raid6", "if head.delay != 1 {", "self.pattern,", "set.geo.head.syndrome"):
            self.assertTrue(layouts.reads_parts(text), text)
        for text in ("bounds.levels.items", "head.offset", "-- the head.level\n", "    // head.delay\n", "level: Level,", "head.pattern()"):
            self.assertFalse(layouts.reads_parts(text), text)

    def test_files(self) -> None:
        with tempfile.TemporaryDirectory() as folder:
            crates = pathlib.Path(folder)
            for name in ("a/src/one.rt", "a/proofs/deep/Two.antt", "a/must-fail/three.edit", "a/out/four.rt", "raid_layouts/src/five.rt", "b_rows/src/six.rt",
                         "btrfstree/src/seven.rt", "a/specs/eight.txt"):
                (crates / name).parent.mkdir(parents=True, exist_ok=True)
                (crates / name).write_text("head.level", encoding="utf-8")
            (crates / "a/src/nine.rt").write_text("head.chunk", encoding="utf-8")
            self.assertEqual([str(path) for path in layouts.readers(crates)], ["a/proofs/deep/Two.antt", "a/src/one.rt"])


if __name__ == "__main__":
    unittest.main()
