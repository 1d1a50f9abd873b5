"""What a page needs beside what the run says: parts of members, what maps call unread, and how long the rest of a step may take."""

import io
import os
import pathlib
import shutil
import tempfile
import time
import unittest
from contextlib import redirect_stderr, redirect_stdout
from unittest import mock

from reraid_try.calls.commands import Commands
from reraid_try.calls.sets import read_word
from reraid_try.casefile import gathering, host, regions
from reraid_try.casefile.regions import Region
from reraid_try.errors import OutsideError
from reraid_try.evidence.maps import Map
from reraid_try.options import Options
from reraid_try.report.report import Bar, Report, duration


class Unread(unittest.TestCase):
    """The runs of sectors that a map calls unread."""

    def test_runs(self) -> None:
        blocks = ((0, 1000, "+"), (1000, 100, "-"), (1100, 500, "*"), (1600, 448, "+"), (2048, 512, "?"), (2560, 1 << 20, "+"))
        self.assertEqual(gathering.unread(Map("a.map", "", blocks), 100), [[1, 4]])

    def test_end(self) -> None:
        self.assertEqual(gathering.unread(Map("a.map", "", ((0, 51200, "+"), (51200, 51200, "-"))), 120), [[100, 20]])
        self.assertEqual(gathering.unread(None, 120), [])


class Marks(unittest.TestCase):
    """Many landmarks are thinned out."""

    def test_few(self) -> None:
        self.assertEqual(gathering.thinned({5, 1, 3}), [1, 3, 5])

    def test_many(self) -> None:
        found = gathering.thinned(range(10 * gathering.MAX_MARKS))
        self.assertEqual((len(found), found[:3]), (gathering.MAX_MARKS, [0, 10, 20]))


class Regions(unittest.TestCase):
    """The parts of members over which parity is asked."""

    def test_turn(self) -> None:
        self.assertEqual(regions.turn(read_word("5:ls:none:8:16:0,1,2,3")), 96)
        # Where parity stays on a slot for 16 rows of chunks, a turn is as many times as long.
        self.assertEqual(regions.turn(read_word("5:ls*16:none:8:16:0,1,2,3")), 1536)

    def test_parts_begin_where_a_turn_does(self) -> None:
        word = read_word("5:ls:none:8:16:0,1,2,3")
        parts = regions.cut(word, 16 + 96 * 100 + 13)
        self.assertTrue(all(first % 96 == 0 for first, _ in parts))
        self.assertEqual(sum(rows for _, rows in parts), 9608)
        self.assertLessEqual(len(parts), regions.PARTS)

    def test_no_rows(self) -> None:
        self.assertEqual(regions.cut(read_word("5:ls:none:8:16:0,1,2"), 10), [])
        self.assertEqual([regions.rows_of_each(count) for count in (64, 6, 1)], [2048, 21845, 131072])

    def test_moved(self) -> None:
        self.assertEqual(regions.moved(read_word("6:ra:by-slot:8:16+32:0,1"), 100).text, "6:ra:by-slot:8:116+132:0,1")

    def test_how(self) -> None:
        self.assertIn("first 5 rows", regions.told([Region(0, 10, 5, 0), Region(10, 10, 5, 1)]))
        self.assertEqual(regions.told([Region(0, 10, 10, 0)]), "All rows were tested.")


class Files(unittest.TestCase):
    """The file of a page is there only at the end of a run, and only with the page."""

    def casefile(self, name: str) -> gathering.Casefile:
        """What makes a page with this name."""
        with mock.patch.object(host, "fields", return_value={"words": [], "began": "now"}):
            return gathering.Casefile(Options((), report=name), [], Report(), Commands())

    def test_no_page(self) -> None:
        with tempfile.TemporaryDirectory() as folder:
            made = self.casefile(f"{folder}/page")
            self.assertEqual(os.listdir(folder), [])
            made.close()
            self.assertEqual(os.listdir(folder), [])

    def test_a_page(self) -> None:
        with tempfile.TemporaryDirectory() as folder:
            made = self.casefile(f"{folder}/page")
            with redirect_stdout(io.StringIO()) as said:
                made.end(mock.Mock(images=()), 1)
            made.close()
            self.assertEqual(os.listdir(folder), ["page"])
            self.assertIn("No candidate was rated", pathlib.Path(folder, "page").read_text(encoding="utf-8"))
            self.assertEqual(said.getvalue(), f"{folder}/page is the report\n")

    def test_no_place(self) -> None:
        with self.assertRaisesRegex(OutsideError, "cannot be written"):
            self.casefile("/proc/none/page")


class Progress(unittest.TestCase):
    """What is said of what is left, and where the output is no terminal."""

    def test_durations(self) -> None:
        self.assertEqual([duration(seconds) for seconds in (5.7, 99, 100, 7199, 7200)], ["5 s", "99 s", "1 min", "119 min", "2 h"])

    def test_left(self) -> None:
        bar = Bar()
        bar.since = time.monotonic() - 60
        self.assertEqual(bar.left(3, 4), ", about 20 s left")
        self.assertEqual(bar.left(0, 4), "")
        bar.since = time.monotonic()
        self.assertEqual(bar.left(3, 4), "")

    def test_a_minute(self) -> None:
        said = io.StringIO()
        bar = Bar()
        bar.there = False
        with redirect_stderr(said):
            bar.show("stage 3: ")
            bar.said -= 3600
            bar.tell()
            bar.tell()
        self.assertEqual(said.getvalue(), "0:00 stage 3: still running\n")

    def test_on_a_terminal(self) -> None:
        """What is done stands in one line, as wide as the terminal at most, until it is taken away."""
        said = io.StringIO()
        bar = Bar()
        bar.there = True
        with redirect_stderr(said), mock.patch.object(shutil, "get_terminal_size", lambda: os.terminal_size((28, 9))):
            bar.show("stage 3", 1, 4)
            bar.show("stage 4")
            bar.clear()
            bar.clear()
        clear = "\r\033[K"
        self.assertEqual(said.getvalue(), f"{clear}0:00 stage 3 [#####        {clear}0:00 stage 4{clear}")

    def test_another_time(self) -> None:
        """What is asked for in place of a minute is waited for, and a third of it for what is counted."""
        said = io.StringIO()
        bar = Bar(9)
        bar.there = False
        with redirect_stderr(said):
            bar.show("stage 3", 1, 4)
            bar.until, bar.said = bar.until - 2, bar.said - 8
            bar.show("stage 3", 2, 4)
            bar.tell()
            self.assertEqual(said.getvalue(), "")
            bar.until -= 1.5
            bar.show("stage 3", 3, 4)
            bar.said -= 9
            bar.tell()
        self.assertEqual(said.getvalue(), "0:00 stage 3: 3 of 4\n0:00 stage 3: still running\n")


if __name__ == "__main__":
    unittest.main()
