"""The file of a report: it is whole or not there, and only a run that goes on replaces it."""

import os
import pathlib
from unittest import mock

from reraid_try.casefile import page, writing
from reraid_try.casefile.record import Record
from reraid_try.casefile.writing import PageFile
from reraid_try.errors import OutsideError
from tests.standin import InFolder


class Writing(InFolder):
    def text(self, name: str = "page") -> str:
        """What the file has."""
        return pathlib.Path(self.folder, name).read_text(encoding="utf-8")

    def test_nothing_is_there_before_the_page_is(self) -> None:
        made = PageFile(f"{self.folder}/page")
        self.assertEqual(os.listdir(self.folder), [])
        made.write("all of it")
        self.assertEqual((os.listdir(self.folder), self.text()), (["page"], "all of it"))

    def test_a_page_that_cannot_be_written_whole(self) -> None:
        """Neither an empty file nor a part is left."""
        made = PageFile(f"{self.folder}/page")
        full = OSError(28, "No space left on device")
        with mock.patch.object(os, "fsync", side_effect=full), self.assertRaisesRegex(OutsideError, "No space left"):
            made.write("all of it")
        self.assertEqual(os.listdir(self.folder), [])

    def test_another_file_of_that_name_meanwhile(self) -> None:
        """It is left as it is, and the page stands beside it."""
        made = PageFile(f"{self.folder}/page")
        self.file("page", "mine")
        with self.assertRaisesRegex(OutsideError, "was made by another program meanwhile: the report is .*[.]part$"):
            made.write("all of it")
        self.assertEqual(("mine", "all of it"), (self.text(), self.text(os.path.basename(made.part))))

    def test_no_place(self) -> None:
        with self.assertRaisesRegex(OutsideError, "^--report /proc/none/page cannot be written: No such file"):
            PageFile("/proc/none/page")

    def test_what_is_replaced(self) -> None:
        """The report of a run that goes on, also an empty one; no other file, and none without --resume."""
        kept, empty, mine = self.file("kept", "{}\n"), self.file("empty"), self.file("mine", "mine")
        made = self.file("made", page.page(Record()))
        for report, resume, said in ((None, None, ""), (f"{self.folder}/new", None, ""), (made, kept, ""), (empty, kept, ""),
                                     (made, None, f"--report {made} exists already: name another file"),
                                     (made, empty, f"--report {made} exists already: name another file"),
                                     (made, f"{self.folder}/new", f"--report {made} exists already: name another file"),
                                     (mine, kept, f"--report {mine} exists already: name another file (it is not a report of reraid-try)"),
                                     (self.folder, kept, f"--report {self.folder} exists already: name another file (it is not a report of "
                                                         f"reraid-try)")):
            self.assertEqual(writing.not_written_over(report, resume), said)
        PageFile(made).write("again")
        self.assertEqual(self.text("made"), "again")
