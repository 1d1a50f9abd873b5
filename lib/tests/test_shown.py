"""What a run prints with and without -v."""

import json
import pathlib
import tempfile
import unittest
from unittest import mock

from reraid_try import options
from reraid_try.report import table
from reraid_try.report.report import DETAILS, Report, Shown

from .standin import InFolder


class Kept(Report):
    """A report that keeps its lines and prints none."""

    def __init__(self, as_json: bool = False, shown: Shown = Shown.RESULTS) -> None:
        super().__init__(as_json, shown=shown)
        self.lines: list[str] = []

    def put(self, line: str) -> None:
        """Keep a line."""
        self.lines.append(line)


def run(report: Kept) -> Kept:
    """Report a short run: an image, evidence, a step, its candidate, and one that timed out."""
    report.say("image", "image 0", number=0)
    report.say("relation", "image 1 is stale from row 8 on")
    report.say("hint", "perhaps RAID 5", value=5)
    report.say("trial", "step 1: 1 of 9 layouts passes", number=1, note="")
    report.say("sound", "  5:ls: ext4")
    report.say("trial", "step 2: 0 layouts pass (timed out)", number=2, note="timed out")
    report.say("late", "  timed out after 9 s")
    report.say("candidate", "++  0   5:ls", score=3)
    return report


RESULTS = ["image 0", "image 1 is stale from row 8 on", "step 2: 0 layouts pass (timed out)", "  timed out after 9 s", "++  0   5:ls"]


class Lines(InFolder):
    def test_results(self) -> None:
        """Without -v evidence and steps are not printed, except a step that timed out; what counts against images and layouts is."""
        self.assertEqual(run(Kept()).lines, RESULTS)

    def test_details(self) -> None:
        """With -v each line is printed."""
        lines = run(Kept(shown=Shown.DETAILS)).lines
        self.assertEqual((len(lines), [line for line in lines if line in RESULTS]), (8, RESULTS))

    def test_programs(self) -> None:
        """Programs get each event."""
        lines = [json.loads(line)["event"] for line in run(Kept(as_json=True)).lines]
        self.assertEqual(lines, ["image", "relation", "hint", "trial", "sound", "trial", "late", "candidate"])

    def test_record(self) -> None:
        """The page is made of all events, whatever is printed."""
        self.assertEqual(run(Kept()).record.events, run(Kept(shown=Shown.DETAILS)).record.events)

    def test_the_bar_stays(self) -> None:
        """A line that is not printed does not count as one that was."""
        report = Kept()
        report.bar.said = 0
        report.say("hint", "perhaps RAID 5", value=5)
        self.assertEqual(report.bar.said, 0)
        report.say("image", "image 0", number=0)
        self.assertGreater(report.bar.said, 0)

    def test_what_is_never_left_out(self) -> None:
        """What is read, refused, unread, stale, late, not checked or found is no detail."""
        always = ("image", "reads", "container", "relation", "stopped", "fill", "reshape", "late", "many", "doubtful", "blamed", "failed", "zeros",
                  "answer", "candidate", "words", "near", "diagnosis", "interrupted", "end", "room", "place", "all")
        self.assertTrue(DETAILS.isdisjoint(always))

    def test_events_are_those_of_the_program(self) -> None:
        """Each detail is an event that a module of the search reports."""
        modules = pathlib.Path(__file__).parents[1].glob("reraid_try/**/*.py")
        sources = "".join(it.read_text(encoding="utf-8") for it in modules)
        self.assertEqual([it for it in sorted(DETAILS) if f'say("{it}"' not in sources], [])

    def test_no_candidates(self) -> None:
        """A run without candidates names the option, unless it was given."""
        few, all_lines = Kept(), Kept(shown=Shown.DETAILS)
        table.show(few, [], [])
        table.show(all_lines, [], [])
        self.assertEqual((few.lines, all_lines.lines), (["no candidates. -v prints the evidence and the search steps"], ["no candidates"]))


class Words(unittest.TestCase):
    def test_options(self) -> None:
        """-v and --verbose print the details, and so does -x."""
        rows: list[list[str]] = [[], ["-v"], ["--verbose"], ["-x"]]
        with tempfile.NamedTemporaryFile() as file, mock.patch("shutil.which", return_value="reraid"):
            file.write(b"1")
            file.flush()
            told = [options.read_words([*words, file.name]) for words in rows]
        self.assertEqual([it.shown for it in told], [Shown.RESULTS, Shown.DETAILS, Shown.DETAILS, Shown.DETAILS])
        self.assertEqual([it.show for it in told], [False, False, False, True])


if __name__ == "__main__":
    unittest.main()
