"""The words of the command line, and the status of a run whatever happens in it."""

import contextlib
import errno
import io
import json
import os
import pathlib
import re
import signal
import subprocess
import sys
import unittest
from collections.abc import Callable
from unittest import mock

from reraid_try import main, options, resuming
from reraid_try.calls.commands import Commands, Runner
from reraid_try.calls.memory import Memory, Remembering
from reraid_try.checks import leftovers
from reraid_try.checks.verdicts import Score
from reraid_try.checks.volumes import Room
from reraid_try.errors import OutsideError, Stopped
from reraid_try.evidence.images import Image
from reraid_try.options import Options
from reraid_try.report.report import Bar, Report
from reraid_try.units import ALL, GIB, MIB
from tests.standin import InFolder, Told
from tests.test_candidates import candidate, whole

LINE = "reraid-try: "


def unbroken(text: str) -> str:
    """Join the lines that were broken at the width of the output; not those that are copied by hand."""
    return re.sub(r"\n {2,3}(?=\S)", " ", text)


class Fake:
    """What stands for the search of a run: it finds nothing, or what a test says."""

    happens: Callable[[], object] = staticmethod(lambda: None)
    found = Score.NOTHING

    def __init__(self, asked: Options, _commands: Runner, _report: Report, _room: Room, memory: Memory | None) -> None:
        self.options, self.memory = asked, memory
        self.tested: list[object] = []
        self.images: tuple[object, ...] = ()

    def run(self) -> None:
        """What happens in the run."""
        type(self).happens()

    def say_reshapes(self) -> None:
        """Nothing was seen of a reshape."""

    def say_answer(self) -> None:
        """The images may be an array."""

    def best(self) -> Score:
        """How much speaks for the best candidate."""
        return self.found


class Runs(InFolder):
    """Runs over two images, with a program beside them that nobody asks."""

    def setUp(self) -> None:
        super().setUp()
        self.images = [self.file(name, bytes(1024)) for name in ("a", "b")]
        os.chmod(self.file("reraid", "#!/bin/sh\nexit 1\n"), 0o755)
        for number in main.ENDING:
            self.addCleanup(signal.signal, number, signal.getsignal(number))
        self.enterContext(mock.patch.dict(os.environ, PATH=f"{self.folder}:{os.environ['PATH']}"))

    def run_with(self, *words: str, happens: Callable[[], object] = lambda: None, found: Score = Score.NOTHING) -> tuple[int | str | None, str, str]:
        """The status of a run in which something happens, and both outputs."""
        out, error = io.StringIO(), io.StringIO()
        made = type("Made", (Fake,), {"happens": staticmethod(happens), "found": found})
        with contextlib.redirect_stdout(out), contextlib.redirect_stderr(error), mock.patch.object(main, "Search", made):
            try:
                return main.main([*words, *self.images]), unbroken(out.getvalue()), error.getvalue()
            except SystemExit as end:
                return end.code, out.getvalue(), error.getvalue()


def raising(error: BaseException) -> Callable[[], object]:
    """What raises this."""
    return mock.Mock(side_effect=error)


class Statuses(Runs):
    def test_nothing_is_rated(self) -> None:
        for found in (Score.NOTHING, Score.KNOWN):
            status, out, _ = self.run_with(found=found)
            self.assertEqual((status, "no candidates" in out), (1, True))

    def test_something_is_rated(self) -> None:
        for found in (Score.CHECKED, Score.WHOLE):
            self.assertEqual(self.run_with(found=found)[0], 0)

    def test_outside(self) -> None:
        for error, said in [(OutsideError("the log x cannot be written: why"), "the log x cannot be written: why"),
                            (OSError(errno.EIO, "Input/output error", "disk"), "disk: Input/output error"),
                            (OSError(errno.ENOSPC, "No space left on device"), "No space left on device"),
                            (MemoryError(), "out of memory; -j 1 needs less")]:
            status, _, line = self.run_with(happens=raising(error))
            self.assertEqual((status, line), (3, f"{LINE}{said}\n"))

    def test_interrupted(self) -> None:
        status, out, _ = self.run_with(happens=raising(Stopped()))
        self.assertEqual((status, "interrupted before any volume was checked" in out), (130, True))
        self.assertEqual(self.run_with(happens=raising(KeyboardInterrupt()))[0], 130)

    def test_a_signal_ends_it(self) -> None:
        for number in (signal.SIGINT, signal.SIGTERM, signal.SIGHUP):
            for ending in main.ENDING:
                signal.signal(ending, signal.SIG_DFL)
            status, out, _ = self.run_with(happens=lambda number=number: signal.raise_signal(number))  # type: ignore[misc]
            self.assertEqual((status, "interrupted" in out), (130, True))

    def test_a_run_under_nohup(self) -> None:
        """Where SIGHUP is ignored from the start the run goes on."""
        signal.signal(signal.SIGHUP, signal.SIG_IGN)
        status, out, _ = self.run_with(happens=lambda: signal.raise_signal(signal.SIGHUP))
        self.assertEqual((status, "interrupted" in out), (1, False))

    def test_a_closed_terminal(self) -> None:
        """What can no longer be printed ends nothing: the report is written, and all is closed."""
        name = f"{self.folder}/page.html"
        # The tests may run under nohup.
        signal.signal(signal.SIGHUP, signal.SIG_DFL)

        def closed() -> None:
            self.enterContext(mock.patch.object(sys.stdout, "write", side_effect=OSError(errno.EIO, "Input/output error")))
            signal.raise_signal(signal.SIGHUP)
        status, _, _ = self.run_with("--report", name, happens=closed)
        with open(name, encoding="utf-8") as file:
            self.assertEqual((status, "it was interrupted" in file.read()), (130, True))

    def test_clean(self) -> None:
        """What killed runs left is removed in place of a search; no image is named for that."""
        old = f"{self.folder}/reraid-try.old"
        os.mkdir(old)
        os.utime(old, (1, 1))
        images, self.images = self.images, []
        for said in (f"removed {old}\n", f"no killed run left anything in {self.folder}\n"):
            self.assertEqual(self.run_with("--clean", "--room", self.folder)[:2], (0, said))
        self.assertEqual(self.run_with()[0], 2)
        os.mkdir(old)
        os.utime(old, (1, 1))
        with mock.patch.object(leftovers, "remove", return_value=False):
            status, _, line = self.run_with("--clean", "--room", self.folder)
        self.assertEqual((status, f"{old} could not be removed" in line), (3, True))
        status, out, _ = self.run_with("--room", self.folder, *images)
        self.assertEqual((status, f"{old}. To remove it:\n    reraid-try --clean --room {self.folder}" in out), (1, True))
        self.assertEqual(self.run_with("--clean", *images)[0], 2)

    def test_nobody_reads_what_is_printed(self) -> None:
        with mock.patch.object(os, "dup2") as again, mock.patch.object(sys, "stdout", mock.Mock(fileno=lambda: 1)):
            with mock.patch.object(main, "with_log", raising(BrokenPipeError())):
                self.assertEqual(main.main(self.images), 141)
        again.assert_called_once()

    def test_outputs_that_are_closed(self) -> None:
        program = pathlib.Path(__file__).resolve().parents[2] / "bin/reraid-try"
        for closed in (">&-", "2>&-"):
            done = subprocess.run(["sh", "-c", f'"$0" --version {closed}', str(program)], stdin=subprocess.DEVNULL, capture_output=True, check=False)
            self.assertEqual((done.returncode, done.stderr), (0, b""))

    def test_nothing_is_left(self) -> None:
        room = os.path.join(self.folder, "room")
        os.mkdir(room)
        for error in (None, OutsideError("why"), Stopped(), OSError(errno.EIO, "why")):
            self.run_with("--room", room, happens=raising(error) if error else lambda: None)
            self.assertEqual(os.listdir(room), [])


class Ends(Runs):
    """What is done at the end of a run, however it ends, with mocks for what it begins."""

    def ended(self, *words: str, error: BaseException | None = None, found: Score = Score.NOTHING) -> tuple[int | str | None, dict[str, mock.Mock]]:
        """The status of a run, and what was begun in it."""
        made = {name: mock.Mock() for name in ("Commands", "Casefile", "Room", "Opener")}
        made["Opener"].return_value.all.return_value = (tuple(self.images), ())
        made["memory"] = mock.Mock(runs=[])
        with mock.patch.multiple(main, **{name: it for name, it in made.items() if name != "memory"}), \
                mock.patch.object(resuming, "begin", return_value=made["memory"]), mock.patch.object(Bar, "end") as made["end"]:
            status, self.out, _ = self.run_with(*words, happens=raising(error) if error else lambda: None, found=found)
        return status, made

    def test_all_is_closed(self) -> None:
        """Commands are ended first, and what was opened is closed."""
        for error in (None, OutsideError("why"), Stopped()):
            _, made = self.ended(error=error)
            for name in ("Casefile", "Room", "Opener"):
                made[name].return_value.close.assert_called_once_with()
            made["Commands"].return_value.stop.assert_called_once_with()
            made["memory"].close.assert_called_once_with()
            made["end"].assert_called_once_with()

    def test_what_begins_fails(self) -> None:
        """What was not begun is not closed, and what was is."""
        status, made = self.ended()
        self.assertEqual(status, 1)
        with mock.patch.object(main, "Room", side_effect=OutsideError("no room")), mock.patch.object(main, "Casefile") as casefile, \
                mock.patch.object(main, "Opener") as opener:
            self.assertEqual(self.run_with()[::2], (3, f"{LINE}no room\n"))
        casefile.return_value.close.assert_called_once_with()
        opener.assert_not_called()

    def test_the_page(self) -> None:
        """It begins with the images, and ends with the status."""
        for error, found, ending in ((None, Score.NOTHING, mock.call(mock.ANY, 1)), (None, Score.WHOLE, mock.call(mock.ANY, 0)),
                                     (Stopped(), Score.WHOLE, mock.call(mock.ANY, 130, ended=True))):
            casefile = self.ended(error=error, found=found)[1]["Casefile"].return_value
            casefile.begin.assert_called_once_with(tuple(self.images), ())
            self.assertEqual(casefile.end.call_args, ending)

    def test_interrupted_before_the_search(self) -> None:
        with mock.patch.object(main, "with_containers", side_effect=Stopped()):
            status, out, _ = self.run_with()
        self.assertEqual((status, "interrupted before any volume was checked" in out), (130, True))

    def test_what_an_interrupted_run_says(self) -> None:
        """Whether something was good until then; those alone are printed whose volumes were looked at."""
        good, bad, unseen = candidate(verdict=whole()), candidate(verdict=whole(False, 0)), candidate()
        for found, best, said, printed in (([], Score.NOTHING, main.NOT_TESTED, 0), ([unseen, bad], Score.NOTHING, main.NONE_GOOD, 1),
                                           ([unseen, good], Score.WHOLE, "interrupted", 1)):
            report, casefile = Told(as_json=True), mock.Mock()
            search = mock.Mock(tested=found, images=tuple(Image(f"i{number}", number, 8000) for number in range(3)), memory=None)
            search.run.side_effect, search.best.return_value = Stopped(), best
            self.assertEqual(main.searched(search, report, casefile), 130)
            events = [json.loads(line) for line in report.lines]
            self.assertEqual([it["event"] for it in events].count("candidate"), printed)
            self.assertEqual((events[-1], report.record.last("interrupted")["text"]), ({"event": "interrupted", "interrupted": True}, said))
            casefile.end.assert_called_once_with(search, 130, ended=True)
            search.say_reshapes.assert_called_once_with()
        search.memory = mock.Mock(runs=[])
        search.memory.name = "kept"
        main.searched(search, report, casefile)
        self.assertIn("To continue, repeat the command", report.record.last("kept")["text"])

    def test_who_runs_the_commands_of_a_search(self) -> None:
        """With a memory what was answered before is not asked again; images in containers are known by their names."""
        commands, memory, opened = mock.Mock(), mock.Mock(), mock.Mock(path="/run/disk")
        opened.name = "a.qcow2"
        self.assertIs(main.remembering(commands, None, Options(())), commands)
        found = main.remembering(commands, memory, Options((), opened=(opened,)))
        assert isinstance(found, Remembering)
        self.assertEqual((found.commands, found.memory, found.names), (commands, memory, {"/run/disk": "a.qcow2"}))

    def test_what_is_said_first(self) -> None:
        """Of images what they are; where standard error is no terminal the run is watched."""
        self.images.append(self.file("c.vmdk", bytes(1024)))
        with mock.patch.object(Bar, "watch") as watch:
            _, out, _ = self.run_with()
        watch.assert_called_once_with()
        self.assertIn("c.vmdk: its contents are not VMDK, as its name suggests; it is read as a raw image\n", out)

    def test_a_second_signal_is_ignored(self) -> None:
        """The first one ends the commands and then the run, which prints its table in peace."""
        went_on: list[int] = []

        def twice() -> None:
            try:
                signal.raise_signal(signal.SIGINT)
            except Stopped:
                signal.raise_signal(signal.SIGTERM)
                signal.raise_signal(signal.SIGINT)
                went_on.append(1)
                raise
        with mock.patch.object(Commands, "stop") as stop:
            status, _, _ = self.run_with(happens=twice)
        self.assertEqual((status, went_on, stop.call_count), (130, [1], 2))

    def test_what_commands_are_told_to(self) -> None:
        """Commands are shown where that is asked for, and how far they are where there is a terminal; the log is theirs."""
        for words, shown in (((), False), (("-x",), True)):
            log, show, progress = self.ended(*words)[1]["Commands"].call_args[0]
            self.assertEqual((log, show is not None, progress), (None, shown, None))
        with mock.patch.object(Bar, "clear"), mock.patch("sys.stderr.isatty", return_value=True, create=True):
            name = os.path.join(self.folder, "a log")
            with mock.patch.object(main, "Commands") as commands, mock.patch.object(main, "Log") as log:
                log.return_value.had = 0
                self.run_with("--log", name)
        self.assertIs(commands.call_args[0][0], log.return_value)
        log.return_value.close.assert_called_once_with()


class Files(Runs):
    def test_log(self) -> None:
        name = os.path.join(self.folder, "log")
        status, out, _ = self.run_with("--log", name)
        self.assertEqual((status, "the log is appended" in out), (1, False))
        status, out, _ = self.run_with("--log", name)
        with open(name, encoding="utf-8") as file:
            lines = file.read().splitlines()
        self.assertEqual((status, len(lines), all("reraid-try --log" in line for line in lines)), (1, 2, True))
        self.assertIn("the log is appended", out)

    def test_files_that_cannot_be_written(self) -> None:
        nowhere = os.path.join(self.folder, "no", "file")
        for words in (["--log", nowhere], ["--report", nowhere], ["--log", "/dev/full"]):
            status, _, line = self.run_with(*words)
            self.assertEqual((status, line.count("\n"), line.startswith(LINE), "cannot be written" in line), (3, 1, True, True), line)

    def test_resume(self) -> None:
        name = os.path.join(self.folder, "kept")
        status, out, _ = self.run_with("--resume", name, happens=raising(Stopped()))
        self.assertEqual((status, "kept is new" in out, "To continue, repeat the command" in out, "reused" in out), (130, True, True, False))
        status, out, _ = self.run_with("--resume", name)
        self.assertEqual((status, "from 1 run over these images" in out, "reused from" in out), (1, True, True))
        with open(name, "rb") as file:
            before = file.read()
        self.images.reverse()
        status, _, line = self.run_with("--resume", name)
        self.assertEqual((status, line.startswith(LINE), "is of another search" in line), (3, True, True))
        with open(name, "rb") as file:
            self.assertEqual(file.read(), before)

    def test_report(self) -> None:
        name = os.path.join(self.folder, "page.html")
        status, _, _ = self.run_with("--report", name, happens=raising(OutsideError("why")))
        self.assertEqual((status, os.path.exists(name)), (3, False))
        self.file("page.html", "mine")
        status, _, line = self.run_with("--report", name)
        self.assertEqual((status, "exists already: name another file" in line), (2, True))
        with open(name, encoding="utf-8") as file:
            self.assertEqual(file.read(), "mine")

    def test_report_of_a_run_that_goes_on(self) -> None:
        """The same words go on with --resume, and the report of the run that was ended is replaced."""
        words = ["--resume", f"{self.folder}/kept", "--report", f"{self.folder}/page.html"]
        pages = []
        for happens, ended in ((raising(Stopped()), 130), (lambda: None, 1)):
            status, _, _ = self.run_with(*words, happens=happens)
            with open(words[3], encoding="utf-8") as file:
                pages.append(file.read())
            self.assertEqual(status, ended)
        self.assertEqual(["it was interrupted" in it for it in pages], [True, False])

    def test_images_in_containers_that_are_not_opened(self) -> None:
        self.images.append(self.file("c.L01", b"LVF\x09\x0d\x0a\xff\x00"))
        status, _, line = self.run_with()
        self.assertEqual((status, "logical evidence" in line), (3, True))
        self.assertEqual(self.run_with("--raw")[0], 1)


class Words(Runs):
    def test_words_that_are_wrong(self) -> None:
        nothing = os.path.join(self.folder, "nothing")
        for words, said in [(["--members", "x"], "give numbers of disks, separated"), (["--members", "1"], "disks from 2 to 24"),
                            (["--members", "25"], "disks from 2 to 24"), (["--levels", "1"], "give levels out of"), (["--time", "0"], "above 0"),
                            (["--every", "0"], "above 0"),
                            (["--first", "5"], "give at least 1M"), (["--first", "xG"], "give a size in bytes"), (["-j", "-1"], "above 0"),
                            (["--room", nothing], "this is not a folder"), ([nothing], f"{nothing}: No such file"),
                            ([self.folder], f"{self.folder} is a folder: give the images in it, such as {self.folder}/*"),
                            ([self.file("empty")], "empty is empty: leave it out"), ([self.images[0]], f"{self.images[0]} is given twice"),
                            (["--no-such-word"], "unrecognized"),
                            ([self.file(f"i{number}", "x") for number in range(23)], "25 images: at most 24")]:
            status, _, line = self.run_with(*words)
            self.assertEqual((status, said in line), (2, True), (words, line))

    def test_help(self) -> None:
        """It is reached by each of the words that people try, alone; an image of that name is an image."""
        images, self.images = self.images, []
        for word in ("help", "-h", "--help"):
            status, out, _ = self.run_with(word)
            self.assertEqual((status, out.startswith("usage: ")), (0, True))
        self.images = images
        status, _, line = self.run_with("help")
        self.assertEqual((status, "help: No such file" in line), (2, True))

    def test_no_program(self) -> None:
        os.remove(os.path.join(self.folder, "reraid"))
        with mock.patch.dict(os.environ, PATH=self.folder):
            status, _, line = self.run_with()
        self.assertEqual((status, "reraid is not on the PATH" in line), (2, True))

    def test_words_that_are_right(self) -> None:
        it = options.read_words(["--json", "--members", "4,5", "--levels", "5,6", "--first", "3g", "--time", "7", "-j", "2", "--hash",
                                 "--every", "5", *self.images])
        self.assertEqual(it, Options(tuple(self.images), True, False, 2, (4, 5), ("5", "6"), 3 * GIB, 7, hashes=True, every=5))
        self.assertEqual((it.wants("5"), it.wants("10")), (True, False))
        usual = options.read_words(self.images)
        self.assertEqual((usual.members, usual.levels, usual.first, usual.seconds, usual.every), (None, ("0", "5", "6", "10"), 16 * GIB, 60, 60))
        self.assertEqual(options.read_words(["--members", "2,24", *self.images]).members, (2, 24))
        self.assertEqual(options.read_words(["--all", *self.images]).first, ALL)
        self.assertEqual(options.read_words(["--first", "1M", *self.images]).first, MIB)


if __name__ == "__main__":
    unittest.main()
