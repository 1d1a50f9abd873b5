"""Whole runs over a stand-in for reraid: the order of steps, where a run ends, what is printed, and every status."""

import contextlib
import io
import os
import pathlib
import shutil
import signal
import struct
import subprocess
import sys
import time
import types
import unittest
import zlib
from typing import Any, cast
from unittest import mock

from reraid_try import main, options
from reraid_try.calls import meter
from reraid_try.calls.commands import Answer
from reraid_try.calls.formats import Ranked
from reraid_try.calls.program import LAST
from reraid_try.calls.sets import read_word
from reraid_try.casefile.gathering import Casefile
from reraid_try.checks import checkers
from reraid_try.checks.verdicts import Score
from reraid_try.checks.volumes import Room
from reraid_try.errors import OutsideError, Stopped
from reraid_try.evidence import amounts
from reraid_try.options import Options
from reraid_try.policy import relaxations
from reraid_try.policy.relaxations import RelaxationKind
from reraid_try.policy.evident import Evident
from reraid_try.policy.search import Search
from reraid_try.policy.shapes import Shape
from reraid_try.policy.steps import Step
from reraid_try.report.report import Report, Shown
from reraid_try.units import MIB, SECTOR
from tests.standin import InFolder, Standin, Told, plan_of, put
from tests.test_policy import EXT, XFS, Marked

TOP = pathlib.Path(__file__).resolve().parent.parent.parent
TRUE = "5:ls:none:128:2048:0,1,2"
SIZE = 8000


def total(words: list[str]) -> Answer | None:
    """The answer to the question how many sets a plan has."""
    return put("", 6, "reraid: cursor 1 is past 84") if f"from={LAST}" in words else None


class Runs(InFolder):
    def search(self, *rows: tuple[str, object], groups: tuple[Marked, ...] = (XFS, EXT), **values: Any) -> Search:
        """A search over three images of which reraid says this."""
        names = tuple(self.file(f"{name}.img", name.encode() * SIZE * SECTOR) for name in "abc")
        text = plan_of(*groups, lengths=(SIZE,) * 3).text()
        usual: list[tuple[str, object]] = [("reraid relations", Answer(1)), ("/usr/sbin/mdadm", Answer(1)),
                                           ("reraid survey", put(text)), ("reraid mirrors", put("next 5 of 5\n")),
                                           ("reraid check", put("unsound 0 of 9\ngroup 0 xfs origin 0 fits 2 misfits 0\npass\n")),
                                           ("reraid classes", put("0 a\nclasses 1 of 1\n")), ("xfs_repair", put(""))]
        self.standin = Standin(*rows, *usual)  # type: ignore[arg-type]
        self.report = Told()
        room = Room(self.standin, self.folder, mounts=False)
        self.addCleanup(room.close)
        return Search(Options(names, jobs=1, **values), self.standin, self.report, room)

    def run_search(self, search: Search) -> Search:
        """Runs a search where xfs_repair is the only checker."""
        with mock.patch.object(checkers, "is_there", lambda tool: tool == "xfs_repair"):
            search.run()
        return search

    def listing(self, passes: str) -> tuple[str, object]:
        """What `list` says where a plan has a line that begins so."""
        def answer(words: list[str], text: str) -> Answer:
            there = passes in text and "2048" in text.split("offsets ")[1].split("\n")[0].split(",")
            return total(words) or put((f"3 {TRUE}\n" if there else "") + "next 84 of 84\n")
        return "reraid list", answer

    def volume(self, files: bytes = b"", length: int = 23 * 128 * 2 * SECTOR) -> tuple[str, object]:
        """What `write` puts: an XFS of so many bytes, with files behind it."""
        return "reraid write", Answer(0, (b"XFSB" + struct.pack(">IQ", 4096, length // 4096)).ljust(16 * SECTOR, b"\0") + files)

    def steps(self) -> list[str]:
        """The steps that were printed."""
        return [line.split(": ", 1)[1] for line in self.report.lines if line.startswith("step ")]

    def test_found_at_once(self) -> None:
        noise = os.urandom(300000)
        head = b"\x89PNG\r\n\x1a\n"
        body = struct.pack(">I", len(noise)) + b"IDAT" + noise + struct.pack(">I", zlib.crc32(b"IDAT" + noise))
        picture = head + body + struct.pack(">I", 0) + b"IEND" + struct.pack(">I", zlib.crc32(b"IEND"))
        search = self.run_search(self.search(self.listing("levels 5\n"), self.volume(picture)))
        self.assertIs(search.best(), Score.WHOLE)
        self.assertEqual([it.word.text for it in search.tested], [TRUE])
        self.assertEqual(self.steps()[-1], "RAID 5 of 3 disks; relaxed: nothing: 1 of 84 layouts passes")
        self.assertEqual(search.tested[0].rows, "parity is consistent in all 9 rows")
        self.assertIn("hint: data offset 2048 sectors, from landmark super on image 0: sector 2048 less 0; on 1 image", self.report.lines)

    def test_goes_on_where_a_checker_alone_is_content(self) -> None:
        marks = [("super", 0, 2048, "every:49152:4:0"), ("super", 1, 2048, "every:49152:4:0"), ("super", 1, 26624, "every:49152:4:0")]
        search = self.run_search(self.search(self.listing("levels 5\n"), self.volume(), groups=(("xfs", marks),)))
        self.assertIs(search.best(), Score.CHECKED)
        self.assertIn("continuing: only a checker supports the result", self.report.text)
        self.assertEqual(len(search.tested), 1)
        self.assertNotIn("diagnosis", self.report.text)

    def test_evidence_that_says_enough_ends_it(self) -> None:
        """An encrypted volume has no rating, and may have no score: nothing is searched over all images then, nor diagnosed."""
        with mock.patch.object(Evident, "run", lambda _: True):
            search = self.run_search(self.search())
        self.assertEqual((search.best(), search.solved, self.standin.count("reraid list"), self.standin.count("reraid survey")),
                         (Score.NOTHING, True, 0, 0))
        self.assertNotIn("diagnosis", self.report.text)

    def test_when_it_was_rated(self) -> None:
        """Of large images a line at the end says when the first layout was found that has a rating at the end; of others none."""
        search = self.search()
        search.look()
        for since, spoken_against in ((8, True), (30, False), (70, False), (None, False)):
            found = types.SimpleNamespace(since=since, score=Score.KNOWN if spoken_against else Score.CHECKED)
            search.tested.append(cast(Any, found))
        with mock.patch.object(meter, "read_of_images", lambda: 6 << 30):
            search.say_amount()
            self.assertFalse(any("all commands" in line for line in self.report.lines))
            with mock.patch.object(amounts, "first_pass", lambda *_: amounts.Amount((1,))):
                search.say_amount()
        self.assertEqual(self.report.lines[-1], f"{amounts.in_all(6 << 30, 3)}. The first rated layout was found after 30 s")
        self.assertEqual(self.report.record.last("read")["rated"], 30)

    def test_no_step_begins_at_the_bound(self) -> None:
        """Once all commands have read 8 GiB of each large image after the first pass, a layout with a rating ends the search; without one a line
        says that it goes on. Images that are not large have no bound."""
        rated, unrated = (cast(Any, types.SimpleNamespace(score=score)) for score in (Score.CHECKED, Score.KNOWN))
        for read, tested, is_large, ended, said in ((24, rated, True, True, "the search ends"), (23.9, rated, True, False, ""),
                                                    (24, unrated, True, False, "the search continues"), (90, rated, False, False, "")):
            search = self.search()
            search.look()
            search.tested.append(tested)
            amount = amounts.Amount((1,)) if is_large else None
            with mock.patch.object(meter, "read_of_images", lambda: int(read * 3 * (1 << 30))), \
                    mock.patch.object(amounts, "first_pass", lambda *_: amount):
                self.assertEqual([search.is_read(), search.is_read()], [ended, ended], (read, is_large))
                scope: Any = None
                if ended:
                    self.assertTrue(search.attempt(scope, Shape("5", 3), (), cast(Any, None)))
                    self.assertTrue(search.near_mirrors(cast(Any, types.SimpleNamespace(evidence=search)), 0))
            lines = [line for line in self.report.lines if "of each image is read" in line]
            self.assertEqual([said in line for line in lines], [True] if said else [], lines)

    def test_zeros_end_it(self) -> None:
        """Images of nothing but zeros are not searched; one that is too long to be read is."""
        for first, wanted in ((16 * MIB, True), (SECTOR, False)):
            search = self.search(first=first)
            for name in search.options.images:
                with open(name, "wb") as file:
                    file.truncate(SIZE * SECTOR)
            with mock.patch.object(Evident, "run", lambda _: True):
                self.run_search(search)
            said = "the images hold nothing but zeros: there is nothing to search" in self.report.lines
            self.assertEqual((said, search.best(), self.standin.count("reraid list")), (wanted, Score.NOTHING, 0))

    def test_want_of_room_is_said_at_the_start(self) -> None:
        """Where less is free than the images hold, and once."""
        for free, said in ((3 * SIZE * SECTOR - 1, 1), (1 << 40, 0)):
            search = self.search()
            with mock.patch.object(Room, "free", lambda _, free=free: free):
                search.look()
                search.look()
            self.assertEqual(sum(line.startswith(f"{search.room.base} has ") for line in self.report.lines), said)
            self.assertEqual(self.report.record.last("room").get("images", 3 * SIZE * SECTOR), 3 * SIZE * SECTOR)

    def test_mounted_volumes_need_no_room(self) -> None:
        """Where volumes are mounted only copies need room, and nothing else is said."""
        search = self.search()
        search.room.mounts = True
        with mock.patch.object(Room, "free", lambda _: SECTOR):
            search.look()
        line, = (line for line in self.report.lines if line.startswith(f"{search.room.base} has "))
        self.assertIn("A checker that needs a copy of a longer file system does not run", line)
        self.assertNotIn("for volumes", line)

    def test_a_small_file_system_has_no_rating(self) -> None:
        few: dict[str, Any] = {"levels": ("5",), "members": (3,), "seconds": 1}
        search = self.run_search(self.search(self.listing("levels 5\n"), self.volume(length=512 * 1024), **few))
        self.assertIs(search.best(), Score.KNOWN)
        self.assertEqual(search.tested[0].doubts, ["what was found covers 8% of the volume"])

    def test_statuses(self) -> None:
        few: dict[str, Any] = {"levels": ("5",), "members": (3,), "seconds": 1}
        for rows, status in (((self.listing("levels 5\n"), self.volume()), 0), ((self.listing("no such line"),), 1),
                             ((self.listing("levels 5\n"), self.volume(), ("xfs_repair", Answer(1))), 1),
                             ((self.listing("levels 5\n"), self.volume(length=512 * 1024)), 1)):
            with mock.patch.object(checkers, "is_there", lambda tool: tool == "xfs_repair"):
                search = self.search(*rows, **few)
                self.assertEqual(main.searched(search, self.report, Casefile(search.options, [], self.report, search.commands)), status)

    def test_nothing_passes(self) -> None:
        search = self.run_search(self.search(self.listing("no such line"), seconds=1, members=(3,), levels=("5",)))
        self.assertEqual((search.tested, search.best()), ([], Score.NOTHING))
        self.assertTrue(any(line.startswith("nearest layouts: ") for line in self.report.lines))
        self.assertRegex(self.standin.noted[-1], r"^# skipped \d+ steps: landmarks by themselves, or parity by itself, allow no layout$")

    def test_the_simplest_set_is_named(self) -> None:
        def answer(words: list[str], text: str) -> Answer:
            six = "3 6:ls-6:after-q:128:2048:0,1,2,-\n4 6:ls:after-q:128:2048:0,1,2,-\n"
            return total(words) or put((six if "levels 6\n" in text else "") + "next 84 of 84\n")
        classes = ("reraid classes", put("0 a\n0 b\nclasses 1 of 2\n"))
        search = self.run_search(self.search(("reraid list", answer), self.volume(), classes, levels=("6",)))
        self.assertEqual([(it.word.text, it.alike) for it in search.tested],
                         [(TRUE, ["6:ls-6:after-q:128:2048:0,1,2,-", "6:ls:after-q:128:2048:0,1,2,-"])])

    def test_refused_steps_are_said(self) -> None:
        self.run_search(self.search(("reraid list", put("", 5, "reraid: the product has more than 18446744073709551615 sets\n")), levels=("0",)))
        self.assertIn("  reraid: the product has more than 18446744073709551615 sets", self.report.lines)

    def test_mirrors(self) -> None:
        def mirrors(words: list[str], _: str) -> Answer:
            return put("7 near2:8:2048:0,1,2,-\nnext 9 of 9\n" if "members=4" in words else "next 9 of 9\n")
        written = ("reraid mirrorwrite", self.volume()[1])

        def striped(words: list[str], _: str) -> Answer:
            return total(words) or put("3 0:plain:none:128:2048:0,1\nnext 84 of 84\n")
        rows = ("reraid mirrors", mirrors), ("reraid list", striped), written
        found = self.search(*rows, groups=(XFS,), levels=("10",), members=(4,))
        search = self.run_search(found)
        self.assertIn("  pairs 0=1 image 2 without a copy: a RAID 0 of 2 disks", self.report.lines)
        self.assertEqual([it.word.text for it in search.tested], ["near2:128:2048:0,1,2,-"])

    def test_what_was_put_off_without_landmarks_may_be_listed_with_them(self) -> None:
        """Then it is tested; a set that was put off with landmarks is not listed again."""
        search = self.search()
        search.tests = cast(Any, types.SimpleNamespace(test=lambda _: [], without_damaged=lambda _: [], tell=None,
                                                       put_off=[types.SimpleNamespace(word=read_word(TRUE))]))
        scope = cast(Any, types.SimpleNamespace(evidence=types.SimpleNamespace(pairs=None)))
        for chosen, known in (((relaxations.told("no landmarks", RelaxationKind.BARE),), set()), ((), {TRUE})):
            step = Step(Shape("5", 3), chosen)
            search.take(scope, step, [Ranked(3, TRUE)], lambda it: (read_word(it.text), read_word(it.text)))
            self.assertEqual(search.known, known)

    def test_stopped_in_the_midst(self) -> None:
        calls: list[int] = []

        def write(_words: list[str], _text: str) -> Answer:
            calls.append(1)
            raise Stopped
        search = self.search(self.listing("levels 5\n"), ("reraid write", write))
        with self.assertRaises(Stopped):
            self.run_search(search)
        self.assertEqual((search.tested, len(calls)), ([], 1))

    def test_goes_on_to_all_of_small_images(self) -> None:
        search = self.run_search(self.search(self.listing("no such line"), groups=(), first=2 * MIB, seconds=1, members=(3,), levels=("5",)))
        self.assertIn("nothing was found in the first part. All images are small, so the search continues over all of them", self.report.lines)
        self.assertTrue(any(line.startswith("reading all of the images") for line in self.report.lines))
        self.assertGreater(search.options.first, 1 << 60)


class Words(InFolder):
    def test_sizes_and_lists(self) -> None:
        self.assertEqual([options.size(text) for text in ("1M", "2g", "1048576")], [MIB, 2 << 30, MIB])
        self.assertEqual((options.members("4,5"), options.levels("0,10"), options.positive("3")), ((4, 5), ("0", "10"), 3))

    def read(self, *words: str) -> Options:
        """The options of these words, with some reraid on the path."""
        with mock.patch("shutil.which", lambda name: name), mock.patch("sys.stderr"):
            return options.read_words(words)

    def test_read(self) -> None:
        name = self.file("a", "x")
        it = self.read("--all", "--json", "-x", "-j", "3", "--time", "7", "--levels", "5", "--members", "4", "--room", self.folder,
                       "--log", "l", name)
        self.assertEqual(it, Options((name,), True, True, 3, (4,), ("5",), 1 << 62, 7, self.folder, "l", shown=Shown.DETAILS))
        self.assertEqual((self.read("--first", "2M", name).first, self.read(name).first), (2 * MIB, 16 << 30))
        self.assertEqual((it.wants("5"), it.wants("6")), (True, False))

    def test_wrong_words(self) -> None:
        name = self.file("a", "x")
        for words in ((), ("none",), (self.folder,), ("--time", "0", name), ("--first", "1K", name), ("--levels", "4", name),
                      ("--members", "1", name), ("--members", "25", name), ("--room", name, name), (name,) * 25):
            with self.assertRaises(SystemExit) as ended:
                self.read(*words)
            self.assertEqual(ended.exception.code, 2, words)


# What FAKE and a run need of the system. No other program is on the PATH, so that it does not matter which are installed.
NEEDED = ("cat", "dd", "head", "sh", "sleep")
FAKE = """#!/bin/sh
case $1 in
survey)
    case $MODE in
    refused) echo "reraid: image read fault" >&2; exit 10 ;;
    noise) echo "what is this"; exit 0 ;;
    slow) sleep 30 ;;
    esac
    cat "$PLAN" ;;
list)
    text=$(cat)
    case $* in *from=18446744073709551615*) echo "reraid: cursor 1 is past 84" >&2; exit 6 ;; esac
    [ "$MODE" != "slow list" ] || sleep 30
    case $text in *"levels 5"*) echo "3 5:ls:none:128:2048:0,1,2" ;; esac
    echo "next 84 of 84" ;;
check) printf 'rank -\\nunsound 0 of 1000\\ngroup 0 xfs origin 0 fits 2 misfits 0\\npass\\n' ;;
mirrors) echo "next 5 of 5" ;;
classes) printf '0 a\\nclasses 1 of 1\\n' ;;
write) cat "$PLAN.volume" ;;
*) exit 1 ;;
esac
"""


class Statuses(InFolder):
    """Runs the program itself, with a reraid and a checker that are scripts."""

    def setUp(self) -> None:
        super().setUp()
        os.mkdir(f"{self.folder}/tools")
        os.mkdir(f"{self.folder}/room")
        # What is installed beside has no part in it: nothing can be mounted.
        absent = [(name, "#!/bin/sh\nexit 1\n") for name in ("reraid-nbd", "nbdfuse", "fusermount3")]
        for name, text in (("reraid", FAKE), ("xfs_repair", "#!/bin/sh\nexit ${FAULT:-0}\n"), ("blkid", "#!/bin/sh\necho TYPE=xfs\n"), *absent):
            os.chmod(self.file(f"tools/{name}", text), 0o755)
        for name in NEEDED:
            os.symlink(shutil.which(name) or name, f"{self.folder}/tools/{name}")
        self.images = [self.file(f"{name}.img", name.encode() * SIZE * SECTOR) for name in "abc"]
        self.file("plan", plan_of(XFS, EXT, lengths=(SIZE,) * 3).text())
        size = 5888 * SECTOR
        self.file("plan.volume", (b"XFSB" + struct.pack(">IQ", 4096, size // 4096)).ljust(size, b"\0"))

    def env(self, **values: str) -> dict[str, str]:
        """Return the environment of a run."""
        return {**os.environ, "PLAN": f"{self.folder}/plan", "PATH": f"{self.folder}/tools", "LC_ALL": "C.UTF-8", **values}

    def words(self, *words: str) -> list[str]:
        """A command line."""
        return [sys.executable, "-c", "import sys; from reraid_try.main import main; sys.exit(main(sys.argv[1:]))", "--room", f"{self.folder}/room",
                "--time", "5", "-j", "1", *words]

    def ends(self, status: int, *words: str, says: str = "", **values: str) -> str:
        """A run that ends with this status, and leaves nothing in its room; what it printed."""
        out, error = io.StringIO(), io.StringIO()
        handlers = {number: signal.getsignal(number) for number in main.ENDING}
        try:
            with mock.patch.dict(os.environ, self.env(**values)), contextlib.redirect_stdout(out), contextlib.redirect_stderr(error):
                ended = main.main(["--room", f"{self.folder}/room", "--time", "60", "-j", "1", *words, *self.images])
        except SystemExit as exit_:
            ended = int(exit_.code or 0)
        finally:
            for number, handler in handlers.items():
                signal.signal(number, handler)
        self.assertIn(says, error.getvalue() + out.getvalue())
        self.assertEqual(ended, status, error.getvalue())
        self.assertEqual(os.listdir(f"{self.folder}/room"), [])
        return out.getvalue()

    def test_rated(self) -> None:
        text = self.ends(0, "--levels", "5", "--members", "3", says="candidate 0: RAID 5 of 3 disks, left-symmetric")
        self.assertRegex(text, r"(?m)^\+   0   5:ls:none:128:2048:0,1,2\n(?: {8}.*\n)*? {8}relaxed: nothing; landmarks that match: xfs 2")

    def test_wrong_words(self) -> None:
        self.ends(2, "--levels", "4", says="give levels out of 0, 5, 6 and 10")
        self.ends(2, says="the program reraid is not on the PATH: install it, or add its folder", PATH="/nowhere")

    def test_map_that_is_none(self) -> None:
        self.file("b.img.map", "0x0 +\nno map\n")
        self.ends(3, says="reraid-try: " + self.images[1] + ".map is not a ddrescue mapfile: line 2")

    def test_survey_that_is_refused(self) -> None:
        self.ends(3, says="reraid-try: reraid: image read fault", MODE="refused")
        self.ends(3, says="reraid-try: what reraid survey printed is no plan", MODE="noise")

    def test_log_and_room_that_cannot_be_written(self) -> None:
        self.ends(3, "--log", f"{self.folder}/none/log", says="the log ")
        self.ends(3, "--log", "/dev/full", says="No space left on device")
        self.ends(3, "--room", "/proc", says="/proc cannot be written")

    def test_log_is_kept(self) -> None:
        log = self.file("log", "old\n")
        self.ends(0, "--levels", "5", "--members", "3", "--log", log, says=f"{log} has 4 bytes already: the log is appended")
        with open(log, encoding="utf-8") as file:
            lines = file.read().splitlines()
        self.assertEqual(lines[0], "old")
        self.assertTrue(any("reraid survey" in line for line in lines))

    def test_output_that_cannot_be_written(self) -> None:
        report = Report()
        with mock.patch("builtins.print", side_effect=OSError(28, "No space left on device")):
            with self.assertRaisesRegex(OutsideError, "^standard output cannot be written: No space left on device$"):
                report.put("line")

    def test_output_that_nobody_reads(self) -> None:
        with subprocess.Popen(self.words(*self.images), env=self.env(), cwd=TOP / "lib", stdout=subprocess.PIPE, stderr=subprocess.PIPE,
                              text=True) as run:
            assert run.stdout and run.stderr
            run.stdout.readline()
            run.stdout.close()
            self.assertNotIn("Traceback", run.stderr.read())
            self.assertEqual(run.wait(), 141)
        self.assertEqual(os.listdir(f"{self.folder}/room"), [])

    def interrupted(self, mode: str, number: int) -> str:
        """What a run prints that is told to end while a command runs."""
        with subprocess.Popen(self.words(*self.images), env=self.env(MODE=mode), cwd=TOP / "lib", stdout=subprocess.PIPE, stderr=subprocess.PIPE,
                              text=True) as run:
            assert run.stdout
            first = next(line for line in run.stdout if line.startswith("reading all"))
            time.sleep(0.5)
            run.send_signal(number)
            out, error = run.communicate(timeout=60)
        self.assertIn("11 MiB", first)
        self.assertEqual((run.returncode, "Traceback" in error), (130, False))
        self.assertEqual(os.listdir(f"{self.folder}/room"), [])
        return out

    def test_interrupted(self) -> None:
        self.assertIn("interrupted before any volume was checked", self.interrupted("slow", signal.SIGINT))
        self.assertRegex(self.interrupted("slow list", signal.SIGTERM), r"no candidates\..*\ninterrupted before any volume was checked")

    def test_numbers(self) -> None:
        self.assertEqual((main.RATED, main.NONE, main.OUTSIDE, main.INTERRUPTED, main.CLOSED), (0, 1, 3, 130, 141))


if __name__ == "__main__":
    unittest.main()
