"""Commands: what they give, their time, pipelines, their end, and the log."""

import os
import threading
import time
import unittest
from unittest import mock

from reraid_try.calls import commands as commands_module
from reraid_try.calls.commands import Commands, Log
from reraid_try.errors import OutsideError, Stopped
from tests.standin import InFolder


def lives(name: str) -> bool:
    """A process with this word is there."""
    for number in filter(str.isdigit, os.listdir("/proc")):
        try:
            with open(f"/proc/{number}/cmdline", "rb") as file:
                if name.encode() in file.read().split(b"\0"):
                    return True
        except OSError:
            pass
    return False


def gone(name: str) -> bool:
    """No process with this word is there, soon."""
    for _ in range(500):
        if not lives(name):
            return True
        time.sleep(0.02)
    return False


class Runs(InFolder):
    def test_answer(self) -> None:
        answer = Commands().run(["sh", "-c", "cat; echo wrong >&2; exit 3"], "text")
        self.assertEqual((answer.status, answer.out, answer.error, answer.good), (3, "text", "wrong\n", False))

    def test_pipeline_has_the_first_status_that_is_not_0(self) -> None:
        answer = Commands().shell([["sh", "-c", "cat; exit 4"], ["tr", "a", "b"]], "aa")
        self.assertEqual((answer.status, answer.out), (4, "bb"))

    def test_words_are_numbers_too(self) -> None:
        self.assertEqual(Commands().run(["echo", 5]).out, "5\n")

    def test_time(self) -> None:
        began = time.monotonic()
        answer = Commands().run(["sleep", "20"], seconds=0.2)
        self.assertIsNone(answer.status)
        self.assertFalse(answer.good)
        self.assertLess(time.monotonic() - began, 10)

    def test_missing_command(self) -> None:
        answer = Commands().run(["no-such-command-here"])
        self.assertEqual(answer.status, 127)
        self.assertIn("no-such-command-here", answer.error)

    def test_earlier_ones_end_where_a_later_is_missing(self) -> None:
        seconds = f"973.1{os.getpid()}"
        self.assertEqual(Commands().shell([["sleep", seconds], ["no-such-command-here"]]).status, 127)
        self.assertTrue(gone(seconds))

    def test_stop_ends_what_runs_and_no_other_begins(self) -> None:
        commands = Commands()
        seconds = f"973.2{os.getpid()}"
        threading.Timer(0.3, commands.stop).start()
        with self.assertRaises(Stopped):
            commands.run(["sleep", seconds])
        self.assertTrue(gone(seconds))
        with self.assertRaises(Stopped):
            commands.run(["true"])

    @unittest.skipUnless(os.path.exists("/proc/self/io"), "nothing tells what a process has read")
    def test_how_much_is_read(self) -> None:
        told: list[tuple[str, int, float]] = []
        with mock.patch.object(commands_module, "FIRST_LOOK", 0.3), mock.patch.object(commands_module, "NEXT_LOOK", 0.1):
            commands = Commands(progress=lambda name, count, seconds: told.append((name, count, seconds)))
            commands.run(["sh", "-c", "read line; sleep 1"], "a" * 30000 + "\n")
        self.assertEqual({name for name, _, _ in told}, {"sh -c"})
        self.assertTrue(all(0.3 <= seconds < 60 for _, _, seconds in told))
        # Besides the line a shell reads the heads of its libraries alone.
        self.assertTrue(30000 < told[-1][1] < 100000)

    def test_shown(self) -> None:
        told: list[str] = []
        Commands(show=told.append).tell("x")
        Commands().tell("y")
        self.assertEqual(told, ["x"])


class Logs(InFolder):
    def test_goes_on_behind_what_is_there(self) -> None:
        name = self.file("log", "old\n")
        log = Log(name, ["reraid-try", "a b"])
        self.assertEqual(log.had, 4)
        commands = Commands(log)
        commands.run(["true"])
        commands.run(["sleep", "9"], seconds=0.1)
        commands.run(["no-such-command-here"])
        log.close()
        with open(name, encoding="utf-8") as file:
            lines = file.read().splitlines()
        self.assertEqual(lines[0], "old")
        self.assertRegex(lines[1], r"^# \d{4}-\d\d-\d\dT.*\treraid-try 'a b'$")
        self.assertRegex(lines[2], r"^0\t\d+\.\d\d\ttrue$")
        self.assertRegex(lines[3], r"^time\t0\.\d\d\tsleep 9$")
        self.assertRegex(lines[4], r"^127\t")

    def test_that_cannot_be_written(self) -> None:
        with self.assertRaisesRegex(OutsideError, "^the log .*/there/log cannot be written: No such file"):
            Log(f"{self.folder}/there/log", [])
        with self.assertRaisesRegex(OutsideError, "No space left"):
            Log("/dev/full", [])


if __name__ == "__main__":
    unittest.main()
