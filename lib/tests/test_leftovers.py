"""What killed runs leave behind: it is found, named and removed, and what a run still uses is left alone."""

import os
import subprocess
import sys
import time
from unittest import mock

from reraid_try.checks import leftovers
from reraid_try.checks.leftovers import LOCK, PREFIX, VARIABLE, Left
from tests.standin import InFolder


class Leftovers(InFolder):
    def room(self, name: str, seconds: float = 60, lock: bool = True) -> str:
        """A folder of a run that was made so many seconds ago."""
        path = f"{self.folder}/{PREFIX}{name}"
        os.mkdir(path)
        if lock:
            self.file(f"{PREFIX}{name}/{LOCK}")
        os.utime(path, (time.time() - seconds,) * 2)
        return path

    def process(self, room: str) -> "subprocess.Popen[bytes]":
        """A program that a run in this folder started."""
        child = subprocess.Popen([sys.executable, "-c", "print(1, flush=True); input()"], stdin=subprocess.PIPE, stdout=subprocess.PIPE,
                                 env=os.environ | {VARIABLE: room})
        self.addCleanup(child.communicate)
        self.addCleanup(child.kill)
        assert child.stdout
        child.stdout.readline()
        return child

    def test_what_is_left(self) -> None:
        """The folder of a killed run is left; one of a run that lives, a new one, and other folders are not."""
        old, unlocked, living, _ = self.room("old"), self.room("unlocked", lock=False), self.room("living"), self.room("new", 0, False)
        os.mkdir(f"{self.folder}/other")
        self.file(f"{PREFIX}file")
        lock = leftovers.locked(f"{living}/{LOCK}", "r")
        assert lock
        with lock:
            self.assertEqual(leftovers.left_in(self.folder), [Left(old), Left(unlocked)])
            self.assertIsNone(leftovers.locked(f"{living}/{LOCK}", "r"))
        self.assertEqual(leftovers.left_in(f"{self.folder}/nothing"), [])

    def test_its_processes(self) -> None:
        """The processes of the run are found by their environment, and ended; those of another folder are not."""
        old, other = self.room("old"), self.room("other")
        own, theirs = self.process(old), self.process(other)
        found = leftovers.left_in(self.folder)
        self.assertEqual(found, [Left(old, (), (own.pid,)), Left(other, (), (theirs.pid,))])
        self.assertTrue(leftovers.remove(found[0]))
        self.assertEqual((own.wait(20), theirs.poll(), os.path.exists(old), os.path.exists(other)), (-9, None, False, True))

    def test_its_mounts(self) -> None:
        """The mount points in the folder are found, the latest first, with blanks in their names; those beside it are not."""
        table = self.file("mounts", "x /a\\040b/c fuse ro 0 0\ny /a\\040b/c/d fuse ro 0 0\nz /a\\040bc/e fuse ro 0 0\nroot /a\\040b ext4 rw 0 0\n")
        with mock.patch.object(leftovers, "MOUNTS", table):
            self.assertEqual(list(leftovers.mounts_in("/a b")), ["/a b/c/d", "/a b/c"])

    def test_what_stays_mounted(self) -> None:
        """Nothing is removed below a mount point that stays."""
        old = self.room("old")
        table = self.file("mounts", f"x {old}/1.mount fuse ro 0 0\n")
        with mock.patch.object(leftovers, "MOUNTS", table), mock.patch.object(leftovers, "unmount") as unmount:
            found = leftovers.left_in(self.folder)
            self.assertEqual(found, [Left(old, (f"{old}/1.mount",))])
            self.assertFalse(leftovers.remove(found[0]))
        unmount.assert_called_once_with(f"{old}/1.mount")
        self.assertTrue(os.path.exists(f"{old}/{LOCK}"))

    def test_what_is_said(self) -> None:
        for left, said in ((Left("/t/x"), "/t/x"), (Left("/t/x", ("a",), (1, 2)), "/t/x with 1 mount and 2 processes"),
                           (Left("/t/x", ("a", "b"), (1,)), "/t/x with 2 mounts and 1 process")):
            self.assertEqual(left.what(), said)
