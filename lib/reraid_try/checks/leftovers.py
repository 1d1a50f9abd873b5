"""What a run leaves behind that was killed: its folder, the mounts in it, and the programs that it started. The next run names them, and
`reraid-try --clean` removes them."""

import contextlib
import dataclasses
import fcntl
import os
import re
import shutil
import signal
import subprocess
import tempfile
import time
from collections.abc import Iterator
from typing import IO

from ..units import counted

# The prefix of the folders of runs, the file in each that its run locks, and the variable that names the folder to the programs of the run.
PREFIX, LOCK, VARIABLE = "reraid-try.", "lock", "RERAID_TRY_ROOM"
# Seconds in which a new folder may still get its lock.
NEW = 2
MOUNTS = "/proc/self/mounts"


@dataclasses.dataclass(frozen=True)
class Left:
    """The folder of a run that was killed, the mount points in it, and the numbers of its processes."""

    folder: str
    mounts: tuple[str, ...] = ()
    processes: tuple[int, ...] = ()

    def what(self) -> str:
        """Return the folder with the number of its mounts and processes."""
        counts = [counted(len(self.mounts), "mount")] * bool(self.mounts)
        counts += [f"{len(self.processes)} process" + ("es" if len(self.processes) > 1 else "")] * bool(self.processes)
        return self.folder + (f" with {' and '.join(counts)}" if counts else "")


def locked(path: str, mode: str) -> IO[str] | None:
    """Open a file and lock it; None if another run holds the lock."""
    file = open(path, mode, encoding="ascii")
    try:
        fcntl.flock(file, fcntl.LOCK_EX | fcntl.LOCK_NB)
    except OSError:
        file.close()
        return None
    return file


def is_left(folder: str) -> bool:
    """No run holds the lock of this folder. A folder that is just made has no lock yet."""
    try:
        if time.time() - os.stat(folder).st_mtime < NEW:
            return False
        lock = locked(os.path.join(folder, LOCK), "r")
    except FileNotFoundError:
        return os.path.isdir(folder)
    except OSError:
        return False
    if lock:
        lock.close()
    return lock is not None


def mounts_in(folder: str) -> Iterator[str]:
    """Yield the mount points in a folder, the latest first."""
    with open(MOUNTS, encoding="utf-8", errors="surrogateescape") as file:
        points = [line.split(" ")[1] for line in file]
    for point in reversed(points):
        plain = re.sub(r"\\(\d{3})", lambda match: chr(int(match[1], 8)), point)
        if plain.startswith(folder + os.sep):
            yield plain


def processes_of(folder: str) -> Iterator[int]:
    """Yield the numbers of the processes whose environment names a folder."""
    wanted = os.fsencode(f"{VARIABLE}={folder}")
    for number in filter(str.isdigit, os.listdir("/proc")):
        try:
            with open(f"/proc/{number}/environ", "rb") as file:
                named = wanted in file.read().split(b"\0")
        except OSError:
            continue
        if named and int(number) != os.getpid():
            yield int(number)


def left_in(room: str | None) -> list[Left]:
    """Return what killed runs left in a folder for volumes, as far as this user may see it."""
    where = os.path.abspath(room or tempfile.gettempdir())
    try:
        folders = sorted(os.path.join(where, name) for name in os.listdir(where) if name.startswith(PREFIX))
    except OSError:
        return []
    return [Left(it, tuple(mounts_in(os.path.realpath(it))), tuple(processes_of(it))) for it in folders if is_left(it)]


def unmount(folder: str) -> None:
    """Unmount what is mounted on a folder, whether or not its server still answers."""
    words = ["fusermount3", "-u", "-z", folder] if shutil.which("fusermount3") else ["umount", "-l", folder]
    with contextlib.suppress(OSError):
        subprocess.run(words, stdin=subprocess.DEVNULL, capture_output=True, check=False)


def remove(left: Left) -> bool:
    """End the processes, unmount the volumes and remove the folder; return whether all of it is gone."""
    for number in left.processes:
        with contextlib.suppress(OSError):
            os.kill(number, signal.SIGKILL)
    for point in left.mounts:
        unmount(point)
    if any(mounts_in(os.path.realpath(left.folder))):
        return False
    shutil.rmtree(left.folder, ignore_errors=True)
    return not os.path.lexists(left.folder)
