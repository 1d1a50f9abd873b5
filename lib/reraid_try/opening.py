"""Containers opened as raw images for the time of a run, and closed at its end."""

import contextlib
import dataclasses
import os
import shlex
import shutil
import subprocess
import time
from collections.abc import Callable, Sequence

from .containers import PACKAGES, Container
from .errors import OutsideError, said
from .intact import fault
from .units import SECTOR

# Seconds until a container has to be open: an image may lie on a slow disk.
MAX_SECONDS = 60.0
STEP = 0.05
# The folder of the lines to type, in which each container has one of its own.
BY_HAND = "opened"
# The line that waits until a container is open, so that the next line finds it.
WAIT = "timeout 60 sh -c 'until [ -e {0} ]; do sleep 0.1; done'"


@dataclasses.dataclass
class Mount:
    """An open container: its folder, and the command that opened it, which goes on as its server or has ended."""

    folder: str
    server: subprocess.Popen[bytes]


@dataclasses.dataclass(frozen=True)
class Opened:
    """An open container: what it is, the file that is read, and the lines that open it in a shell, with the image that is there then."""

    container: Container
    path: str
    lines: tuple[str, ...]
    typed: str

    @property
    def name(self) -> str:
        """Return what it is called."""
        return self.container.name


class Opener:
    """Opens containers, each in a folder of its own below a base, and closes all of them."""

    def __init__(self, base: str, note: Callable[[str], None] = lambda line: None) -> None:
        self.base, self.note = base, note
        self.mounts: list[Mount] = []

    def all(self, images: Sequence[Container | str]) -> tuple[tuple[str, ...], tuple[Opened, ...]]:
        """Return what is read of these images, with those that were opened."""
        opened, names = [], []
        for number, it in enumerate(images):
            if isinstance(it, Container):
                opened.append(Opened(it, self.open(it), *by_hand(it, number)))
            names.append(opened[-1].path if isinstance(it, Container) else it)
        return tuple(names), tuple(opened)

    def open(self, it: Container) -> str:
        """Return the file that shows its disk."""
        missing = [tool for tool in it.tools() if not shutil.which(tool)]
        if missing:
            packages = " ".join(dict.fromkeys(PACKAGES[tool] for tool in missing))
            raise OutsideError(f"{it.line()}: this is not a raw image. To open it, install {' and '.join(missing)} (Debian: apt install {packages}). "
                               "--raw searches the file as it is")
        try:
            wrong = fault(it)
        except OSError as error:
            raise OutsideError(f"{it.line()} cannot be read: {said(error)}") from error
        if wrong:
            raise OutsideError(f"{it.line()} is incomplete: {wrong}. The missing part would look like zeros, so nothing is searched. To search it "
                               "nevertheless, open it by hand (docs/IMAGES.md)")
        folder = os.path.join(self.base, f"opened{len(self.mounts)}")
        os.mkdir(folder)
        words = it.command(folder)
        self.note(shlex.join(words))
        path = os.path.join(folder, it.shown())
        failed = self.begin(it, words, folder, path)
        if failed is None and os.path.getsize(path) < SECTOR:
            failed = "it shows a disk without a sector"
        if failed is not None:
            raise OutsideError(f"{it.line()}: {it.tools()[0]} does not open it: {failed or 'it prints no reason'}")
        return path

    def begin(self, it: Container, words: Sequence[str], folder: str, path: str) -> str | None:
        """Runs the command, and waits until the file is there; what it said where that fails."""
        with open(os.path.join(self.base, f"opened{len(self.mounts)}.log"), "w+b") as log:
            server = subprocess.Popen(words, stdin=subprocess.DEVNULL, stdout=log, stderr=log, start_new_session=True)
            self.mounts.append(Mount(folder, server))
            until = time.monotonic() + MAX_SECONDS
            while not os.path.exists(path) and time.monotonic() < until and (server.poll() is None or server.returncode == 0 and not it.goes_on()):
                time.sleep(STEP)
            if os.path.exists(path):
                return None
            if server.poll() is None:
                server.kill()
            server.wait()
            log.seek(0)
            return " ".join(log.read().decode(errors="replace").split())

    def close(self) -> None:
        """Closes all that are open, the last one first."""
        while self.mounts:
            it = self.mounts.pop()
            subprocess.run(["fusermount3", "-u", "-z", it.folder], stdin=subprocess.DEVNULL, capture_output=True, check=False)
            try:
                it.server.wait(5)
            except subprocess.TimeoutExpired:
                it.server.kill()
                it.server.wait()
            with contextlib.suppress(OSError):
                os.rmdir(it.folder)


def typed(name: str) -> str:
    """Return a name as a word that no command takes for an option or a protocol."""
    return f"./{name}" if name.startswith("-") or ":" in name.partition("/")[0] else name


def by_hand(it: Container, number: int) -> tuple[tuple[str, ...], str]:
    """Return the lines that open a container in a shell, and the image that is there then."""
    folder = os.path.join(BY_HAND, str(number))
    line = shlex.join(it.command(folder, typed)).replace("'['", "[").replace("']'", "]")
    shown = os.path.join(folder, it.shown())
    if not it.goes_on():
        return (f"mkdir -p {folder}", line), shown
    return (f"mkdir -p {folder}", f"{line} &", WAIT.format(shown)), shown
