"""Runs commands: each within a time, each in the log, and none left behind when the run ends."""

import dataclasses
import datetime
import os
import shlex
import signal
import subprocess
import threading
import time
from collections.abc import Callable, Sequence
from typing import Protocol, TextIO

from ..errors import OutsideError, Refused, Stopped, said
from . import meter as meters
from .meter import Meter

Words = Sequence[str | int]
Child = subprocess.Popen[bytes]
# The status of a command that is not there, as a shell has it.
NOT_THERE = 127
# The status of the program where an image could not be opened or read.
READ_FAULT = 10
# Seconds before it is told how far a command is, and between two such lines.
FIRST_LOOK, NEXT_LOOK = 1.0, 0.5


@dataclasses.dataclass(frozen=True)
class Answer:
    """What a command gave: its status (None where its time was up, or it was ended since it had read too much, which `full` says), its output, its
    standard error and its seconds."""

    status: int | None
    data: bytes = b""
    error: str = ""
    seconds: float = 0
    full: bool = False

    @property
    def out(self) -> str:
        """Return the output as text."""
        return self.data.decode(errors="replace")

    @property
    def good(self) -> bool:
        """It ended by itself, with status 0."""
        return self.status == 0


def refused(answer: Answer, command: str) -> Refused:
    """Return what is raised where the program refused a command: its line, and what helps where an image cannot be read."""
    said_by = answer.error.strip() or f"reraid {command} ended with status {answer.status}"
    return Refused(f"{said_by} (copy it with ddrescue: its mapfile lists what is unreadable)" if answer.status == READ_FAULT else said_by)


class Runner(Protocol):
    """Who runs commands: `Commands`, or what stands for it in a test."""

    def run(self, words: Words, text: str | None = None, seconds: float | None = None) -> Answer:
        """Runs one command over a text."""

    def shell(self, pipeline: Sequence[Words], text: str | None = None, seconds: float | None = None) -> Answer:
        """Runs commands of which each reads what the one before it puts."""

    def tell(self, line: str) -> None:
        """Shows a command, where commands are to be shown."""

    def note(self, line: str, status: int | None = 0, seconds: float = 0) -> None:
        """Keeps a command with its status in the log."""


def quoted(words: Words) -> str:
    """Return the words as a shell takes them."""
    return shlex.join(str(word) for word in words)


class Log:
    """The file that has every command, after its status and its seconds. It goes on behind what the file has already."""

    def __init__(self, name: str, words: Sequence[str]) -> None:
        self.name = name
        try:
            self.file: TextIO = open(name, "a", encoding="utf-8", errors="surrogateescape")
            self.had = self.file.tell()
        except OSError as error:
            raise OutsideError(f"the log {name} cannot be written: {said(error)}") from error
        try:
            self.put(f"# {datetime.datetime.now().astimezone().isoformat(timespec='seconds')}\t{quoted(words)}\n")
        except OutsideError:
            self.close()
            raise

    def put(self, line: str) -> None:
        """Keeps a line."""
        try:
            self.file.write(line)
            self.file.flush()
        except OSError as error:
            raise OutsideError(f"the log {self.name} cannot be written: {said(error)}") from error

    def close(self) -> None:
        """Nothing follows."""
        try:
            self.file.close()
        except OSError:
            pass


class Commands:
    """Runs commands side by side. `stop` ends all that run, and then no other begins."""

    def __init__(self, log: Log | None = None, show: Callable[[str], None] | None = None,
                 progress: Callable[[str, int, float], None] | None = None) -> None:
        self.log, self.show, self.progress = log, show, progress
        self.lock = threading.RLock()
        self.running: set[Child] = set()
        self.stopped = False

    def tell(self, line: str) -> None:
        """Shows a command, where commands are to be shown."""
        if self.show:
            self.show(line)

    def note(self, line: str, status: int | None = 0, seconds: float = 0) -> None:
        """Keeps a command with its status in the log."""
        if self.log:
            with self.lock:
                self.log.put(f"{status if status is not None else 'time'}\t{seconds:.2f}\t{line}\n")

    def run(self, words: Words, text: str | None = None, seconds: float | None = None) -> Answer:
        """Runs one command over a text."""
        return self.shell([words], text, seconds)

    def shell(self, pipeline: Sequence[Words], text: str | None = None, seconds: float | None = None, meter: Meter | None = None) -> Answer:
        """Runs commands of which each reads what the one before it puts. The status is the first that is not 0. They are ended at a meter's bound."""
        line = " | ".join(quoted(words) for words in pipeline)
        began = time.monotonic()
        try:
            children = self.begin(pipeline)
        except OSError as error:
            self.note(line, NOT_THERE)
            return Answer(NOT_THERE, error=str(error))
        if self.progress:
            threading.Thread(target=self.watch, args=(children[0], pipeline[0], began), daemon=True).start()
        full = threading.Event()
        if meter:
            threading.Thread(target=end_full, args=(children, meter, full), daemon=True).start()
        status, out, errors = self.finish(children, text, seconds)
        took = time.monotonic() - began
        status = None if full.is_set() else status
        self.note(line, status, took)
        return Answer(status, out, errors, took, full.is_set())

    def begin(self, pipeline: Sequence[Words]) -> list[Child]:
        """Starts the commands, each in a process group of its own; where one cannot be started those before it are ended."""
        children: list[Child] = []
        with self.lock:
            if self.stopped:
                raise Stopped
            try:
                for words in pipeline:
                    children.append(start(words, children[-1] if children else None))
            except OSError:
                end(children)
                for child in children:
                    close(child)
                    child.wait()
                raise
            self.running.update(children)
        return children

    def finish(self, children: list[Child], text: str | None, seconds: float | None) -> tuple[int | None, bytes, str]:
        """Waits for the commands, and ends them where their time is up."""
        late = threading.Event()
        timer = threading.Timer(seconds, end_late, [children, late]) if seconds else None
        if timer:
            # A run that is ended waits for no time that is not up.
            timer.daemon = True
            timer.start()
        errors = [b""] * len(children)
        threads = [threading.Thread(target=feed, args=(children[0], text or ""), daemon=True)]
        threads += [threading.Thread(target=drain, args=(child, errors, k), daemon=True) for k, child in enumerate(children)]
        for thread in threads:
            thread.start()
        last = children[-1].stdout
        assert last is not None
        out = last.read()
        last.close()
        for thread in threads:
            thread.join()
        statuses = [child.wait() for child in children]
        if timer:
            timer.cancel()
        with self.lock:
            self.running.difference_update(children)
            if self.stopped:
                raise Stopped
        status = None if late.is_set() else next((status for status in statuses if status), 0)
        return status, out, b"".join(errors).decode(errors="replace")

    def watch(self, child: Child, words: Words, began: float) -> None:
        """Tells how much a command has read while it runs."""
        name = " ".join(str(word) for word in words[:2])
        time.sleep(FIRST_LOOK)
        while child.poll() is None and self.progress:
            try:
                with open(f"/proc/{child.pid}/io", encoding="ascii") as file:
                    self.progress(name, int(file.readline().split()[1]), time.monotonic() - began)
            except (OSError, ValueError, IndexError):
                return
            time.sleep(NEXT_LOOK)

    def stop(self) -> None:
        """Ends all that runs; no command begins after it."""
        with self.lock:
            self.stopped = True
            children = list(self.running)
        end(children)


def start(words: Words, before: Child | None) -> Child:
    """Starts a command that reads what the one before it puts."""
    source = before.stdout if before else subprocess.PIPE
    child = subprocess.Popen([str(word) for word in words], stdin=source, stdout=subprocess.PIPE, stderr=subprocess.PIPE, start_new_session=True,
                             env=os.environ | {"LC_ALL": "C.UTF-8"})
    if before and before.stdout:
        before.stdout.close()
    return child


def end(children: Sequence[Child]) -> None:
    """Ends these commands."""
    for child in children:
        if child.poll() is None:
            try:
                os.killpg(child.pid, signal.SIGKILL)
            except ProcessLookupError:
                pass


def end_late(children: Sequence[Child], flag: threading.Event) -> None:
    """Ends these commands because their time is up, where one still runs."""
    if any(child.poll() is None for child in children):
        flag.set()
        end(children)


def end_full(children: Sequence[Child], meter: Meter, flag: threading.Event) -> None:
    """Ends these commands where a meter is over its bound while they run."""
    while any(child.poll() is None for child in children):
        if meter.is_over:
            flag.set()
            end(children)
            return
        time.sleep(meters.NEXT_LOOK)


def close(child: Child) -> None:
    """Closes what is open towards a command."""
    for stream in (child.stdin, child.stdout, child.stderr):
        if stream:
            stream.close()


def feed(child: Child, text: str) -> None:
    """Gives a command its text."""
    assert child.stdin is not None
    try:
        child.stdin.write(text.encode())
        child.stdin.close()
    except BrokenPipeError:
        pass


def drain(child: Child, errors: list[bytes], k: int) -> None:
    """Reads what a command puts on its standard error."""
    assert child.stderr is not None
    errors[k] = child.stderr.read()
    child.stderr.close()
