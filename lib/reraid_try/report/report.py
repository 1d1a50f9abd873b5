"""What is printed: lines for people or objects for programs on standard output, and how far it is on standard error."""

import contextlib
import enum
import errno
import json
import os
import shutil
import sys
import textwrap
import threading
import time
from typing import Any, TextIO

from ..casefile.record import Record
from ..errors import OutsideError, said
from ..units import MIB

# Where standard error is no terminal: the seconds after which a line says that what is done still goes on, if nothing else is asked for, and in how
# many parts of these one says how far it is, where that is known.
MINUTE, PARTS = 60, 3
# A step that takes so many seconds says how long the rest of it may take.
LONG = 5
# The width of the bar, and what takes a line of a terminal away.
BAR, CLEAR = 20, "\r\033[K"
# Lines for people are at most so wide, but for those that are copied by hand: they begin so.
WIDTH, TYPED = 80, ("    ", "  $ ")
# The command whose whole reading is known before it ends.
SURVEY = "reraid survey"
# The events of evidence and search steps. People see their lines only if they ask for them; a step whose listing has a note, as if it timed out, is
# printed in any case. Stale and damaged images, texts in place of data, timeouts and layouts that were not checked are other events.
DETAILS = frozenset(("group", "hint", "metadata", "unlike", "pairs", "reason", "trial", "passed over", "goes on", "put off", "begins", "sound"))


class Shown(enum.Enum):
    """What a run prints for people: its results, with what counts against them, or the evidence and the search steps too."""

    RESULTS = "results"
    DETAILS = "details"


class Report:
    """Prints what is seen, tried and found, in order, and keeps a record of it. `doing` is what is done, `total` the bytes that a survey reads."""

    def __init__(self, as_json: bool = False, every: int = MINUTE, shown: Shown = Shown.DETAILS) -> None:
        self.as_json, self.shown = as_json, shown
        self.bar = Bar(every)
        self.record = Record()
        self.doing, self.total = "", 0
        self.is_read, self.on_terminal = True, sys.stdout.isatty()

    def put(self, line: str) -> None:
        """A line on standard output. Once the terminal is closed it goes nowhere if it cannot be written."""
        try:
            print(line if self.as_json else wrapped(line), flush=True)
        except OSError as error:
            if self.on_terminal and error.errno == errno.EIO:
                self.hang_up()
            if not self.is_read:
                to_nowhere(sys.stdout)
            elif isinstance(error, BrokenPipeError):
                raise
            else:
                raise OutsideError(f"standard output cannot be written: {said(error)}") from error

    def hang_up(self) -> None:
        """Go on although the terminal is closed: what cannot be printed from now on is lost, and the record has it all the same."""
        self.is_read = False
        self.bar.hang_up()

    def is_shown(self, event: str, fields: dict[str, Any]) -> bool:
        """Return whether an event is printed. Programs get each."""
        return self.as_json or self.shown is Shown.DETAILS or event not in DETAILS or bool(fields.get("note"))

    def say(self, event: str, text: str, **fields: Any) -> None:
        """Print one line, if it is shown: a text for people, or an object with these fields for programs. The record keeps it in any case."""
        self.record.add(event, text, fields)
        if not self.is_shown(event, fields):
            return
        self.bar.clear()
        self.put(json.dumps({"event": event, **(fields or {"text": text})}, ensure_ascii=False) if self.as_json else text)

    def tell(self, event: str, text: str = "", **fields: Any) -> None:
        """What programs and the page are told, and nobody else."""
        self.record.add(event, text, fields)
        if self.as_json:
            self.bar.clear()
            self.put(json.dumps({"event": event, **fields, **({"text": text} if text else {})}, ensure_ascii=False))

    def progress(self, name: str, count: int, seconds: float) -> None:
        """How much a command has read until now, its pace, and for a survey how long it will take at that."""
        pace = count / seconds
        left = f", about {duration((self.total - count) / pace)} left" if name == SURVEY and 0 < count < self.total else ""
        self.bar.show(f"{self.doing}{name}: {count // MIB} MiB read, {int(pace) // MIB} MiB/s{left}")

    def command(self, line: str) -> None:
        """A command that is run, before what comes of it."""
        self.say("command", f"  $ {line}", command=line)


class Bar:
    """A line on a terminal: what is done, how far it is, and how long the rest of that may take. Where standard error is no terminal, a line of its
    own now and then for what takes long, and each minute what is done, or each `every` seconds."""

    def __init__(self, every: int = MINUTE) -> None:
        self.every, self.seldom = every, every / PARTS
        self.shown = False
        self.there = sys.stderr.isatty()
        self.began = time.monotonic()
        self.until = self.began + self.seldom
        self.lock = threading.Lock()
        self.doing, self.since, self.said = "", self.began, self.began
        self.ended = threading.Event()

    def hang_up(self) -> None:
        """Show nothing any more: the terminal is closed."""
        self.there = self.shown = False

    def watch(self) -> None:
        """From now on until the end it says each minute what is done, where standard error is no terminal."""
        if not self.there:
            threading.Thread(target=self.each_minute, daemon=True).start()

    def end(self) -> None:
        """The end of the run."""
        self.clear()
        self.ended.set()

    def seconds(self) -> int:
        """Return the seconds that the run takes until now."""
        return int(time.monotonic() - self.began)

    def clock(self) -> str:
        """Return how long the run takes until now."""
        seconds = self.seconds()
        return f"{seconds // 60}:{seconds % 60:02}"

    def left(self, done: int, total: int) -> str:
        """Return how long the rest of a step may take, by what is done of it."""
        seconds = time.monotonic() - self.since
        return f", about {duration(seconds * (total - done) / done)} left" if 0 < done < total and seconds >= LONG else ""

    def show(self, text: str, done: int = 0, total: int = 0) -> None:
        """Shows what is done, with so much done of so much."""
        now = time.monotonic()
        with self.lock:
            if text != self.doing:
                self.doing, self.since = text, now
            left = self.left(done, total)
            if not self.there:
                if total and now > self.until:
                    self.line(f"{text}: {done} of {total}{left}")
                    self.until = now + self.seldom
                return
            full = BAR * done // total if total else 0
            part = f" [{'#' * full}{' ' * (BAR - full)}] {done}/{total}{left}" if total else ""
            self.write(CLEAR + f"{self.clock()} {text}{part}"[:shutil.get_terminal_size().columns - 1])
            self.shown = True

    def write(self, text: str) -> None:
        """Write to the terminal; a terminal that is closed shows nothing any more."""
        try:
            sys.stderr.write(text)
            sys.stderr.flush()
        except OSError:
            self.hang_up()
            to_nowhere(sys.stderr)

    def line(self, text: str) -> None:
        """A line of its own."""
        self.said = time.monotonic()
        try:
            print(f"{self.clock()} {text}", file=sys.stderr, flush=True)
        except OSError:
            pass

    def each_minute(self) -> None:
        """Says each minute what is done."""
        while not self.ended.wait(max(1.0, self.said + self.every - time.monotonic())):
            self.tell()

    def tell(self) -> None:
        """Says what is done, where nothing else was said for a minute."""
        with self.lock:
            if self.doing and time.monotonic() >= self.said + self.every:
                self.line(f"{self.doing.rstrip(': ')}: still running")

    def clear(self) -> None:
        """Takes the line away. What follows is new, and takes no long time yet."""
        self.said = time.monotonic()
        self.until = self.said + self.seldom
        if self.shown:
            self.write(CLEAR)
            self.shown = False


def wrapped(text: str) -> str:
    """Break long lines of a text at spaces, except those that are copied by hand."""
    return "\n".join(line if len(line) <= WIDTH or line.startswith(TYPED) else broken(line) for line in text.split("\n"))


def broken(line: str) -> str:
    """Break a line at spaces; what follows is indented by two more columns."""
    indent = " " * (len(line) - len(line.lstrip()) + 2)
    return textwrap.fill(line, WIDTH, subsequent_indent=indent, break_long_words=False, break_on_hyphens=False, drop_whitespace=True)


def to_nowhere(stream: TextIO) -> None:
    """Let a stream that can no longer be written go nowhere, so that nothing fails at the end of the program either."""
    with contextlib.suppress(OSError, ValueError):
        nowhere = os.open(os.devnull, os.O_WRONLY)
        os.dup2(nowhere, stream.fileno())
        os.close(nowhere)


def duration(seconds: float) -> str:
    """Return a time, as it is said of what is left."""
    whole = int(seconds)
    if whole < 100:
        return f"{whole} s"
    return f"{whole // 60} min" if whole < 7200 else f"{whole // 3600} h"
