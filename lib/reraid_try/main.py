"""The command line of reraid-try: one run, and its status."""

import contextlib
import dataclasses
import os
import shlex
import signal
import sys
import tempfile
from collections.abc import Sequence
from types import FrameType

from . import containers, resuming
from .calls.commands import Commands, Log, Runner
from .calls.memory import Memory, Remembering
from .casefile.gathering import Casefile
from .checks import leftovers
from .checks.verdicts import Score
from .checks.volumes import Room
from .errors import OutsideError, Stopped, said_of
from .opening import Opener
from .options import Options, read_words
from .policy.search import Search
from .report import table
from .report.report import Report
from .units import counted

RATED, NONE, OUTSIDE, INTERRUPTED = 0, 1, 3, 130
CLOSED = 128 + signal.SIGPIPE
# The signals that end a run, which then prints what it found.
ENDING = (signal.SIGINT, signal.SIGTERM, signal.SIGHUP)
AT_ITS_END = """A complete run prints the nearest layouts, with their inconsistent rows. If you know more of the array, --levels and --members \
shorten the search."""
NONE_GOOD = f"interrupted. No candidate so far has a rating: a checker reports errors, or nothing is recognized. {AT_ITS_END}"
NOT_TESTED = f"interrupted before any volume was checked. {AT_ITS_END}"


def main(words: Sequence[str]) -> int:
    """One run, and its status: that of a program that a closed pipe ends, where nobody reads what is printed."""
    try:
        options = read_words(words)
        return clean(options.room) if options.clean else with_log(options, words)
    except BrokenPipeError:
        os.dup2(os.open(os.devnull, os.O_WRONLY), sys.stdout.fileno())
        return CLOSED
    except KeyboardInterrupt:
        return INTERRUPTED
    except OutsideError as error:
        return failed(str(error))
    except OSError as error:
        return failed(said_of(error))
    except MemoryError:
        return failed("out of memory; -j 1 needs less")


def failed(why: str) -> int:
    """Says why a run cannot go on, and its status."""
    with contextlib.suppress(OSError):
        print(f"reraid-try: {why}", file=sys.stderr)
    return OUTSIDE


def clean(room: str | None) -> int:
    """Remove what killed runs left, with a line for each, and return the status."""
    left = leftovers.left_in(room)
    if not left:
        print(f"no killed run left anything in {os.path.abspath(room or tempfile.gettempdir())}")
    kept = False
    for it in left:
        if leftovers.remove(it):
            print(f"removed {it.what()}")
        else:
            kept = True
            print(f"reraid-try: {it.what()} could not be removed: a program uses it, or it belongs to another user", file=sys.stderr)
    return OUTSIDE if kept else RATED


def say_left(room: str | None, report: Report) -> None:
    """Say what killed runs left in the folder for volumes, and how to remove it."""
    for it in leftovers.left_in(room):
        words = ["reraid-try", "--clean", *(["--room", room] if room else [])]
        report.say("left", f"a killed run left {it.what()}. To remove it:\n    {shlex.join(words)}", folder=it.folder, mounts=list(it.mounts),
                   processes=list(it.processes))


def ignore_endings() -> None:
    """Ignore the signals that end a run from now on: it is about to end."""
    for number in ENDING:
        signal.signal(number, signal.SIG_IGN)


def with_log(options: Options, words: Sequence[str]) -> int:
    """One run over the images of these options, with its log, and its status."""
    log = Log(options.log, ["reraid-try", *words]) if options.log else None
    try:
        report = Report(options.as_json, options.every, options.shown)
        if log and log.had:
            report.say("log", f"{log.name} has {counted(log.had, 'byte')} already: the log is appended", log=log.name, had=log.had)
        return run_once(options, words, report, log)
    finally:
        if log:
            log.close()


def run_once(options: Options, words: Sequence[str], report: Report, log: Log | None) -> int:
    """One run, and its status."""
    commands = Commands(log, report.command if options.show else None, report.progress if report.bar.there else None)

    def stop(number: int, _frame: FrameType | None) -> None:
        """Ends all commands, and then the run, which still prints its table. After SIGHUP nobody may read that."""
        ignore_endings()
        if number == signal.SIGHUP:
            report.hang_up()
        commands.stop()
        raise Stopped
    for number in ENDING:
        # A run under nohup goes on when its terminal is closed.
        if number != signal.SIGHUP or signal.getsignal(number) != signal.SIG_IGN:
            signal.signal(number, stop)
    casefile = room = opener = memory = None
    report.bar.watch()
    try:
        say_left(options.room, report)
        casefile = Casefile(options, words, report, commands)
        room = Room(commands, options.room)
        opener = Opener(room.base, commands.note)
        options = with_containers(options, report, opener)
        memory = resuming.begin(options, words, report)
        search = Search(options, remembering(commands, memory, options), report, room, memory)
        return searched(search, report, casefile)
    except Stopped:
        report.say("interrupted", NOT_TESTED, interrupted=True)
        return INTERRUPTED
    finally:
        ignore_endings()
        commands.stop()
        if opener:
            opener.close()
        if room:
            room.close()
        if casefile:
            casefile.close()
        if memory:
            memory.close()
        report.bar.end()


def remembering(commands: Commands, memory: Memory | None, options: Options) -> Runner:
    """Return who runs the commands of a search: with a memory, what was answered before is not asked again."""
    if memory is None:
        return commands
    return Remembering(commands, memory, {it.path: it.name for it in options.opened})


def with_containers(options: Options, report: Report, opener: Opener) -> Options:
    """Return the options with what is read of each image: of containers the files that show their disks."""
    found = containers.known(options.images, options.raw)
    for line in found.lines:
        report.say("container", line)
    names, opened = opener.all(found.images)
    return dataclasses.replace(options, images=names, opened=opened)


def searched(search: Search, report: Report, casefile: Casefile) -> int:
    """Return what a search comes to, and the status of the run."""
    try:
        casefile.begin(search.options.images, search.options.opened)
        search.run()
        resuming.end(search.memory, report)
        table.show(report, search.tested, search.images)
        search.say_answer()
        status = RATED if search.best() >= Score.CHECKED else NONE
        casefile.end(search, status)
        return status
    except Stopped:
        resuming.end(search.memory, report, ended=True)
        table.show(report, [it for it in search.tested if it.verdict], search.images)
        search.say_reshapes()
        said = "interrupted" if search.best() else NONE_GOOD if search.tested else NOT_TESTED
        report.say("interrupted", said, interrupted=True)
        casefile.end(search, INTERRUPTED, ended=True)
        return INTERRUPTED


if __name__ == "__main__":
    sys.exit(main(sys.argv[1:]))
