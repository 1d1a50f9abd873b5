"""A run that goes on where one over the same images was ended: with its memory, and what is said of it."""

import hashlib
import os
import stat
from collections.abc import Sequence

from .calls.memory import Head, Memory, Seen
from .casefile import host
from .errors import OutsideError, said
from .evidence import images
from .options import Options
from .report.report import Report
from .units import SECTOR, counted


def file_of(name: str) -> tuple[str, int, int | None]:
    """A file of an image as it is known again: its name, its bytes, and when it was changed; of a block device the time tells nothing."""
    with open(name, "rb") as file:
        seen = os.fstat(file.fileno())
        return name, file.seek(0, os.SEEK_END), None if stat.S_ISBLK(seen.st_mode) else seen.st_mtime_ns


def seen(name: str, called: str, files: Sequence[str]) -> Seen:
    """An image as it is known again: that which is read, the name by which people know it, and its files."""
    try:
        with open(name, "rb") as file:
            length = file.seek(0, os.SEEK_END) // SECTOR * SECTOR
            sample = hashlib.sha256(b"".join(images.samples(file, length))).hexdigest()
        return Seen(called, tuple(file_of(it) for it in files), sample)
    except OSError as error:
        raise OutsideError(f"{called} cannot be read: {said(error)}") from error


def head_of(options: Options) -> Head:
    """Of which images, and by which programs, the answers of a run are."""
    opened = {it.path: it for it in options.opened}
    found = []
    for name in options.images:
        parts = opened[name].container.parts if name in opened else (name,)
        found.append(seen(name, opened[name].name if name in opened else name, parts))
    return Head(host.version(), host.said_by(["reraid", "--version"]).strip(), host.digest(host.program_file("reraid")), tuple(found))


def begin(options: Options, words: Sequence[str], report: Report) -> Memory | None:
    """Return the memory of a run with these options, and of those before it; None where none is asked for."""
    if not options.resume:
        return None
    memory = Memory(options.resume, head_of(options), {"began": host.now(), "words": list(words)})
    answers, looks = memory.had
    if memory.runs:
        told = (f"{memory.name} has {counted(answers, 'answer')} of reraid and {counted(looks, 'checked volume')}, from "
                f"{counted(len(memory.runs), 'run')} over these images, the last begun {memory.runs[-1]['began']}. This run reuses them")
    else:
        told = f"{memory.name} is new, and will keep all answers. To continue an interrupted run, repeat the command"
    report.say("resume", told, file=memory.name, answers=answers, volumes=looks, runs=memory.runs)
    return memory


def end(memory: Memory | None, report: Report, ended: bool = False) -> None:
    """Says what was taken over, and of a run that was told to end how it is gone on with."""
    if memory and ended:
        report.say("kept", f"{memory.name} keeps the answers so far. To continue, repeat the command", file=memory.name)
    if memory and memory.runs:
        answers, looks = memory.taken
        told = f"reused from {memory.name}: {counted(answers, 'answer')} of reraid and {counted(looks, 'checked volume')}"
        report.say("taken over", told, file=memory.name, answers=answers, volumes=looks)
