"""What a run learned, kept in a file, so that a run that was ended can be gone on with: what is asked of `reraid` once more about the same images is
answered from there, and volumes that were looked at are not looked at again.

A line is an object of JSON: the first says of which images and by which programs it is, then each run that used it, each answer of `reraid`, and what
was found in each volume has its line. A last line that was not written to its end is cut off."""

import dataclasses
import datetime
import fcntl
import hashlib
import json
import os
import stat
import threading
from collections.abc import Mapping, Sequence
from typing import Any

from ..errors import OutsideError, said
from .commands import Answer, Commands, Runner, Words, quoted
from .formats import PAST_TOTAL
from .meter import Meter

FORMAT = 1
# What is asked of `reraid` and answered in text; volumes themselves are not kept.
ASKED, LOSSES = ("survey", "list", "check", "classes", "mirrors", "relations"), ("salvage", "form=lost")
# The statuses of answers that another run would get too, but where its time was up (None).
LASTING = (0, PAST_TOTAL, None)
Fields = dict[str, Any]


def said_of_time(nanoseconds: int | None) -> str:
    """When a file was changed, as it is told."""
    if nanoseconds is None:
        return "at no time that is known"
    return f"at {datetime.datetime.fromtimestamp(nanoseconds // 1000 / 1e6).astimezone().isoformat()}"


@dataclasses.dataclass(frozen=True)
class Seen:
    """An image as it is known again: its name, each of its files with its bytes and when it was changed (None for a block device), and the digest of
    some sectors, spread over it."""

    name: str
    files: tuple[tuple[str, int, int | None], ...]
    sample: str

    def unlike(self, other: "Seen") -> str:
        """Return what is not the same of another one by the same name; nothing where all is."""
        for (name, count, changed), (other_name, other_count, other_changed) in zip(self.files, other.files):
            if name != other_name:
                return f"{self.name} has the file {name}, not {other_name}"
            if count != other_count:
                return f"{name} has {count} bytes, not {other_count}"
            if changed != other_changed:
                return f"{name} was changed {said_of_time(changed)}, not {said_of_time(other_changed)}"
        if len(self.files) != len(other.files):
            return f"{self.name} has {len(self.files)} files, not {len(other.files)}"
        return "" if self.sample == other.sample else f"{self.name} holds other sectors"


@dataclasses.dataclass(frozen=True)
class Head:
    """Of which images, in their order, and by which programs what is kept was learned: the version of these scripts, what the program says of itself,
    and the digest of its file."""

    version: str
    program: str
    digest: str
    images: tuple[Seen, ...]

    def unlike(self, other: "Head") -> str:
        """Return the first thing that is not the same of another one; nothing where all is."""
        names, other_names = ([it.name for it in head.images] for head in (self, other))
        if names != other_names:
            return f"the images are {' '.join(names)}, not {' '.join(other_names)}"
        if found := next((told for one, it in zip(self.images, other.images) if (told := one.unlike(it))), ""):
            return found
        for what, one, it in (("reraid-try", self.version, other.version), ("reraid", self.program, other.program)):
            if one != it:
                return f"the version of {what} is {one}, not {it}"
        return "" if self.digest == other.digest else "the file of the program reraid is another one"


def read_head(line: bytes) -> Head:
    """Return the head of a first line."""
    it = json.loads(line)
    if it["reraid-try"] != FORMAT:
        raise ValueError
    images = (Seen(one["name"], tuple((name, count, changed) for name, count, changed in one["files"]), one["sample"]) for one in it["images"])
    return Head(it["version"], it["program"], it["digest"], tuple(images))


def digest(text: str) -> str:
    """Return the SHA-256 of a text."""
    return hashlib.sha256(text.encode(errors="surrogateescape")).hexdigest()


@dataclasses.dataclass(frozen=True)
class Asked:
    """What is asked of the program: its words, images by the names by which people know them, and the digest of the text that it reads."""

    words: tuple[str, ...]
    text: str

    @property
    def key(self) -> str:
        """Return what it is found by."""
        return json.dumps([self.words, self.text])


class Memory:
    """What runs over some images learned, in a file that is locked as long as the run is there. `had` says how many answers and volumes it had
    already, `taken` how many of them were taken over."""

    def __init__(self, name: str, head: Head, run: Fields) -> None:
        self.name, self.lock = name, threading.RLock()
        self.answers: dict[str, tuple[int, int]] = {}
        self.looks: dict[str, tuple[int, int]] = {}
        self.runs: list[Fields] = []
        try:
            self.file = os.open(name, os.O_RDWR | os.O_CREAT | os.O_APPEND | os.O_CLOEXEC, 0o644)
        except OSError as error:
            raise OutsideError(f"{name} cannot be written: {said(error)}") from error
        try:
            self.begin(head, run)
        except BaseException:
            self.close()
            raise
        self.had, self.taken = (len(self.answers), len(self.looks)), [0, 0]

    def begin(self, head: Head, run: Fields) -> None:
        """Reads what is there, and keeps that a run begins."""
        if not stat.S_ISREG(os.fstat(self.file).st_mode):
            raise OutsideError(f"{self.name} is no regular file, so nothing can be kept in it")
        try:
            fcntl.flock(self.file, fcntl.LOCK_EX | fcntl.LOCK_NB)
        except OSError as error:
            raise OutsideError(f"{self.name} is in use by another run") from error
        if not self.read(head):
            self.put({"reraid-try": FORMAT, **dataclasses.asdict(head)})
        self.put({"run": run})

    def read(self, head: Head) -> bool:
        """Reads where each answer stands; it says whether there is anything. A file over other images, or by another program, is refused."""
        place, number = 0, 0
        with os.fdopen(os.dup(self.file), "rb") as file:
            file.seek(0)
            for number, line in enumerate(file, 1):
                if not line.endswith(b"\n"):
                    os.ftruncate(self.file, place)
                    return number > 1
                try:
                    self.read_line(line, place, head if number == 1 else None)
                except (ValueError, KeyError, TypeError, AttributeError) as error:
                    raise OutsideError(f"{self.name}, line {number}: not what --resume keeps; name another file") from error
                place += len(line)
        return number > 0

    def read_line(self, line: bytes, place: int, head: Head | None) -> None:
        """Reads a line at its place, the first one against a head."""
        if head:
            if told := read_head(line).unlike(head):
                raise OutsideError(f"{self.name} is of another search, so nothing of it is taken over: there {told}; name another file")
            return
        it = json.loads(line)
        if "run" in it:
            self.runs.append(dict(it["run"]))
        elif "asked" in it:
            self.answers[Asked(tuple(it["asked"]), it["text"]).key] = place, len(line)
        else:
            self.looks[json.dumps(it["look"])] = place, len(line)

    def put(self, fields: Fields) -> tuple[int, int]:
        """Keeps a line, and gives its place and length."""
        data = json.dumps(fields).encode() + b"\n"
        try:
            with self.lock:
                place = os.lseek(self.file, 0, os.SEEK_END)
                rest = data
                while rest:
                    rest = rest[os.write(self.file, rest):]
        except OSError as error:
            raise OutsideError(f"{self.name} cannot be written: {said(error)}") from error
        return place, len(data)

    def at(self, place: tuple[int, int]) -> Fields:
        """Return the line at a place."""
        try:
            found: Fields = json.loads(os.pread(self.file, place[1], place[0]))
        except (OSError, ValueError) as error:
            raise OutsideError(f"{self.name} cannot be read any more: {error}") from error
        return found

    def take(self, which: int) -> None:
        """Counts an answer (0) or a volume (1) that is taken over."""
        with self.lock:
            self.taken[which] += 1

    def answer(self, asked: Asked, seconds: float | None) -> Answer | None:
        """Return the answer to a question that has so many seconds; None where it is to be asked, as where it ran out of its time and has more
        now."""
        place = self.answers.get(asked.key)
        if place is None:
            return None
        it = self.at(place)
        if it["status"] is None and (seconds is None or it["seconds"] < seconds):
            return None
        self.take(0)
        return Answer(it["status"], it["out"].encode(), it["error"], it["took"])

    def keep(self, asked: Asked, seconds: float | None, answer: Answer) -> None:
        """Keeps an answer, where another run would get it too."""
        if answer.status not in LASTING:
            return
        it = {"asked": asked.words, "text": asked.text, "seconds": seconds, "status": answer.status, "out": answer.out, "error": answer.error,
              "took": round(answer.seconds, 3)}
        self.answers[asked.key] = self.put(it)

    def look(self, key: Fields) -> Fields | None:
        """Return what was found in a volume; None where that is not known."""
        place = self.looks.get(json.dumps(key))
        if place is None:
            return None
        self.take(1)
        found: Fields = self.at(place)["found"]
        return found

    def keep_look(self, key: Fields, found: Fields) -> None:
        """Keeps what was found in a volume."""
        self.looks[json.dumps(key)] = self.put({"look": key, "found": found})

    def close(self) -> None:
        """Nothing follows."""
        os.close(self.file)


class Remembering:
    """Runs commands, but takes from a memory what `reraid` answered before. `names` has the names by which people know images, for those that are
    read by another one."""

    def __init__(self, commands: Runner, memory: Memory, names: Mapping[str, str]) -> None:
        self.commands, self.memory, self.names = commands, memory, names

    def asked(self, words: Words, text: str | None) -> Asked | None:
        """Return what is asked by a command; None where its answer is not kept."""
        told = [str(word) for word in words]
        if told[0] != "reraid" or not (told[1] in ASKED or all(it in told for it in LOSSES)):
            return None
        return Asked(tuple(self.names.get(it, it) for it in told), digest(text) if text else "")

    def run(self, words: Words, text: str | None = None, seconds: float | None = None) -> Answer:
        """Return the answer to one command, the one that is kept where there is one."""
        asked = self.asked(words, text)
        if asked is None:
            return self.commands.run(words, text, seconds)
        if answer := self.memory.answer(asked, seconds):
            self.commands.note(f"# from {self.memory.name}: {quoted(words)}", answer.status)
            return answer
        answer = self.commands.run(words, text, seconds)
        self.memory.keep(asked, seconds, answer)
        return answer

    def shell(self, pipeline: Sequence[Words], text: str | None = None, seconds: float | None = None) -> Answer:
        """Runs commands of which each reads what the one before it puts."""
        return self.commands.shell(pipeline, text, seconds)

    def tell(self, line: str) -> None:
        """Shows a command, where commands are to be shown."""
        self.commands.tell(line)

    def note(self, line: str, status: int | None = 0, seconds: float = 0) -> None:
        """Keeps a command with its status in the log."""
        self.commands.note(line, status, seconds)


def direct(commands: Runner) -> Runner:
    """Return who runs commands whose answers are kept for no other run, as those about files that are there in this run alone."""
    return commands.commands if isinstance(commands, Remembering) else commands


def bounded(commands: Runner, pipeline: Sequence[Words], seconds: float, meter: Meter | None) -> Answer:
    """Runs commands that are ended where a meter is over its bound, of which each reads what the one before it puts."""
    runner = direct(commands)
    if meter and isinstance(runner, Commands):
        return runner.shell(pipeline, None, seconds, meter)
    return commands.shell(pipeline, None, seconds)
