"""What stands for `reraid` and the checkers in a test: it answers words with stated texts."""

import os
import tempfile
import unittest
from collections.abc import Callable, Sequence

from reraid_try.calls.commands import Answer, Words
from reraid_try.calls.plans import Group, Mark, Plan
from reraid_try.options import Options
from reraid_try.report.report import Report

# What a command answers, by its words and its text.
Reply = Callable[[list[str], str], Answer]


def put(text: str, status: int | None = 0, error: str = "") -> Answer:
    """A command that puts this text."""
    return Answer(status, text.encode(), error)


class Standin:
    """Runs nothing: each command gets the answer of the first row whose words it begins with. `asked` has the commands, each with its text."""

    def __init__(self, *rows: tuple[str, Answer | Reply]) -> None:
        self.rows = rows
        self.asked: list[tuple[list[str], str]] = []
        self.told: list[str] = []
        self.noted: list[str] = []

    def run(self, words: Words, text: str | None = None, seconds: float | None = None) -> Answer:
        """The answer to one command."""
        return self.shell([words], text, seconds)

    def shell(self, pipeline: Sequence[Words], text: str | None = None, _seconds: float | None = None) -> Answer:
        """The answer to the first of these commands, which a `dd` behind it keeps."""
        words = [str(word) for word in pipeline[0]]
        self.asked.append((words, text or ""))
        for begins, reply in self.rows:
            if words[:len(begins.split())] == begins.split():
                answer = reply(words, text or "") if callable(reply) else reply
                for target in (str(word)[3:] for words in pipeline[1:] for word in words if str(word).startswith("of=")):
                    with open(target, "wb") as file:
                        file.write(answer.data)
                return answer
        raise AssertionError(f"nobody answers {words}")

    def tell(self, line: str) -> None:
        """Keeps what is shown."""
        self.told.append(line)

    def note(self, line: str, _status: int | None = 0, _seconds: float = 0) -> None:
        """Keeps what is noted."""
        self.noted.append(line)

    def count(self, begins: str) -> int:
        """How many commands began with these words."""
        return sum(words[:len(begins.split())] == begins.split() for words, _ in self.asked)


class Told(Report):
    """A report that keeps its lines and prints none."""

    def __init__(self, as_json: bool = False) -> None:
        super().__init__(as_json)
        self.lines: list[str] = []

    def put(self, line: str) -> None:
        """Keeps a line."""
        self.lines.append(line)

    @property
    def text(self) -> str:
        """All lines."""
        return "\n".join(self.lines)


class InFolder(unittest.TestCase):
    """A test with a folder of its own."""

    def setUp(self) -> None:
        holder = tempfile.TemporaryDirectory()
        self.addCleanup(holder.cleanup)
        self.folder = holder.name

    def file(self, name: str, data: bytes | str = b"") -> str:
        """A file with these bytes, and its name."""
        path = f"{self.folder}/{name}"
        with open(path, "wb") as file:
            file.write(data.encode() if isinstance(data, str) else data)
        return path


class Here(InFolder):
    """A test that runs in a folder of its own."""

    def setUp(self) -> None:
        super().setUp()
        before = os.getcwd()
        os.chdir(self.folder)
        self.addCleanup(os.chdir, before)


PLAN = """reraid-plan 1
images 3
length 100000
length 100000
length 100000
end 100000
levels 0,5,6
members 3
patterns plain,la,ra,ls,rs,parity-first,parity-last
syndromes none
chunks 8,128
offsets 0
origins 0,2048
missing 0
foreign 0
badrows 0
window 100000
misfits 0
least 1
group xfs
mark super 0 2048 every:49152:4:0
mark super 1 26624 every:49152:4:0
mark agf 0 2056 every:49152:4:8
group ext
mark ext 2 7426 at:262144
done
"""
OPTIONS = Options(("a", "b", "c"))


def plan_of(*groups: tuple[str, list[tuple[str, int, int, str]]], lengths: Sequence[int] = (100000, 100000, 100000)) -> Plan:
    """A plan with these groups, each with its marks as kind, image, sector and rule."""
    values = dict(line.split(" ", 1) for line in PLAN.splitlines()[6:19])
    found = tuple(Group(kind, tuple(Mark(*mark) for mark in marks), place) for place, (kind, marks) in enumerate(groups))
    return Plan(1, tuple(lengths), min(lengths), values, found)
