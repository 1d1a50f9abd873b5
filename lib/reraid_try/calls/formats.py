"""The lines that `reraid` puts, as docs/COMMANDS.md and STATUSES.md state them: pages, checks, classes, losses, and refusals by their status."""

import dataclasses
import re

from .commands import Answer

PASSED = re.compile(r"(\d+) ((?:\d+|(?:near|far|offset)[2-4]):\S+)")
NEXT = re.compile(r"next (\d+) of (\d+)")
UNSOUND = re.compile(r"unsound (\d+) of (\d+)")
GROUP = re.compile(r"group (\d+) (\w+) (?:none|origin (\d+) fits (\d+) misfits (\d+))")
LOST = re.compile(r"lost (\d+) (\d+)")
GOOD = re.compile(r"good (\d+) of (\d+)")
# Status 6: the first rank is past the total, which the line says.
PAST_TOTAL = 6
PAST = re.compile(r"reraid: cursor \d+ is past (\d+)")


@dataclasses.dataclass(frozen=True)
class Ranked:
    """A set that passed, with its rank."""

    rank: int
    text: str

    def line(self) -> str:
        """Return its line on a page."""
        return f"{self.rank} {self.text}\n"


@dataclasses.dataclass(frozen=True)
class Page:
    """The sets of a page, where the next one begins and how many sets there are, None where the page was not printed to its end. `late` says that
    its time was up."""

    sets: tuple[Ranked, ...] = ()
    following: int | None = None
    total: int | None = None
    late: bool = False

    @property
    def estimate(self) -> int:
        """Return how many sets pass, by the part of the plan that the page had room for."""
        if self.following is None or self.total is None:
            return len(self.sets)
        return len(self.sets) * self.total // max(1, self.following)


def read_page(answer: Answer) -> Page:
    """Return a page that `list` or `mirrors` put; without a last line that is not ended, as where its time was up."""
    found, following, total = [], None, None
    for line in answer.out[:answer.out.rfind("\n") + 1].splitlines():
        if match := PASSED.fullmatch(line):
            found.append(Ranked(int(match[1]), match[2]))
        elif match := NEXT.fullmatch(line):
            following, total = int(match[1]), int(match[2])
    return Page(tuple(found), following, total, answer.status is None)


def read_total(answer: Answer) -> int | None:
    """Return how many sets a plan has, by the answer to a page that begins at the greatest rank; None where that was refused."""
    if answer.good:
        return read_page(answer).total
    match = PAST.fullmatch(answer.error.strip()) if answer.status == PAST_TOTAL else None
    return int(match[1]) if match else None


@dataclasses.dataclass(frozen=True)
class Held:
    """What `check` says of a group: the first origin at which it holds, None where it holds nowhere, with fits and misfits there."""

    kind: str
    origin: int | None = None
    fits: int = 0
    misfits: int = 0

    @property
    def doubtful(self) -> bool:
        """More of its marks speak against the set than for it."""
        return self.origin is not None and self.misfits > self.fits

    def short(self) -> str:
        """Return its fits, and its misfits after a hyphen, where there are some."""
        return f"{self.kind} none" if self.origin is None else f"{self.kind} {self.fits}" + (f"-{self.misfits}" if self.misfits else "")

    def text(self) -> str:
        """Return what `check` puts of it."""
        return f"{self.kind} none" if self.origin is None else f"{self.kind} origin {self.origin} fits {self.fits} misfits {self.misfits}"


@dataclasses.dataclass(frozen=True)
class Checked:
    """What `check` says of a set: unsound rows of so many, and each group."""

    unsound: int
    rows: int
    groups: tuple[Held, ...] = ()
    seconds: float = 0

    @property
    def fits(self) -> int:
        """Return how many marks fit."""
        return sum(group.fits for group in self.groups)


def read_check(answer: Answer) -> Checked | None:
    """Return what `check` put; None where it was refused, or its time was up."""
    rows, groups = None, []
    for line in answer.out.splitlines():
        if match := UNSOUND.fullmatch(line):
            rows = int(match[1]), int(match[2])
        elif match := GROUP.fullmatch(line):
            groups.append(Held(match[2]) if match[3] is None else Held(match[2], int(match[3]), int(match[4]), int(match[5])))
    return Checked(*rows, tuple(groups), answer.seconds) if rows and answer.good else None


def read_classes(answer: Answer) -> list[int]:
    """Return the numbers of the classes of sets, in their order, by what `classes` put."""
    return [int(line.split()[0]) for line in answer.out.splitlines() if not line.startswith("classes ")]


def read_lost_runs(answer: Answer) -> list[tuple[int, int]]:
    """Return the lost runs of sectors of a volume, each as its first sector and how many they are, by what `salvage form=lost` put."""
    return [(int(match[1]), int(match[2])) for match in map(LOST.fullmatch, answer.out.splitlines()) if match]


def read_lost(answer: Answer) -> tuple[int, int] | None:
    """Return how many sectors of a volume are lost, and how many it has, by what `salvage form=lost` put; None where it was refused."""
    match = GOOD.fullmatch(answer.out.splitlines()[-1]) if answer.good and answer.out else None
    return (int(match[2]) - int(match[1]), int(match[2])) if match else None
