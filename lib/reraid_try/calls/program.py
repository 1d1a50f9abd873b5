"""What `reraid` is asked about some images, each question within a time."""

import concurrent.futures
import dataclasses
from collections.abc import Sequence

from ..units import counted, listed
from . import formats
from .commands import Answer, Runner, refused
from .formats import Checked, Page, Ranked
from .plans import Plan
from .sets import NEAR_2, Copying, Word

# As many lines as a step lists at most, and as many sets as one command looks at, at least; there are so many times as many such parts as jobs.
MAX_LINES, SPAN, PARTS = 20_000, 4_000_000, 16
# The greatest rank, and the widest range.
LAST = (1 << 64) - 1


@dataclasses.dataclass(frozen=True)
class Listing:
    """What a step listed: its sets, how many the plan has (None where others were not counted), whether all of them were looked at, and how many
    rows might be bad, where that was not known before."""

    sets: tuple[Ranked, ...]
    total: int | None
    whole: bool
    note: str = ""
    bad_rows: int | None = None

    def line(self) -> str:
        """Return it as one line of text."""
        count = counted(len(self.sets), "layout") if self.total is None else f"{len(self.sets)} of {counted(self.total, 'layout')}"
        return f"{count} {'passes' if len(self.sets) == 1 else 'pass'}" + (f" ({self.note})" if self.note else "")


@dataclasses.dataclass(frozen=True)
class Copied:
    """What is asked of copies: the layouts, how many members, how many of them are missing; the chunks and the end of the members, where these are
    known, and the offsets, where others are asked for than the usual ones."""

    layouts: tuple[Copying, ...]
    members: int
    missing: int = 0
    chunks: tuple[int, ...] = ()
    end: int | None = None
    offsets: tuple[int, ...] = ()

    def line(self) -> str:
        """Return what is said of its layouts."""
        return "copies " + ",".join(it.text for it in self.layouts)


class Program:
    """`reraid` over these images."""

    def __init__(self, commands: Runner, names: Sequence[str], seconds: int, jobs: int) -> None:
        self.commands, self.names, self.seconds, self.jobs = commands, tuple(names), seconds, jobs

    def total(self, text: str) -> int:
        """Return how many sets a plan has."""
        answer = self.commands.run(["reraid", "list", f"from={LAST}", "--", *self.names], text)
        total = formats.read_total(answer)
        if total is None:
            raise refused(answer, "list")
        return total

    def page(self, text: str, first: int = 0, span: int = LAST, most: int = MAX_LINES, seconds: int | None = None) -> Page:
        """One page of a plan; what of it was put, where its time was up, which is that of a step where nothing else is said."""
        words = ["reraid", "list", f"from={first}", f"span={span}", f"size={most}", "--", *self.names]
        answer = self.commands.run(words, text, self.seconds if seconds is None else seconds)
        if answer.status:
            raise refused(answer, "list")
        return formats.read_page(answer)

    def listing(self, plan: Plan) -> Listing:
        """Return the sets of a plan that pass, by spans side by side where there are many."""
        text = plan.text()
        total = self.total(text)
        if total == 0:
            return Listing((), 0, True)
        span = max(SPAN, -(-total // (PARTS * self.jobs)))
        starts = range(0, total, span)
        found: list[Ranked] = []
        whole = True
        with concurrent.futures.ThreadPoolExecutor(self.jobs if len(starts) > 1 else 1) as pool:
            tasks = [pool.submit(self.page, text, first, span) for first in starts]
            try:
                for first, task in zip(starts, tasks):
                    page = task.result()
                    found += page.sets
                    whole = not page.late and page.following is not None and page.following >= min(total, first + span)
                    if not whole:
                        break
            finally:
                for task in tasks:
                    task.cancel()
        if whole:
            return Listing(tuple(found), total, True)
        return Listing(tuple(found), total, False, f"more than {len(found)} pass" if len(found) >= MAX_LINES else self.late_note())

    def late_note(self) -> str:
        """Return what is said where its time was up."""
        return f"timed out after {self.seconds} s, before all were tested"

    def check(self, word: str, plan: Plan) -> Checked | None:
        """Return what `check` says of a set; None where it was refused, or its time was up."""
        return formats.read_check(self.commands.run(["reraid", "check", f"set={word}", "--", *self.names], plan.text(), self.seconds))

    def classes(self, found: Sequence[Word], end: int) -> list[int]:
        """Return the numbers of the classes of these sets; each by itself where that was refused."""
        text = "".join(f"{number} {word.text}\n" for number, word in enumerate(found))
        answer = self.commands.run(["reraid", "classes", f"images={len(self.names)}", f"end={end}", "--"], text)
        return formats.read_classes(answer) if answer.good else list(range(len(found)))

    def mirror_words(self, asked: Copied, bad_rows: int, offsets: Sequence[int], end: int, window: int) -> list[str]:
        """Return the command that lists the sets of a RAID 10. Where copies do not tell the chunk, one is enough."""
        words = ["reraid", "mirrors"]
        words += [] if asked.layouts == (NEAR_2,) else ["layouts=" + ",".join(it.text for it in asked.layouts)]
        words += [f"members={asked.members}", f"offsets={listed(offsets)}", f"end={end}"]
        words += [f"missing={asked.missing}"] if asked.missing else []
        words += [f"badrows={bad_rows}"] if bad_rows else []
        chunks = (8,) if all(it.is_striped(asked.members) for it in asked.layouts) else asked.chunks
        words += [f"chunks={listed(chunks)}"] if chunks else []
        return [*words, f"window={window}", f"size={MAX_LINES}", "--", *self.names]

    def mirrors(self, words: list[str]) -> Page:
        """Return the sets of a RAID 10; what of them was put, where its time was up."""
        answer = self.commands.run(words, seconds=self.seconds)
        if answer.status:
            raise refused(answer, "mirrors")
        return formats.read_page(answer)

    def ask_lost(self, word: str, end: int, maps: str) -> Answer:
        """Return what `salvage` says of what is lost of a volume by these maps."""
        return self.commands.run(["reraid", "salvage", f"set={word}", "form=lost", f"end={end}", "--", *self.names], maps, self.seconds)

    def lost(self, word: str, end: int, maps: str) -> tuple[int, int] | None:
        """Return how many sectors of a volume are lost by these maps, of how many; None where that was refused, or took too long."""
        return formats.read_lost(self.ask_lost(word, end, maps))

    def lost_runs(self, word: str, end: int, maps: str) -> list[tuple[int, int]]:
        """Return the lost runs of sectors of a volume by these maps; nothing if that was refused, or took too long."""
        answer = self.ask_lost(word, end, maps)
        return formats.read_lost_runs(answer) if answer.good else []
