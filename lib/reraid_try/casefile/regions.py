"""Where parity holds for a candidate, part by part of its members: each part is tested as a set of its own, whose data begin where the part does."""

import concurrent.futures
import dataclasses
from collections.abc import Sequence

from ..calls.formats import Checked
from ..calls.plans import Plan
from ..calls.sets import Word, made
from ..checks.candidates import Candidate

# So many parts, and so many rows of each; of fewer parts more rows of each, as many in all.
PARTS, MAX_ROWS = 64, 2048


@dataclasses.dataclass(frozen=True)
class Region:
    """A part of the members: its first sector, counted from where their data begin, how many it has, and how many of them were tested and are
    unsound; None where that is not known."""

    first: int
    rows: int
    tested: int = 0
    unsound: int | None = None


def turn(word: Word) -> int:
    """After so many sectors of each member parity stands on the same slots again, whatever the pattern."""
    members = len(word.slots)
    return members * max(1, members - 1) * word.chunk * word.delay


def cut(word: Word, end: int) -> list[tuple[int, int]]:
    """Return the parts of a set's members up to an end: their first sectors and how many each has; each begins where a turn does."""
    length = max(0, end - word.offset) // word.chunk * word.chunk
    wide = max(1, -(-length // (PARTS * turn(word)))) * turn(word)
    return [(first, min(wide, length - first)) for first in range(0, length, wide)]


def moved(word: Word, by: int) -> Word:
    """Return the set whose data begin so many sectors later."""
    return made(word.level, word.pattern, word.order, word.chunk, tuple(offset + by for offset in word.offsets), word.slots)


def regions(it: Candidate, jobs: int) -> list[Region]:
    """Return the parts of a candidate, of which parity tells something; none of others."""
    request = it.step.request
    if it.listed is None or request is None or it.word.is_mirrored or it.listed.spare < 1:
        return []
    word: Word = it.listed
    scope, end = it.scope, min(image.sectors for image in it.scope.evidence.images)
    bare = dataclasses.replace(scope.surveys.plan(request).bare().having(badrows=0), end=end)
    parts = cut(word, end)
    most = rows_of_each(len(parts))

    def ask(part: tuple[int, int]) -> Region:
        first, rows = part
        told: Checked | None = scope.program.check(moved(word, first).text, windowed(bare, min(rows, most)))
        return Region(first, rows, told.rows, told.unsound) if told else Region(first, rows)
    with concurrent.futures.ThreadPoolExecutor(jobs) as pool:
        return list(pool.map(ask, parts))


def rows_of_each(parts: int) -> int:
    """Return how many rows of each of so many parts are tested at most."""
    return PARTS * MAX_ROWS // max(1, parts)


def windowed(plan: Plan, rows: int) -> Plan:
    """Return the plan by which so many rows are tested."""
    return plan.having(window=rows)


def told(found: Sequence[Region]) -> str:
    """Return how the parts were tested."""
    rows = max((it.tested for it in found), default=0)
    return f"At most the first {rows:,} rows of each part were tested." if any(it.tested < it.rows for it in found) else "All rows were tested."
