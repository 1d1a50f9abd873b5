"""On which slot each data chunk of a row lies, at each level and pattern."""

from collections.abc import Iterator

from ..calls.sets import LEVELS

FIXED = ("parity-first", "parity-last")
PATTERNS_5 = ("ls", "la", "rs", "ra", "parity-last", "parity-first")
PATTERNS = {
    "0": ("plain",),
    "5": PATTERNS_5,
    "6": ("ls", "la", "rs", "ra", "n-restart", "n-continue", "parity-last", "parity-first", "ls-6", "la-6", "rs-6", "ra-6", "parity-first-6"),
}


def wrapped(slot: int, members: int) -> Iterator[int]:
    """Slots from one on, and from the first one again."""
    return ((slot + k) % members for k in range(members))


def of_5(pattern: str, members: int, row: int) -> tuple[int, ...]:
    """The slots of the data chunks of a row at level 5."""
    moving = row % members if pattern in ("ra", "rs") else members - 1 - row % members
    parity = {"parity-first": 0, "parity-last": members - 1}.get(pattern, moving)
    order = wrapped(parity, members) if pattern in ("ls", "rs") else range(members)
    return tuple(slot for slot in order if slot != parity)


def of_6(pattern: str, members: int, row: int) -> tuple[int, ...]:
    """The slots of the data chunks of a row at level 6."""
    if pattern.endswith("-6"):
        return of_5(pattern.removesuffix("-6"), members - 1, row)
    left, right = members - 1 - row % members, row % members
    if pattern == "n-continue":
        # Q stands before P.
        return tuple(wrapped(left + 1, members))[:members - 2]
    restart = members - 1 - (row + 1) % members
    after = {"ra": right, "rs": right, "n-restart": restart, "parity-first": 0, "parity-last": members - 2}.get(pattern, left)
    if pattern in ("ls", "rs"):
        return tuple(wrapped(after + 2, members))[:members - 2]
    return tuple(slot for slot in range(members) if slot not in (after, (after + 1) % members))


def data_slots(level: str, pattern: str, members: int, row: int) -> tuple[int, ...]:
    """Return the slots of the data chunks of a row, in the order of the volume. A pattern repeats after as many rows as there are members."""
    if level == "0":
        return tuple(range(members))
    return of_5(pattern, members, row) if level == "5" else of_6(pattern, members, row)


def period(level: str, pattern: str, members: int) -> int:
    """Return after how many rows a pattern repeats."""
    if level == "0" or pattern.removesuffix("-6") in FIXED:
        return 1
    return members - 1 if pattern.endswith("-6") else members


def data_chunks(level: str, members: int) -> int:
    """Return how many data chunks a row has."""
    return members - LEVELS[level].parity
