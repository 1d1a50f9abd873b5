"""The first number at which something holds, by halving."""

from collections.abc import Callable


def halved(low: int, high: int, holds: Callable[[int], bool | None]) -> int | None:
    """Return the least number above `low` that holds, where `high` does, by halving; None where that is not known of one."""
    while low + 1 < high:
        middle = (low + high) // 2
        told = holds(middle)
        if told is None:
            return None
        low, high = (low, middle) if told else (middle, high)
    return high
