"""How many sectors are filled, from each offset on, where parity is tested: of zeros parity says nothing."""

import itertools
from collections.abc import Iterable, Sequence

from ..errors import OutsideError, said
from . import images


class Flags:
    """Which sectors of large images are not zeros: each part of an image is read once."""

    def __init__(self) -> None:
        self.kept: dict[str, list[tuple[int, bytes]]] = {}

    def of(self, names: Sequence[str], first: int, last: int) -> bytes:
        """Return for each of these sectors 1 where some image is not zero there, and 0 else."""
        merged = 0
        try:
            for name in names:
                merged |= int.from_bytes(self.of_image(name, first, last), "little")
        except OSError as error:
            raise OutsideError(f"an image cannot be read: {said(error)}") from error
        return merged.to_bytes(max(0, last - first), "little")

    def of_image(self, name: str, first: int, last: int) -> bytes:
        """Return for each of these sectors of an image 1 where it is not zero, and 0 else."""
        for begin, flags in self.kept.get(name, ()):
            if begin <= first and last <= begin + len(flags):
                return flags[first - begin:last - begin]
        self.kept.setdefault(name, []).append((first, images.filled_of(name, first, last)))
        return self.kept[name][-1][1]


class Filling:
    """The filled sectors of some images, counted where a window behind any of these offsets lies. `flags` has those of large images."""

    def __init__(self, names: Sequence[str], offsets: Iterable[int], window: int, end: int, flags: Flags | None = None) -> None:
        self.window, self.end = window, end
        pieces: list[list[int]] = []
        for offset in sorted(set(offsets)):
            last = min(end, offset + window)
            if pieces and offset <= pieces[-1][1]:
                pieces[-1][1] = last
            else:
                pieces.append([offset, last])
        of = flags.of if flags else images.filled
        self.counts = [(first, [0, *itertools.accumulate(of(names, first, last))]) for first, last in pieces]

    def behind(self, offset: int, before: int | None = None) -> int:
        """How many of the sectors that are tested at an offset are filled, or of those before another one."""
        last = min(offset + self.window, before or self.end)
        for first, counts in self.counts:
            if first <= offset < first + len(counts):
                return counts[min(last - first, len(counts) - 1)] - counts[offset - first]
        return 0
