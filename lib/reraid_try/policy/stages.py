"""Stages: the steps of some shapes with so many things relaxed."""

import dataclasses
from collections.abc import Callable

from .relaxations import Relaxation, RelaxationKind
from .shapes import Shape


@dataclasses.dataclass(frozen=True)
class Stage:
    """The steps of some shapes with so many things relaxed: of `quick` those that are soon told, of `every` also what is mostly wrong, of `only`
    those alone that relax what it says."""

    shapes: tuple[Shape, ...]
    count: int
    every: bool = False
    quick: bool = False
    only: Callable[[Relaxation], bool] | None = None


def stays(relaxation: Relaxation) -> bool:
    """Parity stays for several rows."""
    return relaxation.relaxes is RelaxationKind.DELAYS


def is_of_kind(relaxation: Relaxation) -> bool:
    """It is made for one kind of group, as what a fresh NTFS numbers 0 is."""
    return relaxation.kind is not None


def is_of_bad_rows(relaxation: Relaxation) -> bool:
    """Rows may be bad, or it is made for one kind of group."""
    return relaxation.relaxes is RelaxationKind.BAD_ROWS or is_of_kind(relaxation)


def with_bad_rows(count: int, *shapes: Shape) -> Stage:
    """The steps in which rows may be bad, with what one kind of group needs where two things are relaxed, of some shapes."""
    return Stage(shapes, count, only=is_of_bad_rows)


def delayed(*shapes: Shape) -> Stage:
    """The steps in which parity stays for several rows, with nothing else relaxed, of some shapes."""
    return Stage(shapes, 1, every=True, only=stays)


def of_kinds(*shapes: Shape) -> Stage:
    """The steps in which what one kind of group needs is relaxed alone, of some shapes."""
    return Stage(shapes, 1, every=True, only=is_of_kind)
