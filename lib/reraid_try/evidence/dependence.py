"""How the sectors of images depend on one another in GF(2^8) (polynomial 0x11D), row by row, by elimination: what `relations` has as rows.

An image is zero where its sector is zeros, and dependent where that is a weighted sum of the sectors of the independent images before it; the weights
are unique then. A sector is kept as a whole number, its first byte the lowest, so that adding two is one exclusive or."""

import contextlib
import functools
import time
from collections.abc import Iterator, Sequence
from typing import BinaryIO

from ..errors import OutsideError, said
from ..units import SECTOR
from .relations import Relations, Rows, Tie

POLYNOMIAL, ORDER = 0x11D, 255
Table = tuple[frozenset[int], tuple[Tie, ...]]


@functools.cache
def powers() -> tuple[int, ...]:
    """The powers of 2 in the field."""
    found = [1]
    while len(found) < ORDER:
        found.append(found[-1] << 1 ^ (POLYNOMIAL if found[-1] & 128 else 0))
    return tuple(found)


@functools.cache
def logarithms() -> dict[int, int]:
    """The exponents of 2 that give each element but 0."""
    return {power: exponent for exponent, power in enumerate(powers())}


def product(one: int, other: int) -> int:
    """The product of two elements."""
    return powers()[(logarithms()[one] + logarithms()[other]) % ORDER] if one and other else 0


def inverse(one: int) -> int:
    """The inverse of an element that is not 0."""
    return powers()[-logarithms()[one] % ORDER]


@functools.cache
def times(weight: int) -> bytes:
    """The products of all bytes and a weight."""
    return bytes(product(byte, weight) for byte in range(256))


def weighted(sector: bytes, weight: int) -> int:
    """A sector times a weight."""
    return int.from_bytes(sector.translate(times(weight)) if weight != 1 else sector, "little")


def table(row: Sequence[bytes]) -> Table:
    """The images of a row that are zero, and the ties of those that are dependent."""
    zero, ties = [], []
    # Of each independent image the byte at which what is left of it begins, that rest with a 1 there, and the sum of images that it is.
    kept: list[tuple[int, bytes, dict[int, int]]] = []
    for image, sector in enumerate(row):
        rest = int.from_bytes(sector, "little")
        if not rest:
            zero.append(image)
            continue
        sum_of = {image: 1}
        for place, basis, parts in kept:
            if weight := rest >> 8 * place & 255:
                rest ^= weighted(basis, weight)
                for part, other in parts.items():
                    sum_of[part] = sum_of.get(part, 0) ^ product(weight, other)
        if not rest:
            ties.append(Tie(image, tuple((part, weight) for part, weight in sorted(sum_of.items()) if weight and part != image)))
            continue
        place = ((rest & -rest).bit_length() - 1) // 8
        scale = inverse(rest >> 8 * place & 255)
        basis = rest.to_bytes(len(sector), "little").translate(times(scale))
        kept.append((place, basis, {part: product(scale, weight) for part, weight in sum_of.items()}))
    return frozenset(zero), tuple(ties)


def tables(files: Sequence[BinaryIO], places: range, offsets: Sequence[int]) -> Iterator[tuple[int, Table]]:
    """The tables of the rows at these places, of each image moved by its offset."""
    for place in places:
        row = []
        for file, offset in zip(files, offsets):
            file.seek((place + offset) * SECTOR)
            row.append(file.read(SECTOR).ljust(SECTOR, b"\0"))
        yield place, table(row)


def look(names: Sequence[str], first: int, end: int, step: int, offsets: Sequence[int] = (), seconds: float = 60) -> Relations | None:
    """The relations of images in the rows from a first to before a last one, each so many sectors behind the one before; None where the time was up
    before all were looked at. An image that cannot be read raises `OutsideError`."""
    until, found = time.monotonic() + seconds, list[Rows]()
    try:
        with contextlib.ExitStack() as stack:
            files = [stack.enter_context(open(name, "rb")) for name in names]
            for place, (zero, ties) in tables(files, range(first, end, step), offsets or [0] * len(names)):
                if found and (found[-1].zero, found[-1].ties) == (zero, ties):
                    found[-1] = Rows(found[-1].first, place, zero, ties)
                else:
                    found.append(Rows(place, place, zero, ties))
                if time.monotonic() > until:
                    return None
    except OSError as error:
        raise OutsideError(f"an image cannot be read: {said(error)}") from error
    free = sum(rows.count(step) for rows in found if not rows.ties)
    tied = frozenset[int]().union(*(tie.images for rows in found for tie in rows.ties))
    return Relations(step, tuple(found), (), frozenset(range(len(names))) - tied, free, len(range(first, end, step)))
