"""Rows of arrays and their relations, as `reraid relations` puts them: what tests of evidence are made of. Nothing here is of the program."""

import random

COLUMNS = 24
POWERS = [1]
while len(POWERS) < 255:
    POWERS.append((POWERS[-1] << 1) ^ (0x11D if POWERS[-1] & 128 else 0))
LOGS = {power: exponent for exponent, power in enumerate(POWERS)}
Row = list[bytes]


def times(one: int, other: int) -> int:
    """The product of two bytes in GF(2^8)."""
    return POWERS[(LOGS[one] + LOGS[other]) % 255] if one and other else 0


def plus(one: bytes, other: bytes, weight: int = 1) -> bytes:
    """The sum of a sector and another one, which is weighted."""
    return bytes(a ^ times(weight, b) for a, b in zip(one, other))


def table(row: Row) -> tuple[list[int], dict[int, dict[int, int]]]:
    """The images whose sectors are zeros, and of each that depends on those before it the weights of the independent ones."""
    zero: list[int] = []
    ties: dict[int, dict[int, int]] = {}
    kept: list[tuple[int, bytes, dict[int, int]]] = []
    for image, sector in enumerate(row):
        if not any(sector):
            zero.append(image)
            continue
        weights = {image: 1}
        for place, basis, parts in kept:
            if factor := sector[place]:
                sector = plus(sector, basis, factor)
                for part, weight in parts.items():
                    weights[part] = weights.get(part, 0) ^ times(factor, weight)
        if any(sector):
            place = next(place for place, byte in enumerate(sector) if byte)
            inverse = POWERS[-LOGS[sector[place]] % 255]
            kept.append((place, plus(bytes(COLUMNS), sector, inverse), {part: times(inverse, weight) for part, weight in weights.items()}))
        else:
            ties[image] = {part: weight for part, weight in sorted(weights.items()) if weight and part != image}
    return zero, ties


def text(rows: list[Row], first: int = 0, step: int = 1) -> str:
    """The lines of `reraid relations` for some rows, but for the sets that are together."""
    lines: list[tuple[int, int, str]] = []
    free, seen = 0, set()
    for place, row in enumerate(rows):
        zero, ties = table(row)
        free += not ties
        for image, weights in ties.items():
            seen |= {image, *weights}
        told = " ".join(f"{image}=" + "+".join(f"{weight}*{part}" for part, weight in weights.items()) for image, weights in ties.items())
        line = f"zero {','.join(map(str, zero)) or '-'} tied {told or '-'}"
        sector = first + place * step
        if lines and lines[-1][2] == line:
            lines[-1] = lines[-1][0], sector, line
        else:
            lines.append((sector, sector, line))
    alone = ",".join(str(image) for image in range(len(rows[0])) if image not in seen) or "-"
    return "".join(f"rows {begin} {end} {line}\n" for begin, end, line in lines) + f"alone {alone}\nfree {free} of {len(rows)}\n"


def sector(rnd: random.Random) -> bytes:
    """A sector of random bytes."""
    return rnd.randbytes(COLUMNS)


def striped(rnd: random.Random, members: int, level: int, rows: int, chunk: int = 8, sparse: float = 0.0) -> list[Row]:
    """The rows of a RAID 5 or 6 whose parity moves to the left (left-symmetric, Q after P). So much of the data are zeros, by chunks."""
    made, parity = [], level - 4
    for number in range(rows):
        turn = number // chunk
        p = members - 1 - turn % members
        row = [bytes(COLUMNS)] * members
        empty = random.Random(turn)
        for place in range(members - parity):
            data = sector(rnd) if empty.random() >= sparse else bytes(COLUMNS)
            row[(p + parity + place) % members] = data
            row[p] = plus(row[p], data)
            if parity == 2:
                row[(p + 1) % members] = plus(row[(p + 1) % members], data, POWERS[place])
        made.append(row)
    return made


def alone(rnd: random.Random, rows: int) -> list[Row]:
    """The rows of a disk that belongs to nothing."""
    return [[sector(rnd)] for _ in range(rows)]


def beside(*parts: list[Row]) -> list[Row]:
    """Rows of several arrays as rows of all their images."""
    return [[sector for row in rows for sector in row] for rows in zip(*parts)]


def without(rows: list[Row], image: int) -> list[Row]:
    """The rows without an image."""
    return [row[:image] + row[image + 1:] for row in rows]
