"""The report of how images depend on one another, row by row: a reference that is independent of the program. Each row is
solved anew, column by column, by elimination over rows of a matrix; sets of images are Python's sets."""

import json
from collections import Counter

SECTOR = 512
MOST_SETS = 4096


def doubled(byte):
    """Twice an element of the field of 256 elements with the polynomial 0x11D."""
    return (byte << 1) ^ (0x11D if byte & 0x80 else 0)


def times(one, other):
    """The product of two elements, by doubling and adding."""
    product = 0
    while other:
        if other & 1:
            product ^= one
        one, other = doubled(one), other >> 1
    return product


PRODUCTS = [bytes(times(one, other) for other in range(256)) for one in range(256)]
INVERSES = [0] + [next(other for other in range(1, 256) if times(one, other) == 1) for one in range(1, 256)]


def scaled(weight, sector):
    """A sector, each byte times a weight."""
    return sector.translate(PRODUCTS[weight])


def added(one, other):
    return (int.from_bytes(one, "big") ^ int.from_bytes(other, "big")).to_bytes(len(one), "big")


def table(sectors):
    """The images whose sectors are zeros, and the sums that dependent ones are: weights by image, in order of the images."""
    zeros, ties = [], {}
    kept = []
    for place, sector in enumerate(sectors):
        if not any(sector):
            zeros.append(place)
            continue
        weights = {place: 1}
        for column, pivot, combined in kept:
            if sector[column]:
                weight = sector[column]
                sector = added(sector, scaled(weight, pivot))
                for image, part in combined.items():
                    weights[image] = weights.get(image, 0) ^ times(weight, part)
        column = next((at for at, byte in enumerate(sector) if byte), None)
        if column is None:
            ties[place] = {image: weight for image, weight in sorted(weights.items()) if weight and image != place}
        else:
            inverse = INVERSES[sector[column]]
            kept.append((column, scaled(inverse, sector), {image: times(inverse, weight) for image, weight in weights.items() if weight}))
    return zeros, ties


def parts(ties):
    """The sets into which ties connect images."""
    sets = []
    for image, weights in ties.items():
        joined, others = {image, *weights}, []
        for one in sets:
            if one & joined:
                joined |= one
            else:
                others.append(one)
        sets = others + [joined]
    return [frozenset(one) for one in sets]


def numbers(images):
    return ",".join(map(str, images)) if images else "-"


def compact(value):
    return json.dumps(value, separators=(",", ":"))


def row_line(first, last, zeros, ties, form):
    if form == "json":
        tied = [[image, [[weight, other] for other, weight in weights.items()]] for image, weights in ties.items()]
        return compact({"rows": [first, last], "zero": zeros, "tied": tied})
    tied = " ".join(f"{image}=" + "+".join(f"{weight}*{other}" for other, weight in weights.items()) for image, weights in ties.items())
    return f"rows {first} {last} zero {numbers(zeros)} tied {tied or '-'}"


def order(images):
    """Sets by the first image that is in one alone."""
    return [0 if image in images else 1 for image in range(64)]


def report(images, rows, offsets, form):
    """The lines over these rows, of images whose sector of row 0 is the one at their offset."""
    lines, run, counts, free = [], None, Counter(), 0
    for row in rows:
        found = table([image[SECTOR * (row + offset):SECTOR * (row + offset + 1)] for image, offset in zip(images, offsets)])
        if run and run[2] == found:
            run[1] = row
        else:
            if run:
                lines.append(row_line(run[0], run[1], *run[2], form))
            run = [row, row, found]
        counts.update(parts(found[1]))
        free += not found[1]
    if run:
        lines.append(row_line(run[0], run[1], *run[2], form))
    sets = sorted(counts.items(), key=lambda item: (-item[1], order(item[0])))
    alone = [image for image in range(len(images)) if not any(image in one for one in counts)]
    text = form != "json"
    for one, count in sets[:MOST_SETS]:
        lines.append(f"together {numbers(sorted(one))} in {count} rows" if text else compact({"together": sorted(one), "rows": count}))
    if len(sets) > MOST_SETS:
        lines.append(f"others {len(sets) - MOST_SETS}" if text else compact({"others": len(sets) - MOST_SETS}))
    lines.append(f"alone {numbers(alone)}" if text else compact({"alone": alone}))
    lines.append(f"free {free} of {len(rows)}" if text else compact({"free": free, "of": len(rows)}))
    return "".join(line + "\n" for line in lines)
