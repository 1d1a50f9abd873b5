"""Cases of `mirrors` and `mirrorwrite`: images that hold each chunk several times."""

import mirrors
from making import EDGES, NAMES, Case, an_end, files_of, shuffled, some_bytes
from texts import CHUNKS, FAR, LAYOUTS, MOST, RANKS, SECTOR, Mirror, Stop, read_words


def some_layout(rng):
    return "near2" if rng.random() < 0.3 else rng.choice(LAYOUTS)


def some_mirrored(rng):
    """A set of copies and its images; sometimes with copies that differ, tails, images lost, and images of nothing."""
    layout = some_layout(rng)
    members = MOST if rng.random() < 0.02 else rng.choice([count for count in [2, 3, 3, 4, 4, 5, 5, 6, 7] if count >= int(layout[-1])])
    chunk, offset, rows = rng.choice([1, 1, 1, 2, 4, 8]), rng.choice([0, 0, 0, 1, 2, 5]), rng.choice([1, 2, 3, 4, 5, 6, 8, 9])
    end = offset + rows * chunk
    images = [bytearray(some_bytes(rng, end * SECTOR)) for _ in range(members)]
    found = Mirror(layout, chunk, offset, range(members))
    alike = rng.choice([0, 0, 0, 1])
    for copies in mirrors.places(layout, members, rows):
        for inner in range(chunk):
            block = bytes([alike and 7]) * SECTOR if alike else some_bytes(rng, SECTOR)
            for slot, row, _ in copies:
                start = (offset + row * chunk + inner) * SECTOR
                images[slot][start:start + SECTOR] = block
    for _ in range(rng.choice([0, 0, 0, 1, 2, 3])):
        image = rng.choice(images)
        image[rng.randrange(len(image))] ^= 1 << rng.randrange(8)
    tail = rng.choice([0, 0, 1, chunk - 1])
    for image in images:
        image += some_bytes(rng, (tail + rng.choice([0, 0, 0, 1])) * SECTOR) + bytes(rng.choice([0] * 8 + [1, 511]))
    order = sorted(rng.sample(range(members), members - some_lost(rng, members)))
    for _ in range(rng.choice([0] * 4 + [1, 2])):
        if len(order) < MOST:
            images.append(bytearray(some_bytes(rng, len(images[0]))))
            order.append(len(images) - 1)
    rng.shuffle(order)
    return found_in(found, range(members), order), [bytes(images[place]) for place in order]


def some_lost(rng, members):
    """How many images are lost: none, mostly, or a few, and at least one is left."""
    return min(members - 1, rng.choice([0, 0, 0, 0, 0, 1, 1, 2, 2, 3, members // 2, members]))


def found_in(found, slots, order):
    """The set with the images numbered in this order, which may lack some."""
    return Mirror(found.layout, found.chunk, found.offset, [order.index(slot) if slot in order else None for slot in slots])


def changed_mirror(rng, found, images):
    """The set, or one like it."""
    way, slots, layout, chunk, offset = rng.random(), list(found.slots), found.layout, found.chunk, found.offset
    if way < 0.4:
        return found
    if way < 0.45:
        layout = rng.choice(LAYOUTS)
    elif way < 0.5:
        rng.shuffle(slots)
    elif way < 0.58:
        chunk = rng.choice([0, 1, 2, 3, 4, 8, 32768, 65536, 2 ** 32 - 1])
    elif way < 0.66:
        offset = rng.choice([0, 1, 2, 3, FAR - 1, min(len(image) for image in images) // SECTOR])
    elif way < 0.78:
        for _ in range(rng.choice([1, 1, 2, 3])):
            slots[rng.randrange(len(slots))] = None
    elif way < 0.88:
        slots[rng.randrange(len(slots))] = rng.choice([0, 1, len(images) - 1, len(images), MOST - 1])
    elif way < 0.95:
        slots = slots[:rng.choice([1, 1, 2, max(1, len(slots) - 1)])]
    elif len(slots) < MOST:
        slots.append(rng.choice([None, 0, len(images)]))
    return Mirror(layout, chunk, offset, slots)


def mirrorwrite_case(rng):
    found, images = some_mirrored(rng)
    files = files_of(images)
    operands = [f"set={changed_mirror(rng, found, images).word()}", *an_end(rng, images)]
    return Case(["mirrorwrite", *shuffled(rng, operands), "--", *files], b"", files)


def joined(values):
    return ",".join(str(value) for value in sorted(set(values), key=LAYOUTS.index if values[0] in LAYOUTS else None))


def range_operands(rng, total, rank, most):
    """Where a listing goes from and to, with a rank in it, mostly, and such that it goes through no more than so many sets."""
    operands = []
    if rng.random() < 0.5 or total > most:
        first = rng.choice([0, 1, total // 2, max(0, total - 1), total, total + 1, rng.randint(0, total)] + [rank, max(0, rank - 3)] * 4)
        operands.append(f"from={min(first, RANKS - 1)}")
    if rng.random() < 0.5:
        operands.append(f"size={rng.choice([1, 2, 3, 7, 100, 1000000])}")
    if rng.random() < 0.4 or total > most:
        operands.append(f"span={rng.choice([1, 2, 5, 100, max(1, min(total, most))] + ([RANKS - 1] if total <= most else []))}")
    return operands


def mirrors_case(rng):
    if rng.random() < 0.02:
        return large_mirrors(rng)
    found, images = some_mirrored(rng)
    end = min(len(image) for image in images) // SECTOR
    absent = len(images) - (found.members - found.lost)
    area = found.area(end)
    asked = {"layouts": [found.layout] + rng.choice([[], [], [], ["near2"], rng.sample(LAYOUTS, 2)]),
             "members": [found.members] + rng.choice([[], [], [], [2], [3], [min(MOST, found.members + 1)]]),
             "chunks": [found.chunk] + rng.choice([[], [], [1], [2], [32768]]),
             "offsets": [found.offset] + rng.choice([[], [], [0], [1], [FAR - 1], [end]]),
             "missing": [min(MOST - 1, max(0, found.lost + rng.choice([0] * 10 + [1, -1])))],
             "foreign": [max(0, absent + rng.choice([0] * 10 + [1, -1]))],
             "badrows": [rng.choice([0, 0, 1, 2, 3, FAR - 1])],
             "window": [rng.choice([1, 2, max(1, area - 1), max(1, area), area + 1, max(1, found.chunk), FAR - 1])]}
    usual = {"layouts": 0.7 if found.layout == "near2" else 0.01, "members": 0.7 if found.members == len(images) else 0.03, "chunks": 0.01,
             "offsets": 0.01, "missing": 0.5, "foreign": 0.5, "badrows": 0.4, "window": 0.5}
    operands = [f"{name}={joined(values)}" for name, values in asked.items()
                if rng.random() > usual[name] or name in ("missing", "foreign") and values != [0]]
    if rng.random() < 0.01:
        operands = [word for word in operands if not word.startswith("missing=")] + [f"missing={MOST}"]
    full = {name: sorted(set(values), key=LAYOUTS.index if name == "layouts" else None) for name, values in asked.items()}
    full.update(missing=asked["missing"][0], foreign=asked["foreign"][0])
    if not any(word.startswith("layouts=") for word in operands):
        full["layouts"] = ["near2"]
    if not any(word.startswith("members=") for word in operands):
        full["members"] = [max(2, len(images))]
    product = mirrors.Mirrors(full, len(images))
    total, rank = product.total, product.rank_of(found) or 0
    if not all(any(word.startswith(f"{name}=") for word in operands) for name in ("chunks", "offsets")):
        # with what is usual there are more
        total = max(total, 401)
    operands += range_operands(rng, total, rank, 400) + an_end(rng, images)
    files = files_of(images)
    return Case(["mirrors", *shuffled(rng, operands), "--", *files], b"", files, total > 400)


def goes_far(case):
    """Whether words ask for a listing of more sets than can be gone through, as with a name or two more where `members` is not said."""
    try:
        command, given, names = read_words(case.words)
    except Stop:
        return False
    if command != "mirrors" or not 0 < len(names) <= MOST:
        return False
    usual = {"layouts": ["near2"], "members": [max(2, len(names))], "chunks": CHUNKS[3:12], "offsets": [0, 1, 2, 3], "missing": 0, "foreign": 0}
    total = mirrors.Mirrors({**usual, **given}, len(names)).total
    return total < RANKS and min(total, given.get("span", total)) > 5000


def large_mirrors(rng):
    """A product near the largest that has ranks, or of few members among many images, of which a few sets are asked for."""
    count = rng.choice([17, 18, 19, 20, 20, 20, 21, MOST])
    members = count + rng.choice([0, 0, 1]) if count < 21 else rng.choice([2, 3, 6, count])
    block = some_bytes(rng, 4 * SECTOR)
    images = [block if rng.random() < 0.7 else some_bytes(rng, 4 * SECTOR) for _ in range(count)]
    asked = {"layouts": rng.choice([["near2"], [some_layout(rng)], LAYOUTS]), "members": [min(MOST, members)],
             "chunks": CHUNKS[:rng.randint(1, 16)], "offsets": list(range(rng.choice([1, 1, 2, 3, 64]))),
             "missing": rng.choice([0, 1, 1, 2, 3, MOST - 1]), "foreign": min(MOST, max(0, count - members) + rng.choice([0, 0, 1]))}
    total = mirrors.Mirrors(asked, count).total
    first = rng.choice([0, 1, total - 5, total - 1, total, total + 1, rng.randint(0, total), RANKS - 1, rng.choice(EDGES)])
    operands = [f"{name}={joined(value) if isinstance(value, list) else value}" for name, value in asked.items()]
    operands += [f"from={min(max(0, first), RANKS - 1)}", f"span={rng.randint(1, 8)}", f"size={rng.choice([1, 5])}"]
    return Case(["mirrors", *shuffled(rng, operands), "--", *NAMES[:count]], b"", files_of(images), True)
