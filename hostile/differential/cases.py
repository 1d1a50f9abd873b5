"""Cases for the reference and the program: words, a plan text and images, made at random from a seed, many of them near the limits
of the formats. `make(command, rng)` gives one.
"""

import math

from class_cases import classes_case
from generated import array_images
from making import (NAMES, Case, an_end, changed_set, files_of, finished, long_plan, shuffled, some_array, some_bytes, some_delay, some_plan, torn)
from mirror_cases import goes_far, mirrors_case, mirrorwrite_case
from product import Product
from relation_cases import relations_case
from salvage_cases import salvage_case
from sample_cases import sample_case
from survey_cases import survey_case
from texts import FAR, FIVE, MOST, PATTERNS, RANKS, REDUNDANCY, SECTOR, SIX, SYNDROMES, Plan, Set


def some_own(rng):
    """Whether each image has an offset of its own."""
    return rng.random() < 0.35


def list_case(rng):
    if rng.random() < 0.015:
        return rng.choice([large_product, many_bases])(rng)
    found, images, size = some_array(rng, some_own(rng))
    plan = some_plan(rng, found, images, size, 400)
    product = Product(plan)
    total, rank = product.total, product.rank_of(found) or 0
    operands = []
    if rng.random() < 0.5 or total > 400:
        firsts = [0, 1, total // 2, max(0, total - 1), total, total + 1, rng.randint(0, total)]
        operands.append(f"from={rng.choice(firsts + [rank, rank, rank + 1, max(0, rank - 3)])}")
    if rng.random() < 0.6:
        operands.append(f"size={rng.choice([1, 2, 3, 7, 100, 1000, 1000000])}")
    if rng.random() < 0.4 or total > 400:
        operands.append(f"span={rng.choice([1, 2, 5, 100, max(1, min(total, 400))] + ([RANKS - 1] if total <= 400 else []))}")
    if rng.random() < 0.5:
        operands.append(f"pages={rng.choice([1, 2, 3, 4])}")
    if rng.random() < 0.5:
        operands.append(f"form={rng.choice(['json', 'json', 'text'])}")
    text = plan.text().encode()
    if rng.random() < 0.05:
        text = torn(rng, text)
    elif rng.random() < 0.01:
        text = long_plan(rng, plan)
    files = files_of(images)
    return Case(["list", *shuffled(rng, operands), "--", *files], text, files, total > 400)


def large_product(rng):
    """A product near the largest that has ranks, or of few members among many images, of which a few sets are asked for."""
    count = rng.choice([16, 16, 16, 17, 18, 19, 21, 22, MOST, MOST])
    members = count if count < 19 or rng.random() < 0.2 else rng.randint(4, 8)
    images = [some_bytes(rng, 4 * SECTOR) for _ in range(count)]
    given = {"levels": [6], "members": [members], "patterns": rng.sample(SIX, rng.randint(1, 13)), "syndromes": SYNDROMES[1:],
             "chunks": [2 ** power for power in range(rng.randint(1, 16))], "offsets": list(range(rng.randint(1, 64))), "origins": [0],
             "missing": rng.choice([0, 1, 2]), "foreign": min(MOST, count - members + rng.choice([0, 1, 2])), "badrows": rng.choice([0, 4]),
             "window": 4, "misfits": 0, "least": 1}
    given["patterns"].sort(key=PATTERNS.index)
    plan = Plan([4] * count, 4, given, [])
    return few_ranks(rng, plan, images)


def few_ranks(rng, plan, images):
    """A listing of a few sets of a large product."""
    total = Product(plan).total
    first = rng.choice([0, 1, total - 5, total - 1, total, total + 1, rng.randint(0, total), RANKS - 1])
    words = ["list", f"from={min(max(0, first), RANKS - 1)}", f"span={rng.randint(1, 8)}", "size=5", "--", *NAMES[:len(images)]]
    return Case(words, plan.text().encode(), files_of(images), True)


def many_bases(rng):
    """A product near the largest that has ranks, or far above it, by its lists of bases: so many offsets for each of the images."""
    count = rng.choice([1, 8, 9, 10, 11, 12, 14, 16, MOST])
    most = math.floor((RANKS / math.factorial(count)) ** (1 / count)) if count < 21 else 1
    offsets = min(64, max(1, most + rng.choice([-1, 0, 0, 1, 60])))
    members = max(2, min(MOST, count + rng.choice([0, 0, 0, 1, 2])))
    given = {"levels": [0, 5, 6], "members": [members], "patterns": ["plain", "ls"], "syndromes": ["none", "after-q"],
             "chunks": [1], "offsets": list(range(offsets)), "origins": [0], "missing": max(0, members - count), "foreign": 0, "badrows": 0,
             "window": 4, "misfits": 0, "least": 1}
    given["levels"] = rng.choice([[0], [0], [5], [6], [0, 5]]) if members == count else [6]
    length = rng.choice([1, offsets, offsets + 1])
    images = [some_bytes(rng, length * SECTOR) for _ in range(count)]
    return few_ranks(rng, Plan([length] * count, length, given, [], True), images)


def columns(byte, places):
    """A sector with this byte in some places, and zeros elsewhere."""
    return bytes(byte if place in places else 0 for place in range(SECTOR))


def scan_case(rng):
    """A listing of which hundreds or thousands of sets are left for the parity test, so that they are tested together: sectors
    that are mostly alike, and rows that may be unsound. In half of them most columns are zeros in all images."""
    sectors = rng.choice([1, 2, 3, 4])
    each = rng.random() < 0.25
    count = rng.choice([4, 4, 5] if each else [5, 6, 6, 7])
    foreign, missing = rng.choice([(0, 0), (0, 0), (0 if each else 1, 0), (0, 1)])
    members = count - foreign + missing
    level = rng.choice([5, 6, 6, 6])
    places = [range(SECTOR), range(SECTOR), [rng.randrange(SECTOR)], sorted(rng.sample(range(SECTOR), 3))][rng.randrange(4)]
    sector = columns(rng.choice([0, 0, 1]), places)
    images = [b"".join(rng.choice([sector, sector, sector, sector, columns(rng.choice([0, 1, 2, 255]), places)]) for _ in range(sectors))
              for _ in range(count)]
    patterns = SIX if level == 6 else FIVE
    given = {"levels": [level], "members": [members], "patterns": sorted(rng.sample(patterns, rng.choice([1, 2, 3])), key=PATTERNS.index),
             "syndromes": sorted(rng.sample(SYNDROMES[1:], rng.choice([1, 2])), key=SYNDROMES.index) if level == 6 else SYNDROMES[:1],
             "chunks": rng.choice([[1], [1], [1, 2]]), "offsets": [0, 1] if each else rng.choice([[0], [0], [0, 1]]), "origins": [0],
             "missing": missing, "foreign": foreign, "badrows": rng.choice([0, 1, 1, 2, sectors - 1, sectors, sectors + 1]),
             "window": rng.choice([1, sectors, FAR - 1]), "misfits": 0, "least": 1}
    plan = Plan([sectors] * count, sectors, given, [], each)
    total = Product(plan).total
    operands = [f"size={rng.choice([1, 7, 100, 1000, 1000000])}", f"span={min(total, 5000)}", f"from={rng.choice([0, 0, rng.randint(0, total)])}"]
    if rng.random() < 0.5:
        operands.append(f"pages={rng.choice([2, 3])}")
    return Case(["list", *shuffled(rng, operands), "--", *NAMES[:count]], plan.text().encode(), files_of(images), True)


def weak_volume(rng, sectors):
    """A volume whose sectors are random, but for some that are zeros, equal, or zeros in most columns."""
    alike, places = rng.randbytes(SECTOR), sorted(rng.sample(range(SECTOR), rng.choice([1, 2, 3])))
    shares = rng.choice([(1, 0, 0, 0), (1, 0, 0, 0), (3, 1, 0, 0), (1, 3, 0, 0), (1, 0, 2, 0), (1, 0, 0, 2), (1, 1, 1, 1), (0, 1, 2, 0), (0, 1, 0, 1)])
    kinds = rng.choices(range(4), shares, k=sectors)
    return b"".join([rng.randbytes(SECTOR), bytes(SECTOR), alike, columns(rng.randrange(1, 256), places)][kind] for kind in kinds)


def order_case(rng):
    """A listing of all orders of the disks of an array, of which none, one or two may be lost, with foreign images, old or damaged rows,
    and rows of zeros, of equal sectors and of few columns, over heads of which one is that of the array, mostly."""
    level, own = rng.choice([5, 6, 6, 6]), rng.random() < 0.2
    lost = rng.choice([0, 0, 1] if level == 5 else [0, 0, 1, 1, 1, 2])
    foreign = 0 if own else rng.choice([0, 0, 0, 1, 1, 2])
    members = rng.randint(REDUNDANCY[level] + (2 if level == 5 else 1), {0: 6, 1: 5, 2: 5}[foreign] - own)
    members = max(members, 3 if level == 5 else 4)
    pattern, syndrome = rng.choice(SIX if level == 6 else FIVE), rng.choice(SYNDROMES[1:]) if level == 6 else SYNDROMES[0]
    slots = list(range(members - lost)) + [None] * lost
    rng.shuffle(slots)
    chunk, delay = rng.choice([1, 1, 2, 4]), some_delay(rng, pattern)
    rows = rng.randint(2, 6 if delay == 1 else 12)
    found = Set(level, pattern, syndrome, chunk, 0 if own else rng.choice([0, 0, 1, 3]), slots, delay=delay)
    images = [bytearray(image) for image in array_images(found, rows, weak_volume(rng, rows * chunk * found.data))]
    offsets = {found.offset}
    if own:
        bases = [rng.choice([0, 1]) for _ in images]
        images, offsets = [bytearray(rng.randbytes(base * SECTOR)) + image for base, image in zip(bases, images)], {0, 1}
    sectors = min(len(image) for image in images) // SECTOR
    damaged = rng.choice([0, 0, 0, 1, 1, 2, sectors // 2])
    for _ in range(damaged):
        image, at = rng.choice(images[:1] if rng.random() < 0.7 else images), rng.randrange(sectors) * SECTOR
        image[at:at + SECTOR] = rng.choice([bytes(SECTOR), rng.randbytes(SECTOR), image[:SECTOR]])
    for _ in range(foreign):
        images.append(rng.choice([bytearray(rng.randbytes(sectors * SECTOR)), bytearray(images[0]), bytearray(sectors * SECTOR)]))
    rng.shuffle(images)
    given = {"levels": [level], "members": [members], "patterns": {pattern, *rng.sample(SIX if level == 6 else FIVE, rng.choice([0, 1, 2]))},
             "syndromes": {syndrome, *(rng.sample(SYNDROMES[1:], rng.choice([0, 1])) if level == 6 else [])},
             "delays": {delay, *rng.sample([1, 2, 3, 16], rng.choice([0, 0, 0, 1]))},
             "chunks": {chunk, *rng.sample([1, 2, 4], rng.choice([0, 0, 1]))}, "offsets": offsets | {rng.choice([0, 1, 2])},
             "missing": min(2, lost + rng.choice([0, 0, 0, 1])), "foreign": 0 if own else foreign + rng.choice([0, 0, 0, 1]),
             "badrows": rng.choice([0, 0, damaged, damaged, max(0, damaged - 1), damaged + 1, 64]),
             "window": rng.choice([1, 2, rows, sectors, FAR - 1, FAR - 1]), "misfits": 0, "least": 1, "origins": [0]}
    for name, known in (("patterns", PATTERNS), ("syndromes", SYNDROMES), ("chunks", [1, 2, 4]), ("offsets", [0, 1, 2, 3]),
                        ("delays", range(1, 1025))):
        given[name] = sorted(given[name], key=known.index)
    while True:
        plan = Plan([len(image) // SECTOR for image in images], sectors, given, [], own)
        longer = [name for name in ("patterns", "delays", "syndromes", "chunks", "offsets") if len(given[name]) > (2 if own and name == "offsets" else 1)]
        if Product(plan).total <= 5000 or not longer:
            break
        given[rng.choice(longer)].pop()
    total = Product(plan).total
    operands = [f"size={rng.choice([1, 7, 100, 1000, 1000000])}", f"span={min(max(1, total), 5000)}",
                f"from={rng.choice([0, 0, 0, rng.randint(0, max(0, total - 5000))])}"]
    if rng.random() < 0.5:
        operands.append(f"pages={rng.choice([2, 3])}")
    return Case(["list", *shuffled(rng, operands), "--", *NAMES[:len(images)]], plan.text().encode(), files_of(map(bytes, images)), total > 5000)


def check_case(rng):
    found, images, size = some_array(rng, some_own(rng))
    plan = some_plan(rng, found, images, size)
    text = plan.text().encode()
    if rng.random() < 0.06:
        text = torn(rng, text)
    files = files_of(images)
    return Case(["check", f"set={changed_set(rng, found, images).word()}", "--", *files], text, files)


def map_case(rng):
    found, images, size = some_array(rng, some_own(rng))
    sector = rng.choice([0, 1, size // 2, max(0, size - 1), size, size + 1, rng.randrange(size), RANKS - 1])
    operands = [f"set={changed_set(rng, found, images).word()}", f"sector={sector}", *an_end(rng, images)]
    files = files_of(images)
    return Case(["map", *shuffled(rng, operands), "--", *files], b"", files)


def write_case(rng):
    found, images, _ = some_array(rng, some_own(rng))
    operands = [f"set={changed_set(rng, found, images).word()}", *an_end(rng, images)]
    files = files_of(images)
    return Case(["write", *shuffled(rng, operands), "--", *files], b"", files)


def without_some(rng, found, images):
    """The set without one or more of its images, as many as it survives, and the images that are left."""
    slots, bases, names = list(found.slots), list(found.bases), list(range(len(images)))
    for slot in rng.sample(range(len(slots)), min(len(slots), rng.choice([1, REDUNDANCY[found.level]]))):
        image, slots[slot] = slots[slot], None
        if bases and image < len(bases):
            # each image that is there has to stand in a slot
            names[image] = None
    left = [name for name in names if name is not None]
    slots = [left.index(slot) if slot in left else slot for slot in slots]
    return found.like(slots=slots, bases=[bases[name] for name in left] if bases else ()), [images[name] for name in left]


def rebuild_case(rng):
    found, images, _ = some_array(rng, some_own(rng))
    made = found
    if None not in made.slots and REDUNDANCY[made.level]:
        made, images = without_some(rng, made, images)
    if rng.random() < 0.4:
        made = changed_set(rng, made, images)
    empty = [slot for slot, image in enumerate(made.slots) if image is None]
    slot = rng.choice(empty) if empty and rng.random() < 0.9 else rng.choice([0, 1, len(made.slots) - 1, min(MOST - 1, len(made.slots)), MOST - 1])
    operands = [f"set={made.word()}", f"slot={slot}", *an_end(rng, images)]
    files = files_of(images)
    return Case(["rebuild", *shuffled(rng, operands), "--", *files], b"", files)


MAKERS = {"survey": survey_case, "list": list_case, "check": check_case, "map": map_case, "write": write_case, "rebuild": rebuild_case,
          "sample": sample_case, "scan": scan_case, "order": order_case, "classes": classes_case, "salvage": salvage_case, "mirrors": mirrors_case,
          "mirrorwrite": mirrorwrite_case, "relations": relations_case}


def make(command, rng):
    """A case of the command."""
    case = finished(rng, MAKERS[command](rng))
    return make(command, rng) if goes_far(case) else case
