"""Cases of `relations`: images whose sectors are sums of one another, with weights that may change from row to row, and arrays among others."""

from making import EDGES, NAMES, Case, files_of, shuffled, some_array, some_bytes
from relations import added, scaled
from texts import FAR, MOST_RELATED, SECTOR

# as many names as there may be images, and one more
MORE_NAMES = [*NAMES, *(f"{one}{other}" for one in "ab" for other in NAMES)][:MOST_RELATED + 1]


def some_count(rng):
    """How many images: mostly few, sometimes as many as there may be."""
    return rng.choice([2, 3, 3, 4, 4, 5, 5, 6, 6, 7, 8, 8, 9, 11, 12, 16, rng.randint(17, 40), rng.choice([63, MOST_RELATED])])


def some_sector(rng):
    """A sector of any bytes, of one byte, or with a few that are not zeros: of the last two kinds many depend on one another by chance."""
    way = rng.random()
    if way < 0.6:
        return rng.randbytes(SECTOR)
    if way < 0.8:
        return bytes([rng.randrange(256)]) * SECTOR
    made = bytearray(SECTOR)
    for _ in range(rng.choice([1, 1, 2, 3])):
        made[rng.choice([0, 1, 255, SECTOR - 1, rng.randrange(SECTOR)])] = rng.choice([1, 2, 128, 255])
    return bytes(made)


def some_weight(rng):
    return rng.choice([0, 0, 1, 1, 1, 2, 4, 128, 255, rng.randrange(256)])


def some_rule(rng, place):
    """How the sector of an image comes about: of its own, zeros, or a sum of those of images before it with these weights."""
    way = rng.random()
    if place == 0 or way < 0.45:
        return None
    if way < 0.52:
        return []
    if way < 0.64:
        return [(rng.randrange(place), rng.choice([1, 1, 1, 2, 255, rng.randrange(1, 256)]))]
    if way < 0.72:
        return [(image, 1) for image in range(rng.randrange(place), place)]
    return [(image, some_weight(rng)) for image in range(max(0, place - rng.choice([2, 3, 5, place])), place)]


def by_rule(rng, rule, before):
    """A sector by its rule, over those of the images before it."""
    if rule is None:
        return some_sector(rng)
    total = bytes(SECTOR)
    for image, weight in rule:
        total = added(total, scaled(weight, before[image]))
    return total


def tied_images(rng, count, rows):
    """Images whose rules change at some rows."""
    images, rules = [bytearray() for _ in range(count)], []
    for row in range(rows):
        if row == 0 or rng.random() < 0.15:
            rules = [some_rule(rng, place) for place in range(count)]
        elif rng.random() < 0.2:
            place = rng.randrange(count)
            rules = [*rules[:place], some_rule(rng, place), *rules[place + 1:]]
        made = []
        for rule in rules:
            made.append(by_rule(rng, rule, made))
        for image, sector in zip(images, made):
            image += sector
    rng.shuffle(images)
    return [bytes(image) for image in images]


def damaged(rng, images):
    """The images, with a byte changed, an image of nothing, or one twice."""
    images, way = list(images), rng.random()
    place = rng.randrange(len(images))
    if way < 0.2 and images[place]:
        image = bytearray(images[place])
        image[rng.randrange(len(image))] ^= 1 << rng.randrange(8)
        images[place] = bytes(image)
    elif way < 0.3 and len(images) < MOST_RELATED:
        images.insert(place, rng.choice([images[place], bytes(len(images[place])), some_bytes(rng, len(images[place]))]))
    elif way < 0.35:
        images[place] = bytes(len(images[place]))
    return images


def some_related(rng):
    """Images, and how many rows they have in common before they are moved."""
    way = rng.random()
    if way < 0.25:
        _, images, _ = some_array(rng, False)
        if rng.random() < 0.3:
            images += some_array(rng, False)[1]
    elif way < 0.265:
        # more rows than are looked at where no step is given
        images = tied_images(rng, rng.choice([2, 3]), rng.choice([4095, 4096, 4097, 5000, 8192, 8193, 8200]))
    else:
        count = some_count(rng)
        images = tied_images(rng, count, rng.choice([1, 2, 3, 5, 8, 13, 30] if count < 20 else [1, 2, 3, 4]))
    images = damaged(rng, images)
    return images[:MOST_RELATED], min(len(image) for image in images) // SECTOR


def moved(rng, images):
    """The images behind some sectors of their own, and how many these are."""
    offsets = [rng.choice([0, 0, 0, 1, 2, 5]) for _ in images]
    return [some_bytes(rng, offset * SECTOR) + image for offset, image in zip(offsets, images)], offsets


def other_offsets(rng, offsets, rows):
    """Offsets that are one more or less, past the images, or as they are."""
    offsets, way = list(offsets), rng.randrange(6)
    place = rng.randrange(len(offsets))
    if way == 0:
        offsets.append(rng.choice([0, 1]))
    elif way == 1 and len(offsets) > 1:
        offsets.pop()
    elif way == 2:
        offsets[place] = rng.choice([rows, rows + 1, offsets[place] + rows, FAR - 1, FAR])
    elif way == 3:
        offsets = [offsets[place]] * rng.choice([1, 2, MOST_RELATED, MOST_RELATED + 1])
    elif way == 4:
        rng.shuffle(offsets)
    return offsets


def row_operands(rng, rows):
    """Where rows begin and end, and how far they lie apart."""
    operands, inside = [], rng.randint(0, max(1, rows))
    numbers = {"from": [0, 0, 1, 2, max(0, rows - 1), rows, rows + 1, inside, FAR - 1, rng.choice(EDGES)],
               "end": [rows, rows, max(0, rows - 1), max(0, rows - 2), 0, 1, inside, rows + rng.choice([0, 0, 0, 1])],
               "step": [1, 1, 2, 3, max(1, rows - 1), max(1, rows), rows + 1, FAR - 1, rng.choice(EDGES)]}
    for name, values in numbers.items():
        if rng.random() < 0.35:
            operands.append(f"{name}={rng.choice(values)}")
    if rng.random() < 0.5:
        operands.append(f"form={rng.choice(['json', 'json', 'text'])}")
    return operands


def relations_case(rng):
    images, rows = some_related(rng)
    operands = row_operands(rng, rows)
    if rng.random() < 0.4:
        images, offsets = moved(rng, images)
        if rng.random() < 0.15:
            offsets = other_offsets(rng, offsets, rows)
        operands.append("offsets=" + "+".join(map(str, offsets)))
    files = dict(zip(MORE_NAMES, (image + bytes(rng.choice([0] * 8 + [1, 511])) for image in images)))
    names = list(files)
    if rng.random() < 0.02:
        names = names[:rng.choice([0, 1])] if rng.random() < 0.5 else (names * MOST_RELATED)[:MOST_RELATED + rng.choice([0, 1])]
    case = Case(["relations", *shuffled(rng, operands), "--", *names], b"", files)
    if rng.random() < 0.06:
        case.failing = rng.choice([1, 2, 3, len(images), len(images) + 1, rng.randint(1, max(1, rows * len(images)))])
    return case
