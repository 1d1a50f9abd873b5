"""What cases are made of: arrays, plans and words, made at random, many of them near the limits of the formats."""

import copy

from arrays import held, row_cells
from generated import array_images
from product import Product
from texts import (FAR, FIVE, KINDS, LEVELS, LONGEST_DELAY, MARKS_OF, MOST, MOVED, PATTERNS, RANKS, REDUNDANCY, SECTOR, SIX, STAYING, SYNDROMES,
                   Group, Mark, Plan, Set, Stop, read_plan)

EDGES = [0, 1, 2, 3, 15, 16, 17, 23, 24, 25, 63, 64, 65, 100, 4095, 4096, 4097, 32767, 32768, 65535, 65536, 65537, 999999, 1000000,
         1000001, 2 ** 32 - 1, 2 ** 32, MOVED - 1, MOVED, FAR - 1, FAR, FAR + 1, RANKS - 1, RANKS, 10 ** 25]
NAMES = "abcdefghijklmnopqrstuvwxyz"


class Case:
    """What a run is given."""

    def __init__(self, words, text=b"", files=None, large=False):
        self.words, self.text, self.files = words, text, files or {}
        self.large = large  # a plan of more sets than can be gone through, of which the words ask for a few
        self.failing = None  # the read of an image that fails, counted from 1, and all after it
        self.refused = None  # the request for memory that is refused, counted from 1


# Arrays

def some_set(rng, most=6):
    """A set that makes sense, with images numbered from 0."""
    level = rng.choice([0, 5, 5, 6, 6])
    pattern = "plain" if level == 0 else rng.choice(FIVE if level == 5 else SIX)
    syndrome = rng.choice(SYNDROMES[1:]) if level == 6 else "none"
    members = rng.randint({0: 2, 5: 3, 6: 4}[level], MOST if rng.random() < 0.03 else most)
    lost = rng.choice([0] * 3 + list(range(REDUNDANCY[level] + 1)))
    slots = list(range(members - lost)) + [None] * lost
    rng.shuffle(slots)
    chunk = rng.choice([1, 1, 1, 2, 2, 4, 8])
    offset = rng.choice([0, 0, 0, 1, 2, 3, 5, 8])
    return Set(level, pattern, syndrome, chunk, offset, slots, delay=some_delay(rng, pattern))


def some_delay(rng, pattern):
    """For how many rows the parity of a pattern stays: mostly for one, and else mostly for few, as there are few rows."""
    return 1 if pattern in STAYING or rng.random() < 0.7 else rng.choice([2, 2, 2, 3, 3, 4, 16, LONGEST_DELAY])


def some_bytes(rng, count):
    """Bytes that are all alike, few, or any."""
    way = rng.random()
    if way < 0.2:
        return bytes([rng.choice([0, 1, 255])]) * count
    if way < 0.5:
        return b"".join(bytes([rng.randrange(256)]) * SECTOR for _ in range(-(-count // SECTOR)))[:count]
    return rng.randbytes(count)


def some_bases(rng, count):
    """An offset for each of so many images, some of which, or all, may be equal."""
    few = rng.choice([[0, 1], [0, 1], [0, 2], [1, 3], [0, 1, 5], [2], [0]])
    return [rng.choice(few) for _ in range(count)]


def some_array(rng, own=False):
    """A set, its images, and the volume's size in sectors; sometimes with bad rows, tails, and images of nothing. Each image may have an
    offset of its own."""
    found = some_set(rng, 4 if own else 6)
    if own and found.members - found.lost > 1:
        found = found.like(bases=some_bases(rng, found.members - found.lost))
    rows = rng.randint(1, 4 if found.delay == 1 else 8)
    size = rows * found.chunk * found.data
    made = array_images(found, rows, some_bytes(rng, size * SECTOR))
    images = [bytearray(some_bytes(rng, found.base(place) * SECTOR)) + image[found.offset * SECTOR:] for place, image in enumerate(made)]
    tail = rng.choice([0, 0, 1, found.chunk - 1, found.chunk, found.chunk + 1])
    for image in images:
        image += some_bytes(rng, (tail + rng.choice([0, 0, 0, 1, 2])) * SECTOR)
        image += bytes(rng.choice([0] * 8 + [1, 488, 511]))
    for _ in range(rng.choice([0, 0, 0, 1, 2])):
        image = rng.choice(images)
        if image:
            image[rng.randrange(len(image))] ^= 1 << rng.randrange(8)
    bases = found.bases
    for _ in range(rng.choice([0] * (25 if bases else 5) + [1, 2])):
        if len(images) < MOST:
            images.append(bytearray(some_bytes(rng, max(len(image) for image in images))))
            bases += (rng.choice(bases),) if bases else ()
    order = list(range(len(images)))
    rng.shuffle(order)
    found = found.like(slots=[None if slot is None else order.index(slot) for slot in found.slots],
                       bases=[bases[place] for place in order] if bases else ())
    return found, [bytes(images[place]) for place in order], size


def files_of(images):
    return {name: image for name, image in zip(NAMES, images)}


# Plans

def some_list(rng, known, others, most=3):
    """A rising list with something known in it, or not."""
    chosen = {known} if rng.random() < 0.95 else {rng.choice(others)}
    chosen |= set(rng.sample(others, min(len(others), rng.choice([0, 0, 1, most - 1]))))
    return sorted(chosen, key=others.index if known in others else None)


def some_marks(rng, found, images, size, plan_end):
    """The groups of a plan: marks that lie where the set puts them, but for some."""
    groups = []
    counts = {kind: rng.choice([0, 0, 1] if kind == "gpt" else [0, 0, 0, 0, 0, 0, 1, 1, 2]) for kind in KINDS}
    for kind in [kind for kind in KINDS for _ in range(counts[kind])]:
        origin = 0 if kind == "gpt" else rng.choice([0, 1, 2])
        marks = {}
        for _ in range(rng.choice([0, 1, 2, 3, 5])):
            place = rng.randrange(size)
            chunk, inner = divmod(place, found.chunk)
            row, item = divmod(chunk, found.data)
            image = found.slots[row_cells(found, row).index(item)]
            sector = None if image is None else found.base(image) + row * found.chunk + inner
            if image is None or rng.random() < 0.15:
                image = rng.randrange(len(images))
                sector = rng.randrange(max(1, len(images[image]) // SECTOR))
            if sector < len(images[image]) // SECTOR:
                marks[sector, image] = Mark(rng.choice(MARKS_OF[kind]), image, sector, some_rule(rng, max(0, place - origin)))
        groups.append(Group(kind, [marks[place] for place in sorted(marks)]))
    if rng.random() < 0.01:
        rng.shuffle(groups)
    return groups


def some_bounds(rng, plan, found, group):
    """Bounds of a group, mostly near what it has at an origin of the plan, or none."""
    if rng.random() < 0.3:
        return None
    if rng.random() < 0.2 or found.rows(plan.end) == 0:
        return rng.choice([0, 1, 2, FAR - 1]), rng.choice([0, 1, 2, len(group.marks), len(group.marks) + 1, FAR - 1])
    at_one = copy.copy(plan)
    at_one.origins = [rng.choice(plan.origins)]
    _, fits, misfits = held(at_one, found, group._replace(bounds=(FAR - 1, 0)))
    return rng.choice([misfits, misfits, misfits + 1, max(0, misfits - 1), FAR - 1]), rng.choice([fits, fits, fits + 1, max(0, fits - 1), 0])


def some_rule(rng, distance):
    """A rule with this distance, mostly."""
    distance = distance if rng.random() < 0.9 else rng.choice([0, 1, distance + 1, FAR - 1])
    way = rng.randrange(6)
    if way < 3:
        return f"at:{distance}"
    if way == 3:
        return rng.choice([f"either:{distance}:{rng.choice([0, FAR - 1])}", f"either:{rng.choice([0, 7])}:{distance}"])
    step = rng.choice([1, 2, 3, distance or 1])
    return rng.choice([f"every:{step}:{distance // step + rng.choice([0, 1, 2])}:{distance % step}", f"every:0:{rng.choice([0, 1])}:{distance}"])


def some_offsets(rng, found, each):
    """Offsets with those of the set in them, mostly."""
    known, others = set(found.bases or [found.offset]), [0, 1, 2, 3, 5, 8, 9, MOVED - 1 if each else FAR - 1]
    if rng.random() < 0.04:
        known.remove(rng.choice(sorted(known)))
    if each and rng.random() < 0.01:
        return [0, MOVED]
    return sorted(known | set(rng.sample(others, rng.choice([0, 0, 1] if known else [1]))))


def some_delays(rng, found):
    """Delays with that of the set in them, mostly; where that is 1, mostly it alone."""
    if found.delay == 1 and rng.random() < 0.8:
        return [1]
    return some_list(rng, found.delay, [1, 2, 3, 4, 5, 16, LONGEST_DELAY], rng.choice([2, 3]))


def some_plan(rng, found, images, size, most=1500):
    """A plan that has the set, mostly, and no more than so many sets."""
    each = rng.random() < (0.9 if found.bases else 0.04)
    lengths = [len(image) // SECTOR for image in images]
    end = min(lengths) - rng.choice([0, 0, 0, 0, 1, 2])
    end = max(0, end)
    absent = len(images) - (found.members - found.lost)
    given = {
        "levels": some_list(rng, found.level, LEVELS),
        "members": some_list(rng, found.members, list(range(2, MOST + 1)), 2),
        "patterns": some_list(rng, found.pattern, PATTERNS),
        "delays": some_delays(rng, found),
        "syndromes": some_list(rng, found.syndrome, SYNDROMES),
        "chunks": some_list(rng, found.chunk, [2 ** power for power in range(rng.choice([4, 4, 16]))], 2),
        "offsets": some_offsets(rng, found, each),
        "origins": sorted(set(rng.sample([0, 1, 2, 3, 2048, FAR - 1], rng.choice([1, 2, 3, 6])))),
        "missing": max(0, found.lost + rng.choice([0, 0, 0, 0, 1, -1])) if rng.random() < 0.9 else rng.randint(0, 2),
        "foreign": max(0, absent + rng.choice([0, 0, 0, 0, 1, -1])) if not each or rng.random() < 0.01 else 0,
        "badrows": rng.choice([0, 0, 0, 1, 2, FAR - 1]),
        "window": rng.choice([1, 2, max(1, end), FAR - 1, FAR - 1]),
        "misfits": rng.choice([0, 0, 0, 1, 2, FAR - 1]),
        "least": rng.choice([0, 1, 1, 2, 3, FAR - 1]),
    }
    given["missing"] = min(2, given["missing"])
    if each and rng.random() < 0.02:
        lengths[rng.randrange(len(lengths))] = MOVED - rng.choice([0, 1])
    plan = Plan(lengths, end, given, some_marks(rng, found, images, size, end), each)
    if rng.random() < 0.4:
        plan.groups = [group._replace(bounds=some_bounds(rng, plan, found, group)) for group in plan.groups]
    plan.third = rng.random() < 0.03
    known = {"levels": [found.level], "members": [found.members], "patterns": [found.pattern], "delays": [found.delay], "syndromes": [found.syndrome],
             "chunks": [found.chunk], "offsets": sorted(set(found.bases or [found.offset]))}
    while Product(plan).total > most:
        longer = [name for name in known if len(getattr(plan, name)) > len(known[name])]
        if not longer:
            break
        name = rng.choice(longer)
        setattr(plan, name, known[name])
    return plan


def torn(rng, text):
    """A text that is no plan any more, or one of no more sets than can be gone through."""
    for _ in range(20):
        other = torn_once(rng, text)
        try:
            if Product(read_plan(other)).total <= 1500:
                return other
        except Stop:
            return other
    return text


def torn_bounds(rng, lines):
    """The text of these lines with bounds at a limit, twice, elsewhere or misspelled, or as a plan of another version."""
    if rng.random() < 0.25:
        return b"\n".join(rng.choice([[b"reraid-plan 1"], [b"reraid-plan 2"], [b"reraid-plan 4", *lines[1:2]]]) + lines[2:])
    place = rng.choice([place for place, line in enumerate(lines) if line.startswith(b"bounds")])
    values = [(0, 1), (FAR, 0), (0, FAR), (FAR - 1, FAR - 1)]
    others = [b"bounds %d %d" % pair for pair in values] + [b"bounds 1", b"bounds 0 1 1", b"bounds 00 1"]
    lines[place:place + 1] = rng.choice([[lines[place]] * 2, [lines[place + 1], lines[place]], [rng.choice(others)], [rng.choice(others)]])
    return b"\n".join(lines)


def torn_delays(rng, lines):
    """The text of these lines with delays that no plan has, twice, elsewhere or none, or as a plan of another version."""
    place = next(place for place, line in enumerate(lines) if line.startswith(b"delays"))
    way = rng.randrange(6)
    if way == 0:
        return b"\n".join(rng.choice([[b"reraid-plan 1"], [b"reraid-plan 2"]]) + lines[2:])
    others = [b"1", b"0,2", b"2,2", b"3,2", b"1025", b"1,1024", b"2,1025", b"01,2", b"", b"1,", b"2 ", b",".join(b"%d" % n for n in range(2, 19)),
              b",".join(b"%d" % n for n in range(1, 17))]
    if way < 4:
        lines[place] = b"delays " + rng.choice(others)
    elif way == 4:
        lines.insert(place + rng.choice([-1, 0, 1, 2]), lines[place])
    else:
        line = lines.pop(place)
        lines[place:place] = rng.choice([[], [lines.pop(place), line]])
    return b"\n".join(lines)


def torn_once(rng, text):
    lines = text.split(b"\n")
    place = rng.randrange(len(lines))
    way = rng.randrange(10)
    if b"\nbounds" in text and rng.random() < 0.3:
        return torn_bounds(rng, lines)
    if b"\ndelays" in text and rng.random() < 0.3:
        return torn_delays(rng, lines)
    if way == 0:
        return text[:rng.randrange(len(text) + 1)]
    if way == 1:
        del lines[place]
    elif way == 2:
        lines.insert(place, rng.choice([lines[rng.randrange(len(lines))]] * 5 + [b"bounds 0 1", b"delays 2", b"delays 1"]))
    elif way == 3:
        other = rng.randrange(len(lines))
        lines[place], lines[other] = lines[other], lines[place]
    elif way == 4:
        return text + rng.choice([b"\n", b"done\n", b"x", b" ", b"\0", text])
    elif way == 5:
        at = rng.randrange(len(text))
        return text[:at] + rng.choice([b"\r", b" ", b"0", b"+", b"-", b"\0", b"\xff", b",", b":", b"\n"]) + text[at:]
    elif way == 6:
        at = rng.randrange(len(text))
        return text[:at] + bytes([rng.randrange(256)]) + text[at + 1:]
    elif way == 7 and rng.random() < 0.3:
        lines[:1] = rng.choice([[b"reraid-plan 3"], [b"reraid-plan 3", b"mode each"], [b"reraid-plan 3", b"mode common"], [b"reraid-plan 4"]])
    else:
        lines[place] = with_edge(rng, lines[place].decode("latin-1")).encode("latin-1")
    return b"\n".join(lines)


def with_edge(rng, text):
    """The text with one of its numbers at some limit, or with some more numbers."""
    spots, at = [], 0
    while at < len(text):
        size = 0
        while at + size < len(text) and text[at + size].isdigit():
            size += 1
        if size:
            spots.append((at, at + size))
        at += max(1, size)
    if not spots:
        return text
    start, stop = rng.choice(spots)
    if rng.random() < 0.15:
        return text[:start] + ",".join(str(n) for n in range(rng.choice([16, 17, MOST, MOST + 1, 64, 65]))) + text[stop:]
    return text[:start] + str(rng.choice(EDGES)) + text[stop:]


def long_plan(rng, plan):
    """A text with as many groups or marks as a plan may have, or one more; or as long as a source may be, or one byte more."""
    way = rng.randrange(3)
    if way == 0:
        text = plan.text().encode()
        return text + b"x" * (4194304 + rng.choice([0, 1]) - len(text))
    if way == 1:
        kind, plan.third = rng.choice([KINDS[-1], *KINDS[1:]]), rng.random() < 0.5
        plan.groups = [Group(kind, [], rng.choice([None, None, (0, 1)]))] * (31 + rng.choice([0, 1, 1, 2]))
        if plan.third and plan.lengths[0]:
            # where no group has bounds, the last line at which one may get them
            plan.groups[-1] = plan.groups[-1]._replace(marks=[Mark(MARKS_OF[kind][0], 0, 0, "at:0")])
        return plan.text().encode()
    group, kind = rng.choice([(group, kind) for group in KINDS for kind in MARKS_OF[group]])
    plan.lengths, plan.end, count = [200] * len(plan.lengths), min(plan.end, 200), 4096 + rng.choice([0, 1])
    marks = [Mark(kind, 0, sector % 200, "at:1") for sector in range(count)]
    groups = [Group(group, marks[first:first + 200]) for first in range(0, count, 200)]
    plan.groups = groups
    return plan.text().encode()


# Words

def shuffled(rng, operands):
    rng.shuffle(operands)
    return operands


def torn_words(rng, words):
    """Words that are no command line any more, mostly."""
    words = list(words)
    place = rng.randrange(len(words))
    way = rng.randrange(8)
    if way == 0:
        del words[place]
    elif way == 1:
        words.insert(place, rng.choice(words))
    elif way == 2:
        words.insert(place, rng.choice(["--", "", "size=1", "form=json", "end=0", "set=0:plain:none:1:0:0,1", "x", "list", "pages=2",
                                        "pages=40001", "size=1000000", "=", "from=", "kinds=gpt", "kinds=gpt,lvm,ext", "mode=each",
                                        "mode=common", "logical=4096", "foreign=0", "foreign=1", "offsets=1,18014398509481984", "missing=1",
                                        "form=lost", "set=near2:1:0:0,1", "set=5:ls:none:1:0+0+1:0,1,2", "delays=1", "delays=2,16", "delays=16,2",
                                        "delays=1,1025", "delays=0", "set=5:la*2:none:1:0:0,1,2", "set=5:la*1:none:1:0:0,1,2",
                                        "set=5:la*02:none:1:0:0,1,2", "set=5:la*:none:1:0:0,1,2", "set=5:la*4294967296:none:1:0:0,1,2"]))
    elif way == 3:
        other = rng.randrange(len(words))
        words[place], words[other] = words[other], words[place]
    elif way == 4 and words[place]:
        at = rng.randrange(len(words[place]))
        words[place] = words[place][:at] + rng.choice("0-,:=+ xA\u00e9") + words[place][at + 1:]
    else:
        place = rng.choice([place for place, word in enumerate(words) if any(letter.isdigit() for letter in word)] or [place])
        words[place] = with_edge(rng, words[place])
    return words


def finished(rng, case):
    """The case, sometimes with something wrong in it."""
    way = rng.random()
    if way < 0.06 and not case.large:
        case.words = torn_words(rng, case.words)
    elif way < 0.09 and case.text:
        case.text = torn(rng, case.text)
    elif way < 0.10 and "--" in case.words:
        case.words.append(rng.choice(list(case.files) + ["absent", "folder", ""]))
    elif way < 0.11 and case.files:
        name = rng.choice(list(case.files))
        case.files[name] += bytes(rng.choice([1, SECTOR]))
    elif way < 0.12 and case.files:
        name = rng.choice(list(case.files))
        case.files[name] = case.files[name][:rng.choice([0, 1, 511, 512, 1000])]
    elif way < 0.125:
        case.words = [word for word in case.words if word not in case.files]
    elif way < 0.13 and "--" in case.words:
        case.words += ["a"] * rng.choice([1, 14, MOST - 2, MOST + 1])
    return case


def other_bases(rng, found, images):
    """The offsets of a set's images changed, or as many as there may be, or none, or one for each image where there was none."""
    bases = list(found.bases) or [rng.choice([0, 1, found.offset]) for _ in images]
    place, way = rng.randrange(len(bases)), rng.randrange(8)
    if way == 0:
        rng.shuffle(bases)
    elif way == 1:
        bases[place] = rng.choice([0, 1, 2, MOVED - 1, MOVED, FAR - 1, min(len(image) for image in images) // SECTOR])
    elif way == 2:
        bases.append(rng.choice([0, bases[place]]))
    elif way == 3 and len(bases) > 2:
        bases.pop()
    elif way == 4:
        bases = [bases[place]] * rng.choice([2, 2, len(bases), MOST, MOST + 1])
    elif way == 5:
        bases = []
    return bases


def changed_set(rng, found, images):
    """The set, or one like it."""
    way, slots, chunk, offset = rng.random(), list(found.slots), found.chunk, found.offset
    level, pattern, syndrome, bases, delay = found.level, found.pattern, found.syndrome, found.bases, found.delay
    if way < 0.33:
        return found
    if way < 0.35:
        return found.like(delay=rng.choice([1, 2, 2, 3, 16, LONGEST_DELAY, LONGEST_DELAY + 1, 2 ** 32 - 1]))
    if way < 0.5:
        rng.shuffle(slots)
    elif way < 0.56:
        chunk = rng.choice([0, 1, 2, 3, 4, 8, 32768, 65536, 2 ** 32 - 1])
    elif way < 0.62:
        offset, bases = rng.choice([0, 1, 2, 3, FAR - 1, min(len(image) for image in images) // SECTOR]), ()
    elif way < 0.68:
        pattern = rng.choice(PATTERNS)
    elif way < 0.74:
        syndrome = rng.choice(SYNDROMES)
    elif way < 0.78:
        level = rng.choice(LEVELS)
    elif way < 0.83:
        slots[rng.randrange(len(slots))] = None
    elif way < 0.88:
        slots[rng.randrange(len(slots))] = rng.choice([0, 1, len(images) - 1, len(images), MOST - 1])
    elif way < (0.95 if bases else 0.9):
        bases = other_bases(rng, found, images)
    elif way < 0.98 and len(slots) > 1:
        slots.pop()
    elif len(slots) < MOST:
        slots.append(rng.choice([None, 0, len(images)]))
    return Set(level, pattern, syndrome, chunk, offset, slots, bases, delay)


def an_end(rng, images):
    """The operand `end`, or none."""
    shortest = min(len(image) // SECTOR for image in images)
    return [f"end={max(0, shortest + rng.choice([-2, -1, -1, 0, 0, 1]))}"] if rng.random() < 0.4 else []
