"""Cases of `classes`: lists of sets."""

from arrays import cells
from making import EDGES, Case, shuffled, some_set, with_edge
from texts import FIVE, LONGEST_DELAY, RANKS, REDUNDANCY, SIX, STAYING, SYNDROMES, Set


def twin(rng, found, images):
    """A set that may give the same volume: another order of Q, pattern, delay or order of the same images, or one lost image more or less."""
    way, slots = rng.randrange(7), list(found.slots)
    made = found.like()
    if way == 0 and found.level == 6:
        made.syndrome = rng.choice(SYNDROMES[1:])
    elif way == 1 and found.level:
        made.pattern = rng.choice(FIVE if found.level == 5 else SIX)
        made.delay = 1 if made.pattern in STAYING else found.delay
    elif way == 2:
        step = rng.randrange(found.members)
        made.slots = tuple(slots[step:] + slots[:step])
    elif way == 3:
        one, other = rng.sample(range(found.members), 2)
        slots[one], slots[other] = slots[other], slots[one]
        made.slots = tuple(slots)
    elif way == 6 and found.pattern not in STAYING:
        made.delay = rng.choice([1, 2, 3, 4, 6, 16, LONGEST_DELAY])
    elif way == 4 and found.level and found.lost < REDUNDANCY[found.level]:
        slots[rng.choice([slot for slot in range(found.members) if slots[slot] is not None])] = None
        made.slots = tuple(slots)
    else:
        spare = [image for image in range(images) if image not in slots]
        empty = [slot for slot in range(found.members) if slots[slot] is None]
        if spare and empty:
            slots[empty[0]] = spare[0]
            made.slots = tuple(slots)
    made.lost = made.slots.count(None)
    return made


def lower_twin(found, rng):
    """The volume of a level with parity, as a set of level 0 or 5 whose parity stands apart, where there is one."""
    made = cells(found.level, found.pattern, found.members, 0)
    if found.level == 0 or None in found.slots or not found.pattern.startswith("parity-"):
        return None
    order = [made.index(item) for item in range(found.data)]
    if found.level == 6 and rng.random() < 0.5 and found.data >= 2:
        return Set(5, rng.choice(["parity-first", "parity-last"]), "none", found.chunk, found.offset,
                   [found.slots[slot] for slot in (order + [made.index("P")])])
    return Set(0, "plain", "none", found.chunk, found.offset, [found.slots[slot] for slot in order])


def classes_case(rng):
    """Lists of sets, many of which give the same volume, with lines of where pages went on; some torn, or at the limit."""
    way = rng.random()
    if way < 0.004:
        word = "0:plain:none:1:0:0,1"
        lines = [f"{rank} {word}" for rank in range(rng.choice([1023, 1024, 1025]))]
        return Case(["classes", "images=2", f"end={rng.choice([0, 1, 1, 1])}", "--"], "".join(line + "\n" for line in lines).encode())
    found = some_set(rng)
    images = max([slot for slot in found.slots if slot is not None], default=0) + rng.choice([1, 1, 2, 3])
    rows = rng.choice([1, 1, 2, 3, found.members, found.members + 1, found.members * (found.members - 1), 40, found.delay, found.delay + 1,
                       found.delay * found.members])
    end = min(found.offset + rows * found.chunk + rng.choice([0, 0, 0, 1]), 120)
    sets = [found]
    for _ in range(rng.choice([0, 1, 2, 3, 5, 8])):
        made = lower_twin(sets[0], rng) if rng.random() < 0.2 else None
        sets.append(made or twin(rng, rng.choice(sets), images))
    if rng.random() < 0.2:
        sets.append(some_set(rng, 4))
    if rng.random() < 0.5:
        rng.shuffle(sets)
    if rng.random() < 0.02:
        # sets whose images have offsets of their own are in no list
        sets.insert(rng.randint(0, len(sets)), found.like(bases=[found.offset] * images if images > 1 else [0, 0]))
    lines = [f"{rng.choice([place, rng.randrange(RANKS), 0])} {one.word()}" for place, one in enumerate(sets)]
    for _ in range(rng.choice([0, 1, 1, 2])):
        lines.insert(rng.randint(0, len(lines)), f"next {rng.choice([0, 7, RANKS - 1])} of {rng.choice([0, 7, RANKS - 1])}")
    text = "".join(line + "\n" for line in lines)
    if rng.random() < 0.15 and text:
        at = rng.randrange(len(text))
        text = rng.choice([text[:at] + text[at + 1:], text[:at] + rng.choice("0-,:1\n xA") + text[at + 1:], text[:-1], text[:at], text + "\n"])
    elif rng.random() < 0.05:
        text = with_edge(rng, text)
    data = text.encode()
    if way > 0.997:
        data += b"next 1 of 1\n" * ((4194304 - len(data)) // 12) + b"x" * rng.choice([0, 30])
    return Case(["classes", *shuffled(rng, [f"images={images if rng.random() < 0.95 else rng.choice([1, 2, 16, 17, 0])}",
                                            f"end={end if rng.random() < 0.95 else rng.choice(EDGES)}"]), "--"], data)
