"""Cases of `sample`: generated arrays."""

from making import Case, changed_set, shuffled, some_set
from product import Product
from texts import FIVE, MOST, PATTERNS, RANKS, SECTOR, SIX, SYNDROMES, Plan, Set

MOST_SECTORS = 2097152


def all_pass(found):
    """Whether all sets of an array's plan that have a whole row pass, so that the page is full after some thousand, however many there
    are."""
    return found.level < 6 or found.lost == 2


def sample_set(rng, most, chunks, offsets):
    """A set of no more than so many members, of one of these chunks and offsets."""
    found = some_set(rng, most)
    while found.members > most:
        found = some_set(rng, most)
    found.chunk, found.offset = rng.choice(chunks), rng.choice(offsets)
    return found


def small_sample(rng):
    """Few rows of small chunks."""
    found = sample_set(rng, rng.choice([4] * 60 + [5]), [1, 2, 4, 8, 8, 8, 8, 16, 16], [0] * 20 + [1] * 4 + [7] * 4 + [2048] * 2)
    return found, rng.choice([1, 1, 2, 3, 5]), rng.choice([["marks=none"], [], []])


def marked_sample(rng):
    """Somewhat more sectors than a file system takes, or fewer, or such that its groups become larger."""
    if rng.random() < 0.03:
        # 511 sectors, which fewer members do not have
        return Set(0, "plain", "none", 1, rng.choice([0, 1]), rng.sample(range(7), 7)), 73, ["marks=xfs"]
    found = sample_set(rng, rng.choice([4] * 30 + [5]), [1, 2, 4, 8, 8, 16, 32], [0, 0, 0, 1, 2048])
    row = found.chunk * found.data
    edge = 512 * rng.choice([1, 1, 1, 1, 2, 3, 4, 7, 40])
    return found, max(1, edge // row + rng.choice([-1, 0, 0, 0, 1, 2, 5])), ["marks=xfs"]


def wide_sample(rng):
    """Up to as many members as there may be; the set may be at the end of the page of all that pass."""
    level, members = rng.choice([0, 5, 5, 6, 6]), rng.choice([5, 6, 7, 8, 11, 14, 16, 17, 18, 18, 19, 20, MOST])
    lost = rng.choice({0: [0], 5: [0, 0, 1], 6: [2]}[level])
    slots = list(range(members - lost)) + [None] * lost
    rng.shuffle(slots)
    pattern = "plain" if level == 0 else rng.choice(FIVE if level == 5 else SIX)
    syndrome = rng.choice(SYNDROMES[1:]) if level == 6 else "none"
    found = Set(level, pattern, syndrome, rng.choice([1, 4, 8, 8, 16]), rng.choice([0, 0, 0, 1, 2]), slots)
    rows = rng.choice([1, 1, 2, 3, 17])
    if members > 6 and rng.random() < 0.6:
        given = {"levels": [level], "members": [members], "patterns": PATTERNS, "syndromes": SYNDROMES, "chunks": [8], "offsets": [0],
                 "origins": [0], "missing": lost, "foreign": 0, "badrows": 0, "window": 1, "misfits": 0, "least": 1}
        plan = Plan([8] * (members - lost), 8, given, [])
        found = Product(plan).set_at(rng.choice([0, 1, 998, 999, 999, 1000, 1000, 1001]))
    return found, rows, rng.choice([["marks=none"], [], []])


def long_sample(rng):
    """Chunks of up to a MiB."""
    found = sample_set(rng, 4, [32, 64, 128, 256, 512, 1024, 2048], [0, 0, 0, 1, 2048] if rng.random() < 0.2 else [0, 0, 0, 1])
    return found, rng.choice([1, 1, 2, 3]), rng.choice([["marks=none"], [], ["marks=xfs"]])


def limit_sample(rng):
    """About the most rows, the largest chunk, the largest of the usual offsets, or the most sectors of all members together. What keeps to
    the last has a GiB, so nearly all go past it by a sector of each."""
    found, way = sample_set(rng, rng.choice([4, 4, 4, 16, MOST]), [1], [0, 0, 1]), rng.random()
    while found.members > 4 and not all_pass(found):
        found = sample_set(rng, MOST, [1], [0, 0, 1])
    marks = [] if found.members > 4 else rng.choice([[], [], ["marks=xfs"]])
    if way < 0.2:
        return found, rng.choice([0, 65535, 65536, 65537, 65537]), marks
    if way < 0.3:
        found.chunk = rng.choice([16384, 32768, 32768, 65536])
        return found, rng.choice([1, 1, 2]), marks
    if way < 0.34 and found.members <= 4:
        found.chunk, found.offset = 8, rng.choice([262144, 264192])
        return found, rng.choice([1, 2, 3]), []
    found.chunk = rng.choice([2 ** power for power in range(4, 16)])
    rows, found.offset = divmod(MOST_SECTORS // found.members + (rng.random() > 0.03), found.chunk)
    return found, rows, marks


def changed_sample(rng, found, rows):
    """The set changed somewhat, where its listing still does not go through too many sets, and rows of it."""
    made = changed_set(rng, found, [bytes(SECTOR)] * (found.members - found.lost))
    if rng.random() < 0.1:
        made = found.like(bases=[found.offset] * rng.choice([2, found.members, max(2, found.members - found.lost)]))
    elif rng.random() < 0.15:
        choices = rng.choice([range(found.members), range(found.members + 2), [None, *range(found.members)]])
        made = made.like(slots=[rng.choice(choices) for _ in found.slots])
    if made.members > 4 and not all_pass(made):
        return found, rows
    return made, rows if made.chunk <= found.chunk else 1


def sample_case(rng):
    """Mostly arrays of some dozen sectors; the larger they are, the fewer."""
    way = rng.random()
    found, rows, marks = (limit_sample if way < 0.015 else wide_sample if way < 0.07 else long_sample if way < 0.11 else
                          marked_sample if way < 0.19 else small_sample)(rng)
    if rng.random() < 0.15:
        found, rows = changed_sample(rng, found, rows)
        if found.bases and rng.random() < 0.3:
            # two rules are broken
            rows, marks = 1, ["marks=xfs"]
    number = rng.choice([0, 1, 7, RANKS - 1, rng.randrange(RANKS)])
    return Case(["sample", *shuffled(rng, [f"number={number}", f"set={found.word()}", f"rows={rows}", *marks]), "--"])
