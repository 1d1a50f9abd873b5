"""Layouts, the equations of rows, and landmarks in sets, as docs/FORMATS.md and docs/LAYOUTS.md have them."""

import functools

from texts import REDUNDANCY, SECTOR, STAYING


# Layouts, as docs/LAYOUTS.md draws them

def turns(pattern, members):
    """After how many turns a layout repeats."""
    if pattern in STAYING:
        return 1
    return members - 1 if pattern.endswith("-6") else members


def row_cells(found, row):
    """What stands in each slot of a row of a set: "P", "Q" or the number of an item."""
    return cells(found.level, found.pattern, found.members, found.turn(row))


def cells(level, pattern, members, row):
    """The same where parity moves in each row, mostly."""
    return turned_cells(level, pattern, members, row % turns(pattern, members))


@functools.lru_cache(None)
def turned_cells(level, pattern, members, row):
    """What stands in each slot of one of the rows until the layout repeats."""
    if level == 0:
        return tuple(range(members))
    if level == 6 and pattern.endswith("-6"):
        return cells(5, pattern[:-2], members - 1, row) + ("Q",)
    if pattern == "n-restart":
        return cells(6, "la", members, row + 1)
    last = members - (1 if level == 5 else 2)
    left, right = members - 1 - row % members, row % members
    p = {"la": left, "ra": right, "ls": left, "rs": right, "n-continue": left, "parity-first": 0, "parity-last": last}[pattern]
    made = [None] * members
    made[p] = "P"
    after = p
    if level == 6:
        q = (p - 1) % members if pattern == "n-continue" else (p + 1) % members
        made[q] = "Q"
        after = p if pattern == "n-continue" else q
    round_slots = [(after + 1 + step) % members for step in range(members)]
    order = round_slots if pattern in ("ls", "rs", "n-continue") else range(members)
    free = [slot for slot in order if made[slot] is None]
    for item, slot in enumerate(free):
        made[slot] = item
    return tuple(made)


def row_exponents(found, row):
    """The exponent of each slot of a row of a set that holds data, and None for the others, at level 6."""
    return exponents(found.pattern, found.syndrome, found.members, found.turn(row))


def exponents(pattern, syndrome, members, row):
    """The same where parity moves in each row, mostly."""
    return turned_exponents(pattern, syndrome, members, row % turns(pattern, members))


@functools.lru_cache(None)
def turned_exponents(pattern, syndrome, members, row):
    """The exponents of one of the rows until the layout repeats."""
    made = cells(6, pattern, members, row)
    q = made.index("Q")
    walk = [slot for slot in ((q + 1 + step) % members for step in range(members)) if isinstance(made[slot], int)]
    by = {"after-q": walk.index, "by-data": lambda slot: made[slot], "by-slot": lambda slot: slot}[syndrome]
    return tuple(by(slot) if isinstance(made[slot], int) else None for slot in range(members))


def layout_name(found):
    if found.delay != 1:
        return None
    plain = {"la": "left-asymmetric", "ra": "right-asymmetric", "ls": "left-symmetric", "rs": "right-symmetric",
             "parity-first": "parity-first", "parity-last": "parity-last"}
    if found.level == 0:
        return "raid0"
    if found.level == 5:
        return plain[found.pattern]
    if found.syndrome == "by-slot":
        return {"ra": "ddf-zero-restart", "n-restart": "ddf-N-restart", "n-continue": "ddf-N-continue"}.get(found.pattern)
    if found.syndrome == "after-q":
        if found.pattern.endswith("-6"):
            return plain[found.pattern[:-2]] + "-6"
        return plain.get(found.pattern)
    return None


# The field of bytes, and the equations of a row

POWERS = [1]
while len(POWERS) < 255:
    POWERS.append(POWERS[-1] * 2 ^ (0x11D if POWERS[-1] > 127 else 0))
LOGS = {power: log for log, power in enumerate(POWERS)}


@functools.lru_cache(None)
def scaled(log):
    """The table of products of each byte with 2 to that power."""
    return bytes(POWERS[(LOGS[byte] + log) % 255] if byte else 0 for byte in range(256))


def times(block, log):
    return block.translate(scaled(log % 255)) if log % 255 else block


def product(a, b):
    return POWERS[(LOGS[a] + LOGS[b]) % 255] if a and b else 0


def added(blocks):
    """The sum of blocks of one size."""
    total = 0
    for block in blocks:
        total ^= int.from_bytes(block, "little")
    return total.to_bytes(len(blocks[0]), "little")


NOTHING = bytes(SECTOR)


class Row:
    """One sector row of a set: its cells, exponents, and the blocks that are there. Of an image that is there a sector may be lost."""

    def __init__(self, found, images, sector, lost=lambda image, sector: False):
        row = sector // found.chunk
        self.found = found
        self.cells = row_cells(found, row)
        self.logs = row_exponents(found, row) if found.level == 6 else [None] * found.members
        self.blocks = [None] * found.members
        for slot, image in enumerate(found.slots):
            if image is not None and not lost(image, found.base(image) + sector):
                start = (found.base(image) + sector) * SECTOR
                self.blocks[slot] = images[image][start:start + SECTOR]
        self.lost = [slot for slot in range(found.members) if self.blocks[slot] is None]

    def sums(self):
        """What is left of P's equation and of Q's, with zeros for what is lost."""
        there = [slot for slot in range(self.found.members) if self.blocks[slot] is not None]
        p = added([self.blocks[slot] for slot in there if self.cells[slot] != "Q"])
        if self.found.level != 6:
            return p, NOTHING
        weighed = [times(self.blocks[slot], self.logs[slot]) for slot in there if isinstance(self.cells[slot], int)]
        return p, added(weighed + [self.blocks[slot] for slot in there if self.cells[slot] == "Q"])

    def whole(self):
        """The blocks with the lost ones found."""
        blocks = list(self.blocks)
        p, q = self.sums()
        data = [slot for slot in self.lost if isinstance(self.cells[slot], int)]
        kinds = [self.cells[slot] for slot in self.lost]
        if len(data) == 2:
            # x + y = p and 2^a x + 2^b y = q, so (2^a + 2^b) x = q + 2^b p
            a, b = self.logs[data[0]], self.logs[data[1]]
            x = times(added([q, times(p, b)]), -LOGS[POWERS[a % 255] ^ POWERS[b % 255]])
            blocks[data[0]], blocks[data[1]] = x, added([x, p])
        elif len(data) == 1 and "P" not in kinds:
            blocks[data[0]] = p
        elif len(data) == 1:
            blocks[data[0]] = times(q, -self.logs[data[0]])
        items = [slot for slot in range(self.found.members) if isinstance(self.cells[slot], int)]
        for slot in self.lost:
            if self.cells[slot] == "P":
                blocks[slot] = added([blocks[item] for item in items])
            if self.cells[slot] == "Q":
                blocks[slot] = added([times(blocks[item], self.logs[item]) for item in items])
        return blocks


@functools.lru_cache(None)
def slot_equations(level, pattern, syndrome, members, row, lost):
    """The equations that tell of a row, where no slot is lost, or one at level 6: of each the factor of the byte in each slot. The row is
    sound where all add up to zero. A byte that is lost can be any: with p and q as its factors in P's equation and in Q's, it goes out of
    q times P's and p times Q's together, and this is all that is left."""
    made = cells(level, pattern, members, row)
    p = [int(cell != "Q") for cell in made]
    if level == 5:
        return (tuple(p),)
    logs = exponents(pattern, syndrome, members, row)
    q = [int(cell == "Q") if log is None else POWERS[log % 255] for cell, log in zip(made, logs)]
    if not lost:
        return tuple(p), tuple(q)
    return (tuple(product(q[lost[0]], a) ^ product(p[lost[0]], b) for a, b in zip(p, q)),)


@functools.lru_cache(65536)
def image_equation(factors, slots):
    """An equation over slots as one over the images in them: the factor of each that has one, the first of which is 1."""
    terms = sorted((image, factor) for image, factor in zip(slots, factors) if image is not None and factor)
    first = LOGS[terms[0][1]]
    return tuple((image, POWERS[(LOGS[factor] - first) % 255]) for image, factor in terms)


def equations(found, row):
    """The equations over images that tell of a row of a set."""
    turn = found.turn(row) % turns(found.pattern, found.members)
    lost = (found.slots.index(None),) if found.lost else ()
    return [image_equation(factors, found.slots)
            for factors in slot_equations(found.level, found.pattern, found.syndrome, found.members, turn, lost)]


class Sums:
    """What the bytes of images add up to by equations. Many sets ask the same of the same sectors, which are added up once."""

    def __init__(self, images):
        self.images, self.known, self.later = images, {}, {}
        # so many sectors of zeros has each image at its start: they add up to zero by all equations
        self.zeros = min((len(image) - len(image.lstrip(b"\0"))) // SECTOR for image in images)

    def after(self, bases):
        """The sums of the images without what stands before their bases."""
        if bases not in self.later:
            if len(self.later) == 64:
                self.later.clear()
            self.later[bases] = Sums([image[base * SECTOR:] for image, base in zip(self.images, bases)])
        return self.later[bases]

    def first_unsound(self, equation, start, stop):
        """The first sector of the images from this one on where the sum is not zero, or the stop."""
        seen, ended = self.known.get((equation, start), (start, False))
        if seen < stop and not ended:
            seen, ended = self.looked(equation, seen, stop)
            self.known[equation, start] = seen, ended
        return min(seen, stop)

    def looked(self, equation, seen, stop):
        """How far the sums are zero, and whether they are not from there on."""
        size = 1
        while seen < stop:
            size, last = min(2 * size, 1024), min(seen + size, stop)
            total = 0
            for image, factor in equation:
                total ^= int.from_bytes(times(self.images[image][seen * SECTOR:last * SECTOR], LOGS[factor]), "little")
            if total:
                return seen + ((total & -total).bit_length() - 1) // (8 * SECTOR), True
            seen = last
        return seen, False


def unsound_rows(found, sums, tested, most=None):
    """How many of the first rows are unsound, or one more than `most` once there are so many."""
    if found.lost >= REDUNDANCY[found.level]:
        return 0
    begin = found.offset
    if found.bases:
        # cut so, the images have one common offset
        sums, begin = sums.after(found.bases), 0
    alike = found.level == 5 or turns(found.pattern, found.members) == 1
    wide, count = tested if alike else found.chunk * found.delay, 0
    for first in range(max(0, sums.zeros - begin) // wide * wide, tested, wide):
        at, end, told = begin + first, begin + min(first + wide, tested), equations(found, first // found.chunk)
        while at < end:
            bad = end
            for equation in told:
                bad = sums.first_unsound(equation, at, bad)
            if bad == end:
                break
            at, count = bad + 1, count + 1
            if most is not None and count > most:
                return count
    return count


# Landmarks

@functools.lru_cache(65536)
def rule_parts(rule):
    name, *rest = rule.split(":")
    return name, [int(part) for part in rest]


def fits(rule, distance):
    name, values = rule_parts(rule)
    if distance < 0:
        return False
    if name in ("at", "either"):
        return distance in values
    step, count, plus = values
    if step == 0:
        return count > 0 and distance == plus
    return distance >= plus and (distance - plus) % step == 0 and (distance - plus) // step < count


def volume_sector(found, slot, sector, end):
    """The volume sector that a slot holds at a member sector, if it is one of data."""
    if not 0 <= sector < found.area(end):
        return None
    row = sector // found.chunk
    item = row_cells(found, row)[slot]
    return (row * found.data + item) * found.chunk + sector % found.chunk if isinstance(item, int) else None


def held(plan, found, group):
    """The first origin at which a group holds, with its fits and misfits, or None."""
    most, least = group.bounds or (plan.misfits, plan.least)
    origins = [0] if group.kind == "gpt" else plan.origins
    fit, misfit = [0] * len(origins), [0] * len(origins)
    for _, image, sector, rule in group.marks:
        if image in found.slots:
            place = volume_sector(found, found.slots.index(image), sector - found.base(image), plan.end)
            if place is not None:
                for which, origin in enumerate(origins):
                    good = fits(rule, place - origin)
                    fit[which] += good
                    misfit[which] += not good
                if min(misfit) > most:
                    return None
    for which, origin in enumerate(origins):
        if misfit[which] <= most and fit[which] >= min(least, len(group.marks)):
            return origin, fit[which], misfit[which]
    return None
