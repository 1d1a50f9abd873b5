#!/usr/bin/env python3
"""Makes the disks of an array from the bytes of its volume, for trying reraid. Where nothing else is asked for, it is
left-symmetric, with Q in the order after Q, its data from sector 2048 on and noise before it, as md has them.

Usage: disks.py [pattern=NAME] [syndrome=NAME] [offsets=LIST] LEVEL CHUNK VOLUME DISK..
LEVEL is 0, 5 or 6, or for two to four copies of each chunk near2, far2 or offset2, and so on. CHUNK is in sectors of
512 bytes. The disks are written in the order of their slots; the volume is filled up with zeros to whole rows. NAME is
one that reraid has for a pattern or an order of Q, as la*16 where the parity stays for 16 rows before it moves on; LIST is
the sector at which the data begin, on all disks, or on each, with commas. Then all disks are as long as the one whose data
begin last, by noise after the data.
"""

import random
import re
import sys

SECTOR = 512
PARITY = {"0": 0, "5": 1, "6": 2}
PATTERNS = {"0": ["plain"], "5": ["ls", "la", "ra", "rs", "parity-first", "parity-last"]}
PATTERNS["6"] = PATTERNS["5"] + ["n-restart", "n-continue", "la-6", "ra-6", "ls-6", "rs-6", "parity-first-6"]
LONGEST_DELAY = 1024
ORDERS = ["after-q", "by-data", "by-slot"]
COPIES = [f"{kind}{count}" for kind in ("near", "far", "offset") for count in (2, 3, 4)]


def powers():
    """The powers of 2 in the field of bytes with polynomial 0x11D."""
    power = 1
    for _ in range(255):
        yield power
        power <<= 1
        if power > 255:
            power ^= 0x11D


POWERS = list(powers())
LOGARITHMS = {power: k for k, power in enumerate(POWERS)}


def weighed(block, k):
    """The block times 2 to the power k, byte by byte."""
    table = bytes(POWERS[(LOGARITHMS[byte] + k) % 255] if byte else 0 for byte in range(256))
    return block.translate(table)


def added(blocks):
    """The sum of the blocks in the field, which is XOR."""
    total = 0
    for block in blocks:
        total ^= int.from_bytes(block, "little")
    return total.to_bytes(len(blocks[0]), "little")


def parity_slots(pattern, row, members, parity):
    """The slots of P, and of Q where there are two, in a row."""
    if pattern.endswith("-6"):
        return parity_slots(pattern[:-2], row, members - 1, 1) + [members - 1]
    if pattern == "n-restart":
        return parity_slots("la", row + 1, members, parity)
    if pattern.startswith("parity-"):
        first = 0 if pattern == "parity-first" else members - parity
    elif pattern in ("ra", "rs"):
        first = row % members
    else:
        first = members - 1 - row % members
    if pattern == "n-continue":
        return [first, (first - 1) % members]
    return [(first + step) % members for step in range(parity)]


def item_slots(pattern, row, members, parity):
    """The slots of the data items of a row, in their order: from the slot after the parity on and round, or as the slots are."""
    if parity == 0:
        return range(members)
    taken, wide, first = parity_slots(pattern, row, members, parity), members - pattern.endswith("-6"), 0
    if pattern in ("ls", "rs"):
        first = taken[-1] + 1
    elif pattern in ("ls-6", "rs-6", "n-continue"):
        first = taken[0] + 1
    return [slot for slot in ((first + step) % wide for step in range(wide)) if slot not in taken]


def exponents(pattern, row, members, order):
    """To which power of 2 each data item of a row is weighed in Q, by its slot."""
    taken, items = parity_slots(pattern, row, members, 2), list(item_slots(pattern, row, members, 2))
    walk = [slot for slot in ((taken[1] + 1 + step) % members for step in range(members)) if slot in items]
    by = {"after-q": walk.index, "by-data": items.index, "by-slot": int}[order]
    return {slot: by(slot) for slot in items}


def delayed(pattern):
    """The name of a pattern, and for how many rows its parity stays before it moves on; no name where that makes no sense."""
    name, mark, rows = pattern.partition("*")
    if mark and (name.startswith(("plain", "parity-")) or not re.fullmatch("[1-9][0-9]*", rows) or not 2 <= int(rows) <= LONGEST_DELAY):
        return "", 1
    return name, int(rows or 1)


def row_of(items, row, members, pattern, order):
    """The blocks of a row by their slots. With one slot more than items there is P, with two P and Q."""
    parity = members - len(items)
    pattern, delay = delayed(pattern)
    row //= delay
    taken, data = parity_slots(pattern, row, members, parity), dict(zip(item_slots(pattern, row, members, parity), items))
    blocks = dict(data)
    if parity:
        blocks[taken[0]] = added(items)
    if parity == 2:
        by = exponents(pattern, row, members, order)
        blocks[taken[1]] = added([weighed(block, by[slot]) for slot, block in data.items()])
    return [blocks[slot] for slot in range(members)]


def striped(data, size, members, parity, pattern, order):
    """What each disk holds of the volume, chunk by chunk."""
    count = members - parity
    rows = -(-len(data) // (size * count))
    data = data.ljust(rows * size * count, b"\0")
    disks = [bytearray() for _ in range(members)]
    for row in range(rows):
        start = row * count * size
        items = [data[start + i * size : start + (i + 1) * size] for i in range(count)]
        for disk, block in zip(disks, row_of(items, row, members, pattern, order)):
            disk += block
    return disks


def copies(layout, chunk, members, rows):
    """The disk and the row of each copy of a chunk: near copies follow one another over the rows; of others each is on the next disk, in a part of
    the rows of its own, or in the next row."""
    kind, count = layout[:-1], int(layout[-1])
    if kind == "near":
        return [(cell % members, cell // members) for cell in range(count * chunk, count * chunk + count)]
    row, first = divmod(chunk, members)
    return [((first + copy) % members, row + copy * (rows // count) if kind == "far" else count * row + copy) for copy in range(count)]


def mirrored(data, size, members, layout, noise):
    """What each disk holds of a volume of whose chunks there are several copies. Of near copies the last cells may hold nothing of it."""
    count = int(layout[-1])
    chunks = -(-len(data) // size)
    rows = -(-chunks * count // members) if layout.startswith("near") else -(-chunks // members) * count
    chunks = rows * members // count
    data = data.ljust(chunks * size, b"\0")
    cells = {place: chunk for chunk in range(chunks) for place in copies(layout, chunk, members, rows)}
    disks = [bytearray() for _ in range(members)]
    for row in range(rows):
        for slot, disk in enumerate(disks):
            chunk = cells.get((slot, row))
            disk += noise.randbytes(size) if chunk is None else data[chunk * size:chunk * size + size]
    return disks


def read_words(words):
    """What is asked for by name, and the words after it."""
    asked = {"pattern": None, "syndrome": "after-q", "offsets": "2048"}
    while words and "=" in words[0] and words[0].partition("=")[0] in asked:
        name, _, value = words[0].partition("=")
        asked[name], words = value, words[1:]
    return asked, words


def main():
    asked, words = read_words(sys.argv[1:])
    if len(words) < 5 or words[0] not in (*PARITY, *COPIES):
        sys.exit(__doc__)
    level, chunk, volume, *names = words
    patterns = PATTERNS.get(level, [None])
    pattern, offsets = asked["pattern"] or patterns[0], [int(sector) for sector in asked["offsets"].split(",")]
    known = pattern is None or delayed(pattern)[0] in patterns
    if not known or asked["syndrome"] not in ORDERS or len(offsets) not in (1, len(names)):
        sys.exit(__doc__)
    with open(volume, "rb") as file:
        data = file.read()
    noise, size = random.Random(0), int(chunk) * SECTOR
    before = [noise.randbytes(offset * SECTOR) for offset in offsets * (len(names) // len(offsets))]
    if level in COPIES:
        disks = mirrored(data, size, len(names), level, noise)
    else:
        disks = striped(data, size, len(names), PARITY[level], pattern, asked["syndrome"])
    for name, first, disk in zip(names, before, disks):
        with open(name, "wb") as file:
            file.write(first + disk + noise.randbytes(max(offsets) * SECTOR - len(first)))


if __name__ == "__main__":
    main()
