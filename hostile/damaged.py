#!/usr/bin/env python3
"""Compares `salvage` with a computation of its own, over arrays of six disks of which some have 1,000 bad sectors each, at random:
two of them at level 5, three at level 6, in each pattern and order of Q.

Usage: damaged.py [SEED [PATTERNS]], PATTERNS with commas, all if nothing is said
A bad sector of an image holds random bytes, so that it shows if it is read. In the map it is bad as a whole or in part, from any byte
on, in any status that is not good. What is lost and what the volume holds is computed from the images and the bad sectors alone, by
parity as disks.py makes it, and what is not lost is compared with the volume that the array was made of. Prints what it counted, line
by line; status 1 where the program says anything else.
"""

import os
import pathlib
import random
import subprocess
import sys
import tempfile

sys.path.insert(0, str(pathlib.Path(__file__).resolve().parent.parent / "bench/making"))
import disks  # noqa: E402

PROGRAM = pathlib.Path(__file__).resolve().parent.parent / "crates/reraid/out/reraid"
SECTOR = disks.SECTOR
MEMBERS, CHUNK, ROWS, OFFSET, BAD = 6, 64, 128, 96, 1000


def quotient(block, k):
    """The block divided by 2 to the power k."""
    return disks.weighed(block, -k % 255)


def over_sum(block, i, j):
    """The block divided by the sum of the powers i and j of 2, which differ."""
    return quotient(block, disks.LOGARITHMS[disks.POWERS[i] ^ disks.POWERS[j]])


def solved(cells, row, pattern, order, parity):
    """The data of a sector row by slot, where None is unknown: as it is, found by parity, or None where it is lost."""
    taken = disks.parity_slots(pattern, row, MEMBERS, parity)
    data = {slot: cells[slot] for slot in range(MEMBERS) if slot not in taken}
    asked = [slot for slot in data if data[slot] is None]
    if not asked or cells.count(None) > parity:
        return data
    known = [slot for slot in data if data[slot] is not None]
    by_p = cells[taken[0]] and disks.added([cells[taken[0]]] + [data[slot] for slot in known])
    if len(asked) == 1 and by_p:
        return data | {asked[0]: by_p}
    by = disks.exponents(pattern, row, MEMBERS, order)
    by_q = disks.added([cells[taken[1]]] + [disks.weighed(data[slot], by[slot]) for slot in known])
    if len(asked) == 1:
        return data | {asked[0]: quotient(by_q, by[asked[0]])}
    one, two = asked
    first = over_sum(disks.added([by_q, disks.weighed(by_p, by[two])]), by[one], by[two])
    return data | {one: first, two: disks.added([by_p, first])}


def volume_of(members, bad, pattern, order, parity):
    """The sectors of the volume, None where lost, of members with bad sectors, which are those after the offset."""
    sectors = []
    for row in range(ROWS):
        rows = []
        for at in range(row * CHUNK, (row + 1) * CHUNK):
            cells = [None if at in wrong else member[at * SECTOR : (at + 1) * SECTOR] for member, wrong in zip(members, bad)]
            rows.append(solved(cells, row, pattern, order, parity))
        for slot in disks.item_slots(pattern, row, MEMBERS, parity):
            sectors += [data[slot] for data in rows]
    return sectors


def map_of(bad, chance):
    """A map as ddrescue writes it. The bad sectors are those after the offset; the others are good."""
    lines, end = ["# Mapfile. Created by GNU ddrescue version 1.27", "# current_pos  current_status  current_pass", "0x00  +  1"], 0
    for sector in sorted(bad):
        first, last = sorted(chance.sample(range(SECTOR + 1), 2)) if chance.random() < 0.5 else (0, SECTOR)
        start = (OFFSET + sector) * SECTOR + first
        if start > end:
            lines.append(f"0x{end:08X}  0x{start - end:08X}  +")
        lines.append(f"0x{start:08X}  0x{last - first:08X}  {chance.choice('?*/-')}")
        end = start + last - first
    length = (OFFSET + ROWS * CHUNK) * SECTOR
    return lines + ([f"0x{end:08X}  0x{length - end:08X}  +"] if length > end else [])


def listed(sectors):
    """What `form=lost` is to print."""
    lines, first = [], None
    for place, sector in enumerate(sectors + [b""]):
        if sector is None and first is None:
            first = place
        elif sector is not None and first is not None:
            lines.append(f"lost {first} {place - first}")
            first = None
    return lines + [f"good {sum(sector is not None for sector in sectors)} of {len(sectors)}"]


def compared(level, pattern, order, seed):
    """Makes an array, and compares. Prints a line, and tells whether the program agrees."""
    chance, parity = random.Random(f"{seed} {level} {pattern} {order}"), disks.PARITY[level]
    volume = chance.randbytes(ROWS * (MEMBERS - parity) * CHUNK * SECTOR)
    members = disks.striped(volume, CHUNK * SECTOR, MEMBERS, parity, pattern, order)
    damaged = chance.sample(range(MEMBERS), parity + 1)
    bad = [set(chance.sample(range(ROWS * CHUNK), BAD)) if slot in damaged else set() for slot in range(MEMBERS)]
    for member, wrong in zip(members, bad):
        for sector in wrong:
            member[sector * SECTOR : (sector + 1) * SECTOR] = chance.randbytes(SECTOR)
    sectors = volume_of(members, bad, pattern, order, parity)
    own = all(sector in (None, volume[at * SECTOR : (at + 1) * SECTOR]) for at, sector in enumerate(sectors))
    slots = chance.sample(range(MEMBERS), MEMBERS)
    maps = []
    for slot in sorted(damaged, key=slots.__getitem__):
        maps += [f"map {slots[slot]}"] + map_of(bad[slot], chance)
    for slot in range(MEMBERS):
        pathlib.Path(f"image{slots[slot]}").write_bytes(chance.randbytes(OFFSET * SECTOR) + members[slot])
    word = f"{level}:{pattern}:{order}:{CHUNK}:{OFFSET}:" + ",".join(map(str, slots))
    wanted = {"lost": "".join(line + "\n" for line in listed(sectors)).encode(),
              "data": b"".join(sector or bytes(SECTOR) for sector in sectors)}
    agrees = {form: run(word, form, maps) == (0, answer) for form, answer in wanted.items()}
    runs, lost = len(listed(sectors)) - 1, sectors.count(None)
    print(f"{word}: {lost} of {len(sectors)} sectors lost, in {runs} runs;", f"{sum(map(bool, map(len, bad)))} damaged;",
          "the rest is the volume;" if own else "THE REST IS NOT THE VOLUME;",
          *(f"form={form} {'agrees' if good else 'DIFFERS'}" for form, good in agrees.items()))
    return own and all(agrees.values())


def run(word, form, maps):
    """Status and output of the program."""
    text = "".join(line + "\n" for line in maps).encode()
    names = [f"image{number}" for number in range(MEMBERS)]
    done = subprocess.run([PROGRAM, "salvage", f"set={word}", f"form={form}", "--", *names], input=text, stdout=subprocess.PIPE, check=False)
    return done.returncode, done.stdout


def main(words):
    seed, patterns = (words + ["1"])[0], words[1].split(",") if len(words) > 1 else None
    cases = [("5", pattern, "none") for pattern in disks.PATTERNS["5"]]
    cases += [("6", pattern, order) for pattern in disks.PATTERNS["6"] for order in disks.ORDERS]
    cases = [case for case in cases if not patterns or case[1] in patterns]
    with tempfile.TemporaryDirectory() as folder:
        os.chdir(folder)
        agree = sum([compared(*case, seed) for case in cases])
    print(f"{agree} of {len(cases)} agree, seed {seed}")
    return agree < len(cases)


if __name__ == "__main__":
    sys.exit(main(sys.argv[1:]))
