#!/usr/bin/env python3
"""Talks to reraid-nbd as clients at random over arrays of six disks of which some have bad areas, by their maps, and compares every byte and
the status with a model of the protocol over the volume that damaged.py computes of its own: two damaged disks at level 5, three at level 6, in
each pattern and order of Q; one of level 0; of copies all, in each layout; each also without members where it survives that. What is lost is EIO,
and nothing else is.

Usage: hostile/nbd_maps.py SERVER [seed=NUMBER] [dialogues=NUMBER]
Dialogues are for all arrays together (2000, if left out). A bad sector of an image holds random bytes, so that it shows if it is read. The last
line says how many cases were as stated; status 1 where one was not. A dialogue that differs is kept, and its name printed.
"""

import os
import pathlib
import random
import sys
import tempfile

HERE = pathlib.Path(__file__).resolve().parent
sys.dont_write_bytecode = True
sys.path.insert(0, str(HERE))
import damaged  # noqa: E402
import nbd_model as model  # noqa: E402
from damaged import CHUNK, MEMBERS, OFFSET, ROWS, SECTOR, disks  # noqa: E402
from nbd_dialogues import Cases, LINE, LINES, served  # noqa: E402


def areas(chance):
    """Some bad areas of a member: short ones, and one that is long."""
    bad = set()
    for length in [chance.randint(1, 12) for _ in range(40)] + [chance.randint(1, 600)]:
        start = chance.randrange(ROWS * CHUNK)
        bad.update(range(start, min(start + length, ROWS * CHUNK)))
    return bad


class Array:
    """An array, its images in the folder, and what can be had of its volume."""

    def __init__(self, members, bad, lost, sectors, word, chance):
        """The members in their slots with the bad sectors of each, the slots that are lost, the sectors of the volume, none where they cannot be had,
        and what of the word of the set comes before the slots."""
        self.sectors = sectors
        for member, wrong in zip(members, bad):
            for sector in wrong:
                member[sector * SECTOR : (sector + 1) * SECTOR] = chance.randbytes(SECTOR)
        left, lines = [slot for slot in chance.sample(range(MEMBERS), MEMBERS) if slot not in lost], []
        for number, slot in enumerate(left):
            pathlib.Path(f"image{number}").write_bytes(chance.randbytes(OFFSET * SECTOR) + members[slot])
            if bad[slot]:
                lines += [f"map {number}"] + damaged.map_of(bad[slot], chance)
        pathlib.Path("maps").write_text("".join(line + "\n" for line in lines), encoding="ascii")
        slots = ",".join(str(left.index(slot)) if slot in left else "-" for slot in range(MEMBERS))
        self.set, self.images = f"set={word}:{CHUNK}:{OFFSET}:{slots}", [f"image{number}" for number in range(len(left))]
        self.words = [*chance.choice([("maps=maps", self.set), (self.set, "maps=maps")]), "--", *self.images]
        self.content = b"".join(sector or bytes(SECTOR) for sector in self.sectors)
        self.lost = frozenset(place for place, sector in enumerate(self.sectors) if sector is None)


def striped(level, pattern, order, without, chance):
    """An array at a level, with a member too many that is damaged."""
    parity = disks.PARITY[level]
    volume = chance.randbytes(ROWS * (MEMBERS - parity) * CHUNK * SECTOR)
    members = disks.striped(volume, CHUNK * SECTOR, MEMBERS, parity, pattern, order)
    lost = chance.sample(range(MEMBERS), 1) if without else []
    hurt = chance.sample([slot for slot in range(MEMBERS) if slot not in lost], parity + 1 - len(lost))
    bad = [set(range(ROWS * CHUNK)) if slot in lost else areas(chance) if slot in hurt else set() for slot in range(MEMBERS)]
    return Array(members, bad, lost, damaged.volume_of(members, bad, pattern, order, parity), f"{level}:{pattern}:{order}", chance)


def mirrored(layout, chance):
    """An array of copies of which one is left at least, and all that are left are damaged: a sector can be had where one of its copies is good."""
    count = int(layout[-1])
    chunks = ROWS * MEMBERS // count if layout.startswith("near") else ROWS // count * MEMBERS
    volume = chance.randbytes(chunks * CHUNK * SECTOR)
    members = disks.mirrored(volume, CHUNK * SECTOR, MEMBERS, layout, chance)
    for member in members:
        member += chance.randbytes(ROWS * CHUNK * SECTOR - len(member))
    lost = chance.sample(range(MEMBERS), chance.randrange(count))
    bad = [set(range(ROWS * CHUNK)) if slot in lost else areas(chance) for slot in range(MEMBERS)]
    sectors = []
    for sector in range(chunks * CHUNK):
        chunk, inner = divmod(sector, CHUNK)
        good = any(row * CHUNK + inner not in bad[slot] for slot, row in disks.copies(layout, chunk, MEMBERS, ROWS))
        sectors.append(volume[sector * SECTOR : (sector + 1) * SECTOR] if good else None)
    return Array(members, bad, lost, sectors, layout, chance)


def near_lost(array, chance, count):
    """Reads that begin or end beside what is lost, and a few of it."""
    data = []
    for handle in range(count if array.lost else 0):
        edge = SECTOR * (chance.choice(sorted(array.lost)) + chance.choice([0, 1]))
        place = max(0, min(edge + chance.choice([0, 0, 1, -1, -700, -512, -4096]), len(array.content) - 1))
        length = min(chance.choice([1, 2, 511, 512, 513, 4096, 65536]), len(array.content) - place)
        data.append(model.request(model.READ, handle, place, length))
    return b"".join(data)


def compare(cases, server, array, data, what):
    """One dialogue beside the model."""
    wanted, status = model.said(array.content, data, array.lost)
    out, got, line = served(server, array.words, data)
    right = out == wanted and got == status and line == LINES[status]
    if not right:
        with tempfile.NamedTemporaryFile(prefix="reraid-nbd-maps.", dir="/tmp", delete=False) as file:
            file.write(data)
        what += f": status {got} for {status}, {len(out)} bytes for {len(wanted)}, line {line!r}; kept as {file.name}"
    cases.add(right, what)


def try_dialogues(cases, server, array, count, chance):
    """Reads at random, reads beside what is lost, the whole volume, and clients that talk nonsense."""
    name = f"{array.set}, {len(array.lost)} sectors lost"
    size = len(array.content)
    for number in range(count):
        if number % 4 == 3:
            data = model.some_dialogue(chance, size)
        else:
            data = model.hello() + near_lost(array, chance, 12) + model.reads(chance, size, 12, 1 << 18) + model.request(model.DISCONNECT, 0)
        compare(cases, server, array, data, f"dialogue {number} of {name}")
    steps = range(0, size, 1 << 17)
    compare(cases, server, array, model.hello() + b"".join(model.request(model.READ, at, at, min(1 << 17, size - at)) for at in steps), f"all of {name}")


def try_refusals(cases, server, array):
    """Maps that are refused or cannot be read, and words that do not go with them: nothing is put."""
    pathlib.Path("wrong").write_text("map 0\n0 + 1\n0 512\n", encoding="ascii")
    pathlib.Path("long").write_bytes(b"#\n" * (2 << 20) + b"#")
    word, images = array.set, array.images
    for words, status, line in (([word, "maps=wrong", "--", *images], 9, "rescue line 3 is not understood\n"),
                                ([word, "maps=long", "--", *images], 3, "rescue text is longer than 4194304 bytes\n"),
                                ([word, "maps=nothing", "--", *images], 16, "maps read fault\n"),
                                (["maps=.", word, "--", *images], 16, "maps read fault\n"),
                                (["maps=", word, "--", *images], 16, "maps read fault\n"),
                                (["maps=maps"], 1, "word 2 is not understood\n"),
                                ([word, "maps=maps", "maps=maps", "--", *images], 1, "word 3 is not understood\n"),
                                ([word, "maps=maps", "end=x", "--", *images], 1, "word 3 is not understood\n"),
                                (["end=x", "maps=maps", word, "--", *images], 1, "word 1 is not understood\n"),
                                ([word, "--", "maps=nothing"], 10, "image read fault\n"),
                                ([word, "maps=nothing", "--", "nothing"], 10, "image read fault\n"),
                                ([word, "maps=nothing", "--"], 4, "images: count given 0 planned 1\n")):
        out, got, said = served(server, words, model.hello())
        cases.add((out, got, said) == (b"", status, LINE + line), f"refusal of {words[:3]}: status {got}, {said!r}, {len(out)} bytes put")


def main(words):
    asked = {"seed": random.randrange(1 << 32), "dialogues": 2000}
    asked.update((name, int(value)) for name, value in (word.split("=") for word in words[1:]))
    server, cases, chance = os.path.abspath(words[0]), Cases(), random.Random(asked["seed"])
    print(f"seed={asked['seed']}")
    arrays = [("0", "plain", "none")] + [("5", pattern, "none") for pattern in disks.PATTERNS["5"]]
    arrays += [("6", pattern, order) for pattern in disks.PATTERNS["6"] for order in disks.ORDERS] + [(layout,) for layout in disks.COPIES]
    chance.shuffle(arrays)
    arrays = arrays[: max(1, asked["dialogues"] // 40)]
    with tempfile.TemporaryDirectory() as folder:
        os.chdir(folder)
        for words in arrays:
            array = mirrored(*words, chance) if len(words) == 1 else striped(*words, words[0] != "0" and chance.random() < 0.5, chance)
            try_dialogues(cases, server, array, asked["dialogues"] // len(arrays) - 1, chance)
        try_refusals(cases, server, array)
        os.chdir("/")
    print(f"{cases.done} cases, {cases.failed} not as stated")
    return cases.failed > 0


if __name__ == "__main__":
    if len(sys.argv) < 2:
        sys.exit(__doc__)
    sys.exit(main(sys.argv[1:]))
