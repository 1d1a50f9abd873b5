"""Rescue texts, and the volume of what they say is good, as docs/FORMATS.md has them."""

import re

from arrays import Row
from texts import PLAN_BYTES, RANKS, REDUNDANCY, SECTOR, Stop


def rescue_number(text):
    """The number that the text spells, decimal or hexadecimal."""
    if re.fullmatch("0|[1-9][0-9]*", text, re.ASCII) and len(text) < 40:
        value = int(text)
    elif re.fullmatch("0x[0-9a-fA-F]+", text, re.ASCII):
        value = int(text, 16)
    else:
        return None
    return value if value < RANKS else None


def block_of(line, pos):
    """The position, the size and the status of a block, which begins at this position where there is one."""
    parts = re.split("[ \t]+", line.strip(" \t"))
    if len(parts) != 3 or parts[2] not in ("?", "*", "/", "-", "+"):
        return None
    start, size = rescue_number(parts[0]), rescue_number(parts[1])
    if start is None or not size or start + size >= RANKS or pos is not None and start != pos:
        return None
    return start, size, parts[2]


def read_rescue(data, images):
    """For each image that has a section its blocks, or the end with the refused line."""
    if len(data) > PLAN_BYTES:
        raise Stop(3, "reraid: rescue text is longer than 4194304 bytes")
    sections, last, status_line = {}, -1, False
    for place, line in enumerate(data.decode("latin-1").split("\n"), 1):
        if not line or line[0] == "#":
            continue
        if status_line:
            status_line = False
            continue
        begin = re.fullmatch("map (0|[1-9][0-9]*)", line, re.ASCII)
        if begin and len(begin[1]) < 3 and last < int(begin[1]) < images:
            last, status_line = int(begin[1]), True
            sections[last] = []
            continue
        blocks = sections.get(last, [])
        block = block_of(line, blocks[-1][0] + blocks[-1][1] if blocks else None) if sections else None
        if block is None:
            raise Stop(9, f"reraid: rescue line {place} is not understood")
        blocks.append(block)
    return sections


def good_bytes(sections, image):
    """Where the bytes of an image are good, from one place to another, with blocks that touch joined."""
    runs = []
    for start, size, status in sections[image]:
        if status == "+" and runs and runs[-1][1] == start:
            runs[-1] = runs[-1][0], start + size
        elif status == "+":
            runs.append((start, start + size))
    return runs


def lost_test(sections):
    """Whether a sector of an image is lost, which it is where one of its bytes is not in a good block."""
    runs = {image: good_bytes(sections, image) for image in sections}
    known = {}

    def lost(image, sector):
        if image not in runs:
            return False
        if (image, sector) not in known:
            first, after = sector * SECTOR, (sector + 1) * SECTOR
            known[image, sector] = not any(start <= first and after <= stop for start, stop in runs[image])
        return known[image, sector]
    return lost


def salvaged(found, images, end, sections):
    """The sectors of the volume, each with its bytes, or none where it is lost."""
    lost, out = lost_test(sections), [None] * (found.area(end) * found.data)
    for sector in range(found.area(end)):
        row = Row(found, images, sector, lost)
        chunk, inner = divmod(sector, found.chunk)
        blocks = row.whole() if len(row.lost) <= REDUNDANCY[found.level] else row.blocks
        for cell, block in zip(row.cells, blocks):
            if isinstance(cell, int):
                out[(chunk * found.data + cell) * found.chunk + inner] = block
    return out


def lost_text(sectors):
    """The lines of the runs of lost sectors, and how many are not lost of how many."""
    lines, place = [], 0
    while place < len(sectors):
        after = place
        while after < len(sectors) and sectors[after] is None:
            after += 1
        if after > place:
            lines.append(f"lost {place} {after - place}\n")
        place = after + 1
    return "".join([*lines, f"good {len(sectors) - sectors.count(None)} of {len(sectors)}\n"])
