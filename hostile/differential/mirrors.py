"""Copies of each chunk: their product, the pages of the sets that pass, and their volume, as docs/FORMATS.md has them. Where the copies lie is
written as Linux's md has it, whose near copies take one cell after the other, and whose far ones, at offsets or not, lie a stride apart."""

import bisect
import functools
import itertools

from product import SlotLists
from texts import CHUNKS, MOST, SECTOR, Mirror, strange_images


@functools.lru_cache(256)
def places(layout, members, rows):
    """Of each chunk of the volume the slot, the row, and the row within the part of its members, of each copy: far copies have a part each."""
    kind, count = layout[:-1], int(layout[-1])
    near, far = (count, 1) if kind == "near" else (1, count)
    stride, found = 1 if kind == "offset" else rows // far, []
    for chunk in range(rows // far * members // near):
        row, slot = divmod(chunk * near, members)
        row *= far if kind == "offset" else 1
        copies = []
        for _ in range(near):
            copies += [((slot + near * part) % members, row + part * stride, row + (part if kind == "offset" else 0)) for part in range(far)]
            slot += 1
            if slot == members:
                slot, row = 0, row + 1
        found.append(copies)
    return found


def block_at(found, images, slot, sector):
    start = (found.offset + sector) * SECTOR
    return images[found.slots[slot]][start:start + SECTOR]


def held(found, end):
    """The copies of each chunk whose slots hold images."""
    return [[copy for copy in copies if found.slots[copy[0]] is not None] for copies in places(found.layout, found.members, found.rows(end))]


def bare(found, end):
    """The first chunk of the volume without a copy, or none."""
    return next((chunk for chunk, copies in enumerate(held(found, end)) if not copies), None)


def tested_below(found, end, window):
    """Before which sector of its part a copy is tested: within the window, and of near copies not in a last row in which a chunk that has no place for
    all its copies has two or more."""
    rows = found.rows(end)
    if found.layout.startswith("near") and rows * found.members % found.copies > 1:
        rows -= 1
    return min(window, rows * found.chunk)


def torn(found, images, end, window, most):
    """How many pairs of tested copies of one sector differ; the count ends where it is above `most`."""
    count, limit = 0, tested_below(found, end, window)
    for copies in held(found, end):
        for inner in range(found.chunk):
            tested = [block_at(found, images, slot, row * found.chunk + inner) for slot, row, within in copies if within * found.chunk + inner < limit]
            count += sum(one != other for one, other in itertools.combinations(tested, 2))
        if count > most:
            break
    return count


def volume(found, images, end):
    """Of each sector of the volume the first copy that an image holds."""
    homes = [copies[0] for copies in held(found, end)]
    return b"".join(block_at(found, images, slot, row * found.chunk + inner) for slot, row, _ in homes for inner in range(found.chunk))


def broken_mirror_rule(found, images, end):
    """The first rule that a set of copies breaks, and its value."""
    absent, again = strange_images(found, images)
    if not max(2, found.copies) <= found.members <= MOST:
        return 21, found.members
    if found.chunk not in CHUNKS:
        return 22, found.chunk
    if absent:
        return 23, absent[0]
    if again:
        return 24, again[0]
    chunks, lost = len(places(found.layout, found.members, found.rows(end))), bare(found, end)
    if found.layout == "near2" and (lost is not None or chunks == 0 and found.lost > 1):
        return 25, found.lost
    if lost is not None:
        return 25, lost
    return None if chunks else (26, found.offset)


class Mirrors:
    """The sets that are asked for by their ranks."""

    def __init__(self, asked, images):
        heads = itertools.product(asked["layouts"], asked["members"], asked["chunks"], asked["offsets"])
        self.heads = [head for head in heads if int(head[0][-1]) <= head[1]]
        lists = {members: SlotLists(images, members, asked["missing"], asked["foreign"]) for members in asked["members"]}
        self.lists = [lists[members] for _, members, _, _ in self.heads]
        self.firsts = [0] + list(itertools.accumulate(slots.count for slots in self.lists))
        self.total = self.firsts[-1]

    def set_at(self, rank):
        place = bisect.bisect_right(self.firsts, rank) - 1
        layout, _, chunk, offset = self.heads[place]
        return Mirror(layout, chunk, offset, self.lists[place].at(rank - self.firsts[place]))

    def rank_of(self, found):
        head = (found.layout, found.members, found.chunk, found.offset)
        if head not in self.heads:
            return None
        place = self.heads.index(head)
        slots = self.lists[place].place_of(found.slots)
        return None if slots is None else self.firsts[place] + slots

    def rank_after(self, rank, end):
        """The first rank after all sets of this one's layout, members, chunk and offset, where those leave no chunk, else None."""
        place = bisect.bisect_right(self.firsts, rank) - 1
        layout, members, chunk, offset = self.heads[place]
        return None if places(layout, members, max(0, end - offset) // chunk) else self.firsts[place + 1]


def page(asked, mirrors, images, first, size, span):
    """The sets of a page with their ranks, and where the next begins."""
    stop, lines, rank = min(mirrors.total, first + span), [], first
    while rank < stop:
        after = mirrors.rank_after(rank, asked["end"])
        if after is not None:
            rank = after
            continue
        found = mirrors.set_at(rank)
        rank += 1
        if bare(found, asked["end"]) is None and torn(found, images, asked["end"], asked["window"], asked["badrows"]) <= asked["badrows"]:
            lines.append((rank - 1, found))
            if len(lines) == size:
                return lines, rank
    return lines, stop
