"""The product of a plan, and the pages of the sets that pass, as docs/FORMATS.md has them."""

import bisect
import functools
import itertools
import math

from arrays import held, unsound_rows
from texts import FEWEST, FIVE, PATTERNS, REDUNDANCY, SIX, Set, has_delay


class SlotLists:
    """The lists of so many slots, by their places in the order of all: each image in one slot at most, so many slots empty at most, and
    so many images in no slot at most."""

    def __init__(self, images, members, missing, foreign):
        self.images, self.members, self.missing, self.foreign = images, members, missing, foreign
        self.known, self.lists = {}, {}
        self.count = self.ways(0, 0)

    def ways(self, used, empty):
        """How many lists begin with so many images and so many empty slots, in some order."""
        if (used, empty) not in self.known:
            self.known[used, empty] = self.counted_ways(used, empty)
        return self.known[used, empty]

    def counted_ways(self, used, empty):
        left, count = self.members - used - empty, 0
        for more in range(left + 1):
            lost, there = empty + more, used + left - more
            if lost <= self.missing and there <= self.images and self.images - there <= self.foreign:
                count += math.comb(left, more) * math.perm(self.images - used, left - more)
        return count

    def choices(self, slots):
        """What may stand in the next slot, in order, and how many lists go on so."""
        for choice in [image for image in range(self.images) if image not in slots] + [None]:
            empty = slots.count(None) + (choice is None)
            yield choice, self.ways(len(slots) + 1 - empty, empty)

    def at(self, place):
        if place not in self.lists:
            self.lists[place] = self.found_at(place)
        return self.lists[place]

    def found_at(self, place):
        slots = []
        while len(slots) < self.members:
            for choice, count in self.choices(slots):
                if place < count:
                    slots.append(choice)
                    break
                place -= count
        return tuple(slots)

    def place_of(self, slots):
        there = [slot for slot in slots if slot is not None]
        if len(set(there)) < len(there) or any(slot >= self.images for slot in there) or len(slots) != self.members:
            return None
        place, before = 0, []
        for slot in slots:
            for choice, count in self.choices(before):
                if choice == slot:
                    break
                place += count
            before.append(slot)
        return place if self.ways(len(there), len(slots) - len(there)) else None


class Product:
    """The sets of a plan by their ranks. Sets of one shape are alike in all but the offset, or the list of bases, and the slots."""

    def __init__(self, plan):
        self.plan, self.images = plan, len(plan.lengths)
        # of lists of bases there are too many to be kept
        self.parts = len(plan.offsets) ** (self.images if plan.each else 1)
        self.shapes, self.lists = [], []
        lists = functools.lru_cache(None)(lambda members, missing: SlotLists(self.images, members, missing, plan.foreign))
        for shape in itertools.product(plan.levels, plan.members, plan.patterns, plan.delays, plan.syndromes, plan.chunks):
            level, members, pattern, delay, syndrome, _ = shape
            patterns = {0: PATTERNS[:1], 5: FIVE, 6: SIX}[level]
            if members >= FEWEST[level] and pattern in patterns and has_delay(pattern, delay) and (syndrome != "none") == (level == 6):
                self.shapes.append(shape)
                self.lists.append(lists(members, min(plan.missing, REDUNDANCY[level])))
        self.firsts = [0] + list(itertools.accumulate(self.parts * slots.count for slots in self.lists))
        self.total = self.firsts[-1]

    def places(self, rank):
        """The places of a rank's shape, of its offset or bases, and of its slots."""
        shape = bisect.bisect_right(self.firsts, rank) - 1
        return shape, *divmod(rank - self.firsts[shape], self.lists[shape].count)

    def bases_at(self, part):
        """The offsets of a place: one, or one for each image, of which the last turns fastest."""
        bases = []
        for _ in range(self.images if self.plan.each else 1):
            part, place = divmod(part, len(self.plan.offsets))
            bases.insert(0, self.plan.offsets[place])
        return bases

    def set_at(self, rank):
        place, part, slots = self.places(rank)
        level, _, pattern, delay, syndrome, chunk = self.shapes[place]
        bases = self.bases_at(part)
        return Set(level, pattern, syndrome, chunk, bases[0], self.lists[place].at(slots), bases if self.plan.each else (), delay)

    def rank_after(self, rank):
        """The first rank of another shape, offset or bases than this one's, where those leave no whole row, else None."""
        place, part, _ = self.places(rank)
        if max(self.bases_at(part)) + self.shapes[place][-1] <= self.plan.end:
            return None
        return self.firsts[place] + (part + 1) * self.lists[place].count

    def rank_of(self, found):
        bases = found.bases or [found.offset]
        if found.shape() not in self.shapes or bool(found.bases) != self.plan.each or any(base not in self.plan.offsets for base in bases):
            return None
        place, part = self.shapes.index(found.shape()), 0
        slots = self.lists[place].place_of(found.slots)
        for base in bases:
            part = part * len(self.plan.offsets) + self.plan.offsets.index(base)
        return None if slots is None else self.firsts[place] + part * self.lists[place].count + slots


def passes(plan, found, sums):
    if found.rows(plan.end) == 0:
        return False
    if any(held(plan, found, group) is None for group in plan.groups):
        return False
    return unsound_rows(found, sums, min(found.area(plan.end), plan.window), plan.badrows) <= plan.badrows


def page(plan, product, sums, first, size, span):
    """The sets of a page with their ranks, and where the next begins."""
    stop, lines, rank = min(product.total, first + span), [], first
    while rank < stop:
        after = product.rank_after(rank)
        if after is not None:
            rank = after
            continue
        found = product.set_at(rank)
        rank += 1
        if passes(plan, found, sums):
            lines.append((rank - 1, found))
            if len(lines) == size:
                return lines, rank
    return lines, stop
