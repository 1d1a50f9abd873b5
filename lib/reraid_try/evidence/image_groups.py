"""What relations of rows say of arrays: which images belong together, how much of parity is left, which may be old, where a reshape may be."""

import collections
import dataclasses
import itertools
from collections.abc import Iterable, Iterator, Mapping, Sequence
from fractions import Fraction

from ..units import MIB, SECTOR
from .dependence import inverse, product
from .relations import Relations, Rows, Tie

# Two images belong together where ties hold both in so many rows at least, and in one of so many in which neither is zeros.
MIN_TIED, FEW_TIED = 4, 50
# An image that no such ties hold belongs to a group that few rows tie, where it has one in so many ties of the group with an image of
# it.
FEW_OF_GROUP = 10
# Two arrays that hold the same at some places are tied apart in so many times as many rows at least as across.
PART_ACROSS = 2
# So much of what is tied has weights of 1 alone at level 5. A number of ties that one in so many rows has, and not most, is possible too.
PART_PLAIN, FEW_OTHER = Fraction(4, 5), 10
# Where so few rows have no image of zeros, all others count: so many ties as nearly all of them have are those of parity.
FEW_FULL, PART_TIED = 8, Fraction(19, 20)
# An image is old where it stands outside of the ties of others in so many rows; a reshape stopped where so many stand on either side.
MIN_OLD, MIN_RESHAPED = 4, 8
# Two images are copies where so much of the rows in which one of them is not zeros ties just these two.
PART_COPIED = Fraction(9, 10)
# Two images may be states of one disk if one in so many of the rows in which both hold something has the same on both, and at most one in so many of
# all such rows has the same on two other images.
MIN_STATES, FEW_STATES = 4, 4
CHUNKS = tuple(1 << power for power in range(15, 2, -1))
# So much of the places where ties change lies at one distance from the borders of chunks of the right length, of so many places at least.
PART_AT_BORDERS, MIN_BORDERS = Fraction(9, 10), 4

LEVEL_5, LEVEL_6, COPIES = "5", "6", "10"
Vector = Mapping[int, int]


@dataclasses.dataclass(frozen=True)
class Old:
    """An image that ties of the others leave out in some rows though it is in those of other rows: how many rows, and the first of them."""

    image: int
    rows: int
    first: int

    def line(self, name: str) -> str:
        """Return it as one line of text."""
        return (f"{name} is old or damaged from sector {self.first} on, or from another array. In {self.rows} of the sampled rows, parity matches "
                "the others without it")

    def closer(self, relations: Relations, images: frozenset[int]) -> "Old":
        """The same, by the rows just before the first one, which lie closer to each other; `images` are those of the group."""
        found = (rows.first for rows in relations.tied_rows() if not rows.zero & images
                 and tied_images(ties_among(rows, images)) == images - {self.image})
        return dataclasses.replace(self, first=min(found, default=self.first))


@dataclasses.dataclass(frozen=True)
class Reshape:
    """Where ties change for good, as where a reshape stopped: the last row with a tie of all images, the first with one of the rest alone, and which
    images are tied up to the one and from the other on. Of the rows between them nothing is known, as where they are zeros. An older array of the
    rest looks the same behind what a newer one of all wrote, and so does a disk that is no member where it holds what members hold. `empty` says that
    the image that is left out is zeros in all tied rows behind, as it also is where nothing is stored on it."""

    last: int
    sector: int
    before: frozenset[int]
    after: frozenset[int]
    empty: bool = False

    def line(self) -> str:
        """Return it as one line of text."""
        out = ", ".join(map(str, sorted(self.before - self.after)))
        return (f"parity changes for good between sectors {self.last} and {self.sector}: before, it matches {len(self.before)} images; after, only "
                f"{len(self.after)}, without image {out}. A reshape may have stopped there. Or an older array of {len(self.after)} disks follows "
                f"what a newer array wrote. Or image {out} is no member, but holds data of members, such as a journal" +
                f". Or nothing is stored on image {out} there, since it is zeros there" * self.empty)

    def short(self) -> str:
        """Return what is printed at the end, if no volume has a rating, and how to go on."""
        out, first = ", ".join(map(str, sorted(self.before - self.after))), max(MIB, (self.last + 1) * SECTOR)
        return (f"perhaps a reshape from {len(self.after)} to {len(self.before)} disks stopped between sectors {self.last} and {self.sector}, as "
                "reported above. Then no single layout gives the whole volume: the first array ends there, and the second begins. To search for the "
                f"first: --members {len(self.before)} --first {first}. To search for the second: --members {len(self.after)}, without image {out}. "
                "Their layouts may have no rating. If the array was growing, take the volume of the first array up to its sector "
                f"({self.last + 1} - OFFSET) * DATA DISKS, rounded down to whole stripes. From there on take that of the second")

    def closer(self, relations: Relations) -> "Reshape":
        """The same by rows between the two, which lie closer to each other."""
        tied = [(rows.first, rows.last, tied_images(ties_among(rows, self.before))) for rows in relations.tied_rows()]
        last = max((last for _, last, found in tied if found == self.before), default=self.last)
        sector = min((first for first, _, found in tied if found == self.after and first > last), default=self.sector)
        return dataclasses.replace(self, last=last, sector=sector)


@dataclasses.dataclass(frozen=True)
class ImageGroup:
    """Images that belong together. `level` is that of their parity (10 for copies), None where ties do not tell it; `parity` how many ties most of
    the rows have in which no image is zeros, which is how many disks more might be lost were no image old, and `others` what numbers of ties rows
    have besides: more where what is lost is zeros, fewer where rows are bad. `first` and `last` are the first and last row that is tied. `loose`
    counts the rows in which one image at most is zeros and nothing is tied though most are, the first of them at `loose_first`. `copies` are the
    images of which two hold the same in nearly all rows; images of which two do so in most rows are a group of copies without them. Of such `states`
    are the two that may be an older and a newer state of one disk."""

    images: tuple[int, ...]
    rows: int
    first: int
    last: int
    level: str | None
    parity: int
    old: tuple[Old, ...] = ()
    reshape: Reshape | None = None
    others: tuple[int, ...] = ()
    loose: int = 0
    loose_first: int | None = None
    copies: tuple[tuple[int, int], ...] = ()
    states: tuple[int, int] | None = None

    @property
    def may_be_copies(self) -> bool:
        """Two images hold the same in not few rows: copies, as of RAID 10 with an odd number of disks, or what level 5 has of three disks where the
        third, which is lost, was zeros."""
        return len(self.images) == 2 and self.level == LEVEL_5

    @property
    def current(self) -> tuple[int, ...]:
        """Its images but for the old ones."""
        old = {it.image for it in self.old}
        return tuple(image for image in self.images if image not in old)

    @property
    def is_either(self) -> bool:
        """Most rows are not tied, and what ties the others tells no level 5 alone: sectors of one pattern have weights too. So it is one of level 6
        that has lost two disks, or one of level 5 that has lost one."""
        return self.level == LEVEL_6 and not self.parity and not self.old

    @property
    def lost(self) -> int | None:
        """How many disks are lost, where the level is known; an old one counts as lost."""
        return self.lost_with(self.parity)

    def lost_with(self, parity: int) -> int | None:
        """How many disks are lost if so many ties are those of parity."""
        if self.level not in (LEVEL_5, LEVEL_6):
            return None
        return max(0, {LEVEL_5: 1, LEVEL_6: 2}[self.level] - parity) + len(self.old)

    @property
    def members(self) -> int | None:
        """How many disks the array has, lost ones too, where the level is known."""
        return None if self.lost is None else len(self.current) + self.lost


def plus(vector: Vector, other: Vector, weight: int) -> Vector:
    """The sum of weights and of others, each times a weight, without those that are 0."""
    images = vector.keys() | other.keys()
    found = {image: vector.get(image, 0) ^ product(weight, other.get(image, 0)) for image in images}
    return {image: weight for image, weight in found.items() if weight}


def eliminated(vectors: Iterable[Vector], order: Sequence[int]) -> dict[int, Vector]:
    """Weights that span what some others do, each by the first of its images in an order, which no other one of them has and whose weight is 1."""
    found: dict[int, Vector] = {}
    for vector in vectors:
        for image, kept in found.items():
            vector = plus(vector, kept, vector.get(image, 0))
        first = next((image for image in order if image in vector), None)
        if first is not None:
            vector = plus({}, vector, inverse(vector[first]))
            found = {image: plus(kept, vector, kept.get(first, 0)) for image, kept in found.items()} | {first: vector}
    return found


def ties_among(rows: Rows, images: frozenset[int]) -> tuple[Tie, ...]:
    """The ties of these images alone that follow from those of a row: where another image holds the same as one of these, a tie may name it in place
    of that one, and falls together with the other tie that does."""
    within = [tie for tie in rows.ties if tie.image in images]
    if sum(not tie.images <= images for tie in within) < 2:
        return tuple(tie for tie in within if tie.images <= images)
    others = sorted(frozenset().union(*(tie.images for tie in within)) - images)
    found = eliminated(({tie.image: 1, **dict(tie.weights)} for tie in within), [*others, *sorted(images, reverse=True)])
    return tuple(Tie(image, tuple((other, weight) for other, weight in sorted(vector.items()) if other != image))
                 for image, vector in sorted(found.items()) if image in images)


def tied_images(ties: Iterable[Tie]) -> frozenset[int]:
    """All images of some ties."""
    return frozenset().union(*(tie.images for tie in ties))


def connected(pairs: Iterable[tuple[int, int]]) -> list[frozenset[int]]:
    """The sets that these pairs connect."""
    found: list[frozenset[int]] = []
    for pair in pairs:
        near = [it for it in found if it & frozenset(pair)]
        found = [it for it in found if it not in near] + [frozenset(pair).union(*near)]
    return found


def pair_counts(relations: Relations, images: frozenset[int]) -> tuple[collections.Counter[tuple[int, int]], collections.Counter[tuple[int, int]]]:
    """For each two images in how many rows ties connect them, and in how many neither is zeros."""
    tied: collections.Counter[tuple[int, int]] = collections.Counter()
    there: collections.Counter[tuple[int, int]] = collections.Counter()
    for rows in relations.rows:
        count = relations.count(rows)
        for pair in itertools.combinations(sorted(images - rows.zero), 2):
            there[pair] += count
        for part in rows.tied():
            for pair in itertools.combinations(sorted(part & images), 2):
                tied[pair] += count
    return tied, there


def belonging(relations: Relations, images: frozenset[int]) -> list[frozenset[int]]:
    """The sets of images that belong together, the largest first."""
    tied, there = pair_counts(relations, images)
    strong = [pair for pair, count in tied.items() if count >= MIN_TIED and FEW_TIED * count >= there[pair]]
    found = connected([*strong, *joining(tied, connected(strong))])
    return sorted((part for it in found for part in parted(relations, it, tied)), key=lambda it: (-len(it), sorted(it)))


def parted(relations: Relations, images: frozenset[int], tied: Mapping[tuple[int, int], int]) -> list[frozenset[int]]:
    """The parts of images that belong together, where rows tie those of each part by themselves and few tie them across, as those of two arrays do
    that hold the same at some places. `tied` has in how many rows ties connect two images."""
    found: collections.Counter[frozenset[frozenset[int]]] = collections.Counter()
    for rows in relations.tied_rows():
        found[frozenset(part for it in rows.tied() if len(part := it & images) > 1)] += relations.count(rows)
    several = next((parts for parts, _ in found.most_common() if len(parts) > 1), frozenset())
    if not several:
        return [images]
    parts = sorted(several, key=sorted)
    for image in sorted(images - frozenset().union(*parts)):
        near = max(range(len(parts)), key=lambda place: sum(tied.get((min(image, it), max(image, it)), 0) for it in parts[place]))
        parts[near] |= {image}

    def is_across(it: frozenset[int]) -> bool:
        """Images of two parts are tied."""
        return not any(it <= part for part in parts)
    across = sum(count for rows, count in found.items() if any(map(is_across, rows)))
    apart = sum(count for rows, count in found.items() if len(rows) > 1 and not any(map(is_across, rows)))
    return parts if PART_ACROSS * across <= apart else [images]


def joining(tied: Mapping[tuple[int, int], int], found: Sequence[frozenset[int]]) -> Iterator[tuple[int, int]]:
    """The pairs by which an image that is in no group joins one. `tied` has in how many rows ties connect two images."""
    within = frozenset().union(*found)
    for group in found:
        least = max(MIN_TIED, *(-(-count // FEW_OF_GROUP) for pair, count in tied.items() if group.issuperset(pair)))
        yield from (pair for pair, count in tied.items() if len(within.intersection(pair)) == len(group.intersection(pair)) == 1 and count >= least)


@dataclasses.dataclass(frozen=True)
class Blank:
    """Rows in which one image alone is zeros: the image, the first row, how many rows, how many ties of the others, and whether each of these is
    tied."""

    image: int
    first: int
    rows: int
    ties: int
    whole: bool


@dataclasses.dataclass
class Tally:
    """What the rows of a group say, by how many of them say it."""

    images: frozenset[int]
    rows: int = 0
    first: int | None = None
    last: int = 0
    every: collections.Counter[int] = dataclasses.field(default_factory=collections.Counter)
    joined: int = 0
    paired: int = 0
    whole: collections.Counter[int] = dataclasses.field(default_factory=collections.Counter)
    plain: int = 0
    weighed: int = 0
    outside: collections.Counter[int] = dataclasses.field(default_factory=collections.Counter)
    outside_first: dict[int, int] = dataclasses.field(default_factory=dict)
    loose: list[tuple[int, int]] = dataclasses.field(default_factory=list)
    blank: list[Blank] = dataclasses.field(default_factory=list)

    def add(self, rows: Rows, count: int) -> None:
        """Counts some rows."""
        ties = ties_among(rows, self.images)
        here = self.images - rows.zero
        if ties:
            self.rows += count
            self.first = rows.first if self.first is None else self.first
            self.last = rows.last
            if all(tie.plain for tie in ties):
                self.plain += count
            else:
                self.weighed += count
        if here:
            self.every[min(2, len(ties))] += count
        if len(here) > 2 and ties:
            self.joined += count
            self.paired += count if all(tie.plain and len(tie.weights) == 1 for tie in ties) else 0
        if here == self.images:
            self.add_full(rows, ties, count)
        elif len(self.images) - len(here) == 1:
            self.blank.append(Blank(min(self.images - here), rows.first, count, len(ties), here <= tied_images(ties)))

    def add_full(self, rows: Rows, ties: tuple[Tie, ...], count: int) -> None:
        """Counts rows in which no image is zeros."""
        out = self.images - tied_images(ties)
        if not out or not ties:
            self.whole[min(2, len(ties))] += count
        if not ties:
            self.loose.append((rows.first, count))
        elif len(out) == 1:
            image = min(out)
            self.outside[image] += count
            self.outside_first.setdefault(image, rows.first)

    @property
    def copied(self) -> bool:
        """Where more than two images are not zeros most ties hold two that are the same, and parity would hold all of them."""
        return self.joined >= MIN_TIED and 2 * self.paired > self.joined

    @property
    def parity(self) -> int:
        """How many ties most of the rows have that hold all images or none, of those in which no image is zeros; where these are few, how many nearly
        all rows have at least."""
        if sum(self.whole.values()) >= FEW_FULL:
            return self.whole.most_common(1)[0][0]
        return max((ties for ties in self.every if self.with_ties(ties) >= PART_TIED), default=0)

    def with_ties(self, ties: int) -> Fraction:
        """The part of the rows that has so many ties at least."""
        return Fraction(sum(count for other, count in self.every.items() if other >= ties), sum(self.every.values()))

    @property
    def others(self) -> tuple[int, ...]:
        """Which other numbers of ties not few of the rows have in which no image is zeros."""
        total = sum(self.whole.values())
        return tuple(sorted(ties for ties, count in self.whole.items() if ties != self.parity and FEW_OTHER * count >= total))

    @property
    def level(self) -> str | None:
        """The level that the weights of the ties tell; None where nothing is tied."""
        if not self.rows:
            return None
        return LEVEL_5 if self.plain >= PART_PLAIN * self.rows and self.whole[2] <= self.whole[1] else LEVEL_6

    def old(self) -> tuple[Old, ...]:
        """The images that ties of the others leave out in some rows, and those that are zeros in rows of which the others have a tie less."""
        found, first = collections.Counter(self.outside), dict(self.outside_first)
        for it in self.blank:
            if it.whole and 0 < it.ties < self.parity:
                found[it.image] += it.rows
                first[it.image] = min(it.first, first.get(it.image, it.first))
        return tuple(Old(image, rows, first[image]) for image, rows in sorted(found.items()) if rows >= MIN_OLD)

    def loose_rows(self) -> tuple[int, int | None]:
        """How many rows in which one image at most is zeros have no tie, and the first of them; none where parity says nothing."""
        found = [*self.loose, *((it.first, it.rows) for it in self.blank if not it.ties)] if self.parity else []
        return sum(count for _, count in found), min((first for first, _ in found), default=None)


def copies_of(relations: Relations, images: frozenset[int]) -> tuple[tuple[int, int], ...]:
    """The images of which two hold the same in nearly all rows, each with its copy."""
    same: collections.Counter[tuple[int, int]] = collections.Counter()
    there: collections.Counter[int] = collections.Counter()
    for rows in relations.rows:
        count = relations.count(rows)
        for image in images - rows.zero:
            there[image] += count
        for tie in rows.ties:
            if tie.plain and len(tie.weights) == 1:
                same[tie.weights[0][0], tie.image] += count
    return tuple((one, other) for (one, other), count in sorted(same.items())
                 if {one, other} <= images and count >= MIN_TIED and count >= PART_COPIED * max(there[one], there[other]))


def states_of(relations: Relations, images: frozenset[int]) -> tuple[int, int] | None:
    """The two images that may be an older and a newer state of one disk, as a disk that failed and the one that took its place: they hold the same in
    not few rows, and hardly any others do. None if there are no such two."""
    same: collections.Counter[tuple[int, int]] = collections.Counter()
    there: collections.Counter[tuple[int, int]] = collections.Counter()
    for rows in relations.rows:
        count = relations.count(rows)
        for pair in itertools.combinations(sorted(images - rows.zero), 2):
            there[pair] += count
        for tie in rows.ties:
            if tie.plain and len(tie.weights) == 1 and tie.images <= images:
                same[min(tie.images), max(tie.images)] += count
    (pair, most), = same.most_common(1) or [((0, 0), 0)]
    others = sum(same.values()) - most
    return pair if most >= MIN_TIED and MIN_STATES * most >= there[pair] and FEW_STATES * others <= most else None


def reshape_of(relations: Relations, images: frozenset[int], parity: int) -> Reshape | None:
    """Where ties of all images end and as many ties without one of them begin, or one of weights of 1 alone, as far as nearly all rows on either side
    say the same."""
    tied = [(rows.first, relations.count(rows), tied_images(ties), ties) for rows in relations.tied_rows() if (ties := ties_among(rows, images))]
    for image in sorted(images):
        last = max((first for first, _, found, _ in tied if image in found), default=None)
        if last is None:
            continue
        until = max(rows.last for rows in relations.tied_rows() if rows.first <= last)
        rest = images - {image}
        before = sum(count for first, count, found, _ in tied if first <= last and found == images)
        others = sum(count for first, count, found, _ in tied if first <= last and found == rest)
        after = [(first, count, len(ties) == parity or len(ties) == 1 and ties[0].plain) for first, count, found, ties in tied
                 if first > last and found == rest]
        behind, alike = sum(count for _, count, _ in after), sum(count for _, count, same in after if same)
        if min(before, behind) >= MIN_RESHAPED and FEW_OTHER * others <= before and alike >= PART_PLAIN * behind:
            empty = all(image in rows.zero for rows in relations.tied_rows() if rows.first > last)
            return Reshape(until, min(first for first, _, _ in after), images, rest, empty)
    return None


def group_of(relations: Relations, images: frozenset[int]) -> ImageGroup:
    """What the rows say of images that belong together."""
    tally, tied = Tally(images), [rows for rows in relations.rows if ties_among(rows, images)]
    # What stands before the first tied row and behind the last one is no part of the array, such as metadata.
    for rows in relations.rows:
        if tied and tied[0].first <= rows.first <= tied[-1].last:
            tally.add(rows, relations.count(rows))
    copies, first = copies_of(relations, images), tally.first or 0
    if len(copies) >= len(images) // 2 or tally.copied or len(images) == 2 and tally.parity:
        states = None if copies else states_of(relations, images)
        return ImageGroup(tuple(sorted(images)), tally.rows, first, tally.last, COPIES, 0, copies=copies, states=states)
    reshape = reshape_of(relations, images, tally.parity) if tally.parity else None
    old = () if reshape or tally.level != LEVEL_6 else tally.old()
    return ImageGroup(tuple(sorted(images)), tally.rows, first, tally.last, tally.level, tally.parity, old, reshape, tally.others,
                      *tally.loose_rows())


def image_groups(relations: Relations, images: Iterable[int]) -> list[ImageGroup]:
    """The groups among these images, the largest first."""
    return [group_of(relations, it) for it in belonging(relations, frozenset(images))]


def borders(relations: Relations, images: frozenset[int]) -> Iterator[int]:
    """The rows in which the ties of these images are others than one step before, where none of them is zeros in either row."""
    for before, after in itertools.pairwise(relations.rows):
        told = not (before.zero | after.zero) & images and after.first - before.last == relations.step
        if told and before.ties and after.ties and before.ties != after.ties:
            yield after.first


def unbroken(relations: Relations, images: frozenset[int], chunk: int, place: int) -> int:
    """How many rows that lie so far behind a border of chunks have the same ties as one step before, where none of these images is zeros."""
    return sum(row % chunk == place for rows in relations.tied_rows() if not rows.zero & images
               for row in range(rows.first + relations.step, rows.last + 1, relations.step))


def chunk_of(relations: Relations, images: Iterable[int]) -> tuple[int, int] | None:
    """The sectors of a chunk, and where in one its borders lie: the longest at which nearly all changes of ties lie at one place, if ties do change
    in most rows there. None where ties change nowhere, as at level 5, or at too few places."""
    there = frozenset(images)
    found = list(borders(relations, there))
    if len(found) < MIN_BORDERS:
        return None
    for chunk in CHUNKS:
        place, count = collections.Counter(it % chunk for it in found).most_common(1)[0]
        if chunk >= relations.step and count >= PART_AT_BORDERS * len(found):
            return (chunk, place) if count > unbroken(relations, there, chunk, place) else None
    return None
