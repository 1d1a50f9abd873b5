"""Reads a layout off landmarks by the thousand, without trying one.

A vote says: sector S of image I lies X sectors behind the start of its file system. If chunks have C sectors, data begin at sector O of each image
and a row has D data chunks, then it lies at S' = (S - O) mod C of its chunk, in row (S - O) div C, and in data chunk

    U = (X - S') div C - D * row

of that row, but for a shift that belongs to where the file system begins. The true C, O mod C and D have the highest peak: the most votes with one
(X - S') mod C and with U among D neighbours. Votes in other such windows belong to another file system, or to another extent of one: a group of
votes of its own. For a named layout the best order of the images is then an assignment: an image goes to a slot with as many votes as that slot
has the data chunk of. Noise, also where it is most of the votes, is spread over all U."""

import collections
import dataclasses
import functools
import itertools
from collections.abc import Collection, Iterator, Mapping, Sequence

from . import assignment, numbering

# So many votes of a group tell where the peak is; a group of votes has so many at least, and one in so many of the votes of its peak.
MAX_SAMPLED, MIN_GROUP, PART_OF_PEAK = 1500, 12, 20
# Peaks with one in so many votes less than the highest are looked at too, at most so many of them.
NEAR_PEAK, MAX_PEAKS = 10, 6
# A proposal explains one in so many of the votes of its first group of votes at least: noise in a window lies on wrong slots.
MIN_EXPLAINED = 2
# Parity may stay for so many rows.
DELAYS = (1, 16)
# So many orders are worked out anew with the other groups of votes; so many proposals are told, and so many less than the best explains, of so many.
MAX_WORKED, MAX_TOLD, NEAR_BEST = 12, 4, 32


@dataclasses.dataclass(frozen=True)
class Vote:
    """A sector of an image that says how far behind the start of its file system it lies. `group` is that of its landmark."""

    group: int
    image: int
    sector: int
    place: int


@dataclasses.dataclass(frozen=True)
class Form:
    """What may be proposed: a level with so many members, and how many of the images are none of them."""

    level: str
    members: int
    foreign: int = 0

    @property
    def data(self) -> int:
        """How many data chunks a row has."""
        return numbering.data_chunks(self.level, self.members)


@dataclasses.dataclass(frozen=True)
class Sought:
    """What is looked for: the forms, and the chunks, offsets and origins that are known to be possible, in sectors."""

    forms: tuple[Form, ...]
    chunks: tuple[int, ...]
    offsets: tuple[int, ...]
    origins: frozenset[int]


@dataclasses.dataclass(frozen=True)
class Peak:
    """Where votes agree: the chunk, the border (the offset modulo the chunk), how many data chunks a row has, and how many votes its window has."""

    chunk: int
    border: int
    data: int
    votes: int


@dataclasses.dataclass(frozen=True)
class VoteGroup:
    """Votes of one group that agree: what is left of a place by the chunk, the first number of their window, and how many they are."""

    group: int
    phase: int
    first: int
    votes: int


@dataclasses.dataclass(frozen=True)
class Fit:
    """How many votes of a group a proposal explains, where its file system then begins, and how many votes the group has."""

    group: int
    fits: int
    origin: int
    votes: int


@dataclasses.dataclass(frozen=True)
class Proposal:
    """A set that explains the most votes: `slots` has the images, None where a slot is empty. `fits` are those of its groups, the first one first;
    `following` is how many votes of that one another order of the images explains at most, or another pattern."""

    form: Form
    pattern: str
    delay: int
    chunk: int
    offset: int
    slots: tuple[int | None, ...]
    fits: tuple[Fit, ...]
    following: int = 0

    @property
    def explained(self) -> int:
        """How many votes it explains in all."""
        return sum(fit.fits for fit in self.fits)


# The place of a vote at a peak: its group, what is left by the chunk, its image, its row, and the number of its data chunk.
Cell = tuple[int, int, int, int, int]
# Of each image, turn and number how many votes there are.
Turned = Mapping[tuple[int, int, int], int]


def sampled(votes: Sequence[Vote]) -> Sequence[Vote]:
    """Some of the votes, spread evenly."""
    step = max(1, len(votes) // MAX_SAMPLED)
    return votes[::step]


def phases(votes: Sequence[Vote], chunk: int) -> dict[tuple[int, int], list[Vote]]:
    """The votes of each group that agree in what is left of the place less the sector by a chunk, where that are enough."""
    found = collections.defaultdict[tuple[int, int], list[Vote]](list)
    for vote in votes:
        found[vote.group, (vote.place - vote.sector) % chunk].append(vote)
    least = max(MIN_GROUP // 2, len(votes) // PART_OF_PEAK)
    return {key: those for key, those in found.items() if len(those) >= least}


def window(numbers: Mapping[int, int], width: int) -> tuple[int, int]:
    """The most votes in so many neighbouring numbers, and the first of these."""
    best, first, total, behind = 0, 0, 0, collections.deque[int]()
    for number in sorted(numbers):
        total += numbers[number]
        behind.append(number)
        while behind[0] <= number - width:
            total -= numbers[behind.popleft()]
        if total > best:
            best, first = total, behind[0]
    return best, first


def peaks(votes: Sequence[Vote], sought: Sought) -> list[Peak]:
    """Where the votes agree, the highest peak first, with those that are nearly as high."""
    found, top = list[Peak](), 0
    for chunk in sorted(sought.chunks):
        there = phases(votes, chunk)
        # No window has more than these.
        if max(map(len, there.values()), default=0) * NEAR_PEAK < top * (NEAR_PEAK - 1):
            continue
        for border in sorted({offset % chunk for offset in sought.offsets}):
            for data, count in windows_of(there, chunk, border, {form.data for form in sought.forms}):
                found.append(Peak(chunk, border, data, count))
                top = max(top, count)
    near = [it for it in found if it.votes * NEAR_PEAK >= top * (NEAR_PEAK - 1) and it.votes >= MIN_GROUP // 2]
    return sorted(near, key=lambda it: (-it.votes, -it.chunk, it.border))[:MAX_PEAKS]


def windows_of(there: Mapping[tuple[int, int], Sequence[Vote]], chunk: int, border: int, widths: Collection[int]) -> Iterator[tuple[int, int]]:
    """For each number of data chunks how many votes are in the best window of one group of votes."""
    pairs = dict[tuple[int, int], Mapping[tuple[int, int], int]]()
    for key, those in there.items():
        pairs[key] = collections.Counter(((it.sector - border) // chunk, (it.place - (it.sector - border) % chunk) // chunk) for it in those)
    for data in widths:
        yield data, max((window(drifted(it, data), data)[0] for it in pairs.values()), default=0)


def drifted(pairs: Mapping[tuple[int, int], int], data: int) -> Mapping[int, int]:
    """How many votes have each number within its row, by rows and numbers of the volume."""
    found = collections.Counter[int]()
    for (row, number), count in pairs.items():
        found[number - data * row] += count
    return found


def cells_of(votes: Sequence[Vote], peak: Peak) -> Mapping[Cell, int]:
    """How many votes have each place at a peak, with rows counted from its border on."""
    found = collections.Counter[Cell]()
    for it in votes:
        row, within = divmod(it.sector - peak.border, peak.chunk)
        number, left = divmod(it.place - within, peak.chunk)
        found[it.group, left, it.image, row, number - peak.data * row] += 1
    return found


def vote_groups(cells: Mapping[Cell, int], peak: Peak) -> list[VoteGroup]:
    """The groups of votes at a peak, the largest first: of each group and phase all windows that do not overlap, with enough votes."""
    numbers = collections.defaultdict[tuple[int, int], collections.Counter[int]](collections.Counter)
    for (group, left, _, _, number), count in cells.items():
        numbers[group, left][number] += count
    found, least = list[VoteGroup](), max(MIN_GROUP, peak.votes // PART_OF_PEAK)
    for (group, left), there in numbers.items():
        rest = dict(there)
        while rest:
            count, first = window(rest, peak.data)
            if count < least:
                break
            found.append(VoteGroup(group, left, first, count))
            rest = {number: it for number, it in rest.items() if not first <= number < first + peak.data}
    return sorted(found, key=lambda it: (-it.votes, it.group, it.first))


@dataclasses.dataclass(frozen=True)
class Turn:
    """A form with a pattern and a delay, at an offset: by how many rows that lies behind the border."""

    form: Form
    pattern: str
    delay: int
    behind: int

    @property
    def period(self) -> int:
        """After how many rows it repeats."""
        return self.delay * numbering.period(self.form.level, self.pattern, self.form.members)

    @functools.cached_property
    def slots(self) -> tuple[tuple[int, ...], ...]:
        """The slots of the data chunks, of each row of a period without its delay."""
        rows = range(self.period // self.delay)
        return tuple(numbering.data_slots(self.form.level, self.pattern, self.form.members, row) for row in rows)

    def turn_of(self, row: int) -> int:
        """Which of these rows a row is, counted from the border on."""
        return (row - self.behind) // self.delay % len(self.slots)


@dataclasses.dataclass(frozen=True)
class Order:
    """A turn with the offset, the images by slot and the shift of each group of votes, and how many votes of it that explains."""

    turn: Turn
    offset: int
    slots: tuple[int | None, ...]
    shifts: tuple[tuple[VoteGroup, int, int], ...]
    known: bool

    @property
    def explained(self) -> int:
        """How many votes it explains."""
        return sum(count for _, _, count in self.shifts)


class Reader:
    """The votes of some images at one peak."""

    def __init__(self, votes: Sequence[Vote], peak: Peak, sought: Sought) -> None:
        self.peak, self.sought = peak, sought
        self.images = sorted({vote.image for vote in votes})
        self.cells = cells_of(votes, peak)
        self.vote_groups = vote_groups(self.cells, peak)
        self.turned = dict[tuple[VoteGroup, int, int, int], Turned]()

    def origin(self, vote_group: VoteGroup, turn: Turn, shift: int) -> int:
        """Where the file system of a group of votes begins if its numbers are counted from a shift on."""
        return -(shift + self.peak.data * turn.behind) * self.peak.chunk - vote_group.phase

    def votes_of(self, vote_group: VoteGroup, turn: Turn) -> Turned:
        """The votes of a group of votes by image, turn and number, with numbers counted from the border on; kept for all patterns of one period."""
        key = vote_group, turn.period, turn.delay, turn.behind % turn.period
        if key not in self.turned:
            found, near = collections.Counter[tuple[int, int, int]](), self.peak.data
            for (group, left, image, row, number), count in self.cells.items():
                if (group, left) == (vote_group.group, vote_group.phase) and vote_group.first - near < number < vote_group.first + 2 * near:
                    found[image, turn.turn_of(row), number] += count
            self.turned[key] = found
        return self.turned[key]

    def shifts(self, vote_group: VoteGroup, turn: Turn) -> list[tuple[int, int]]:
        """The shifts at which a window has votes of a group of votes, and how many, the most first; none with which its file system would begin
        before the volume."""
        numbers = collections.Counter[int]()
        for (_, _, number), count in self.votes_of(vote_group, turn).items():
            numbers[number] += count
        data = self.peak.data
        found = ((sum(numbers[shift + k] for k in range(data)), shift) for shift in range(vote_group.first - data + 1, vote_group.first + data))
        return sorted(((count, shift) for count, shift in found if self.origin(vote_group, turn, shift) >= 0), key=lambda it: (-it[0], it[1]))

    def weights(self, vote_group: VoteGroup, turn: Turn, shift: int) -> list[list[int]]:
        """How many votes of a group of votes each image has for each slot."""
        found = [[0] * (turn.form.members + turn.form.foreign) for _ in self.images]
        places = {image: place for place, image in enumerate(self.images)}
        for (image, row, number), count in self.votes_of(vote_group, turn).items():
            if 0 <= number - shift < self.peak.data:
                found[places[image]][turn.slots[row][number - shift]] += count
        return found

    def turns(self) -> Iterator[tuple[Turn, int]]:
        """What is tried, with the offset: of offsets with the same turn and the same origins the first alone."""
        chunk, border = self.peak.chunk, self.peak.border
        for form in self.sought.forms:
            if form.data != self.peak.data or len(self.images) > form.members + form.foreign:
                continue
            for pattern, delay in itertools.product(numbering.PATTERNS[form.level], DELAYS):
                if delay > 1 and numbering.period(form.level, pattern, form.members) == 1:
                    continue
                for offset in self.sought.offsets:
                    if offset % chunk == border:
                        yield Turn(form, pattern, delay, (offset - border) // chunk), offset

    def orders(self) -> list[Order]:
        """The best orders by the largest group of votes alone, those that explain the most first, and of as many those whose origin is known."""
        found, top = list[Order](), 0
        vote_group = self.vote_groups[0]
        for turn, offset in self.turns():
            for count, shift in self.shifts(vote_group, turn):
                if count * NEAR_BEST < top * (NEAR_BEST - 1) or count < MIN_GROUP:
                    break
                total, columns = assignment.best(self.weights(vote_group, turn, shift))
                if total >= MIN_GROUP:
                    known = self.origin(vote_group, turn, shift) in self.sought.origins
                    found.append(Order(turn, offset, self.slots_of(columns, turn.form), ((vote_group, shift, total),), known))
                    top = max(top, total)
        return sorted(found, key=lambda it: (-it.explained, not it.known, it.turn.delay, it.turn.form.level, it.offset))

    def slots_of(self, columns: Sequence[int], form: Form) -> tuple[int | None, ...]:
        """The images by slot, of the column of each."""
        slots: list[int | None] = [None] * form.members
        for image, column in zip(self.images, columns):
            if column < form.members:
                slots[column] = image
        return tuple(slots)

    def with_others(self, order: Order) -> Order:
        """An order with the other groups of votes: of each the shift at which it fits best there, and then the best order of all together."""
        total = self.weights(*order.shifts[0][:1], order.turn, order.shifts[0][1])
        chosen = [order.shifts[0][:2]]
        columns = {image: slot for slot, image in enumerate(order.slots) if image is not None}
        for vote_group in self.vote_groups[1:]:
            best = max(((self.fits(self.weights(vote_group, order.turn, shift), columns), shift) for _, shift in self.shifts(vote_group, order.turn)),
                       default=(0, 0))
            if best[0] * MIN_EXPLAINED >= vote_group.votes:
                chosen.append((vote_group, best[1]))
                more = self.weights(vote_group, order.turn, best[1])
                total = [[one + other for one, other in zip(row, added)] for row, added in zip(total, more)]
        slots = self.slots_of(assignment.best(total)[1], order.turn.form)
        columns = {image: slot for slot, image in enumerate(slots) if image is not None}
        counted = tuple((vote_group, shift, self.fits(self.weights(vote_group, order.turn, shift), columns)) for vote_group, shift in chosen)
        return dataclasses.replace(order, slots=slots, shifts=counted)

    def fits(self, weights: Sequence[Sequence[int]], columns: Mapping[int, int]) -> int:
        """How many votes fit with each image on a slot."""
        return sum(weights[place][columns[image]] for place, image in enumerate(self.images) if image in columns)

    def proposals(self, totals: Mapping[int, int]) -> list[Proposal]:
        """What is proposed by this peak: `totals` has how many votes each group has."""
        if not self.vote_groups:
            return []
        orders = [self.with_others(it) for it in self.orders()[:MAX_WORKED]]
        orders.sort(key=lambda it: (-it.explained, not it.known, it.turn.delay, it.turn.form.level, it.offset))
        kept = [it for it in orders if it.shifts[0][2] * MIN_EXPLAINED >= self.vote_groups[0].votes]
        following = max((it.shifts[0][2] for it in orders if kept and it.shifts[0][2] < kept[0].shifts[0][2]), default=0)
        return [self.proposal(it, totals, following) for it in kept]

    def proposal(self, order: Order, totals: Mapping[int, int], following: int) -> Proposal:
        """An order as a proposal: of several groups of votes of a group that with the most votes tells its origin."""
        fits = dict[int, Fit]()
        for vote_group, shift, count in order.shifts:
            if vote_group.group not in fits or count > fits[vote_group.group].fits:
                fits[vote_group.group] = Fit(vote_group.group, count, self.origin(vote_group, order.turn, shift), totals[vote_group.group])
        turn = order.turn
        return Proposal(turn.form, turn.pattern, turn.delay, self.peak.chunk, order.offset, order.slots, tuple(fits.values()), following)


def read(votes: Sequence[Vote], sought: Sought) -> list[Proposal]:
    """Return the sets that explain the most votes, the best first, with those that explain nearly as many; nothing where the votes tell none."""
    totals = collections.Counter(vote.group for vote in votes)
    found = [it for peak in peaks(sampled(votes), sought) for it in Reader(votes, peak, sought).proposals(totals)]
    found.sort(key=lambda it: (-it.explained, -sum(fit.origin in sought.origins for fit in it.fits), it.delay, it.form.level, it.offset))
    near = [it for it in found if it.explained * NEAR_BEST >= found[0].explained * (NEAR_BEST - 1)]
    return near
