"""How far apart images hold the same sectors: members whose data begin at different sectors, and copies that lie elsewhere on another disk.

Of each image sectors are taken by what they hold, so that the same ones are taken of all: those whose checksum is a multiple of a number. Contents
that an image has more than once, such as those of empty tables, tell no distance and are left out."""

import collections
import dataclasses
import itertools
import zlib
from collections.abc import Iterable, Iterator, Mapping, Sequence

from ..calls.sets import FAR, MAX_COPIES, OFFSET
from .image_groups import connected

SECTOR = 512
STEP = 1 << 20
# So many sectors of an image are taken at most, about, and so many bytes of it are read, and of all images, which takes some seconds.
MAX_TAKEN, MAX_READ, MAX_OF_ALL = 1 << 16, 1 << 30, 1 << 31
# A distance tells where so many sectors have it, and one in so many of all that two images have in common.
# A weak one is so many times as frequent as the next.
MIN_SHOWN, FEW, CLEARLY = 12, 5, 2
MAX_CHUNK = 32768
# Beside what tells, of two images so many distances are kept that so many sectors have, for where parity is to say which is right. Partitions and
# logical volumes begin multiples of so many sectors apart.
MAX_WEAKER, MIN_WEAKER, WHOLE = 3, 3, 2048
# Of so many distances one may be of files that are stored twice, and not of where the data begin.
MAX_OTHERS = 4
# One that so many times fewer sectors show than the strongest one is of such files, where it is asked how far apart copies lie.
WEAK = 16
# Data begin at a multiple of so many sectors, and a chunk of md has no fewer: equal files lie apart by any number.
ALIGNED = 8


@dataclasses.dataclass(frozen=True)
class Shift:
    """Two images by their numbers, how many sectors further on the other one the same contents lie, and how many sectors show it."""

    one: int
    other: int
    distance: int
    shown: int


@dataclasses.dataclass(frozen=True)
class Distances:
    """The distances between images that tell, and weaker ones, of which chance may be the reason; of these multiples of `WHOLE` first, and then those
    that most sectors have."""

    told: tuple[Shift, ...] = ()
    weaker: tuple[Shift, ...] = ()


def sectors_of(block: bytes) -> Iterator[tuple[int, bytes]]:
    """The sectors of a block that are not zeros, with their numbers in it."""
    if block.count(0) < len(block):
        for start in range(0, len(block) - SECTOR + 1, SECTOR):
            sector = block[start:start + SECTOR]
            if sector.count(0) < SECTOR:
                yield start // SECTOR, sector


def taken(name: str, first: int, last: int, every: int) -> dict[int, int]:
    """The places of an image's sectors, from a first to before a last one, whose checksums are multiples of a number, by their checksums; those alone
    whose contents stand there once."""
    found: dict[int, int] = {}
    twice: set[int] = set()
    with open(name, "rb") as file:
        file.seek(first * SECTOR)
        for start in range(first * SECTOR, last * SECTOR, STEP):
            for place, sector in sectors_of(file.read(min(STEP, last * SECTOR - start))):
                value = zlib.crc32(sector)
                if value % every == 0:
                    if value in found:
                        twice.add(value)
                    found[value] = start // SECTOR + place
    return {value: place for value, place in found.items() if value not in twice}


def frequent(one: Mapping[int, int], other: Mapping[int, int]) -> list[tuple[int, int]]:
    """The distances of the common contents that are multiples of `ALIGNED`, and how many have each; the most frequent first."""
    counted = (other[value] - place for value, place in one.items() if value in other)
    return collections.Counter(distance for distance in counted if distance % ALIGNED == 0).most_common()


def shift(one: Mapping[int, int], other: Mapping[int, int], weak: bool = False) -> tuple[int, int] | None:
    """The distance that most of the common contents have of those that are multiples of `ALIGNED`, and how many have it; None where too few agree. A
    weak one is but twice as frequent as the next."""
    distances = frequent(one, other)
    if not distances:
        return None
    (distance, shown), *more = distances
    told = FEW * shown >= sum(count for _, count in distances) or weak and shown >= CLEARLY * more[0][1]
    return (distance, shown) if shown >= MIN_SHOWN and told else None


def distances(names: Mapping[int, str], first: int, last: int) -> Distances:
    """The distances between each two of some images, by their numbers, in what is read of them from one sector to before another. An image that
    cannot be read raises `OSError`."""
    last = min(last, first + min(MAX_READ, MAX_OF_ALL // max(1, len(names))) // SECTOR)
    every = max(1, (last - first) // MAX_TAKEN)
    places = {image: taken(name, first, last, every) for image, name in names.items()}
    pairs = [(one, other) for one, other in itertools.permutations(names, 2) if one < other]
    found: list[Shift] = []
    for weak in (False, True):
        # A weak distance tells of images alone that no other one connects.
        joined = connected((it.one, it.other) for it in found)
        found += [Shift(one, other, *told) for one, other in pairs if not any({one, other} <= part for part in joined)
                  and (told := shift(places[one], places[other], weak))]
    weaker = [Shift(one, other, distance, shown) for one, other in pairs
              for distance, shown in frequent(places[one], places[other])[:MAX_WEAKER] if shown >= MIN_WEAKER]
    known = {(it.one, it.other, it.distance) for it in found}
    weaker = [it for it in weaker if (it.one, it.other, it.distance) not in known]
    return Distances(tuple(found), tuple(sorted(weaker, key=lambda it: (it.distance % WHOLE > 0, -it.shown))))


def potentials(found: Sequence[Shift]) -> dict[int, int] | None:
    """How much further the data of each image begin than those of the image where they begin first, where all distances agree on that; None where
    they do not, as with copies that lie elsewhere on the next disk, or where not all images are reached from each other."""
    places = strongest(found)
    images = {image for it in found for image in (it.one, it.other)}
    if set(places) != images or any(places[it.other] - places[it.one] != it.distance for it in found):
        return None
    return places or None


def strongest(found: Sequence[Shift], weaker: Sequence[Shift] = ()) -> dict[int, int]:
    """How much further the data of each image begin than those of the image where they begin first, by the distances that most sectors have of those
    by which each image is reached, whatever others say. The sectors of those that agree count together, of weaker ones too."""
    places: dict[int, int] = {}
    if found:
        places[max(found, key=lambda it: it.shown).one] = 0
    while told := set(reached(found, places)):
        shown: collections.Counter[tuple[int, int]] = collections.Counter()
        for it in (*found, *weaker):
            for placed in reached([it], places):
                shown[placed] += it.shown if placed in told else 0
        image, place = shown.most_common(1)[0][0]
        places[image] = place
    least = min(places.values(), default=0)
    return {image: place - least for image, place in places.items()}


def reached(found: Iterable[Shift], places: Mapping[int, int]) -> Iterator[tuple[int, int]]:
    """The images that have no place yet, each with the place that a distance from one that has gives it."""
    for it in found:
        if it.one in places and it.other not in places:
            yield it.other, places[it.one] + it.distance
        elif it.other in places and it.one not in places:
            yield it.one, places[it.other] - it.distance


def agree(found: Sequence[Shift], images: int) -> bool:
    """Distances connect all of so many images, and nearly all agree with one beginning of each, so many that they need not: where each image is
    reached in one way alone any distances agree, those of copies on the next disk too."""
    places = strongest(found)
    agreed = sum(places[it.other] - places[it.one] == it.distance for it in found if it.one in places and it.other in places)
    return len(places) == images <= agreed and MAX_OTHERS * (len(found) - agreed) <= len(found)


def apart(found: Sequence[Shift], images: int) -> int | None:
    """How far apart the copies of RAID 10 lie, where most distances between images have one size, or, of more than two copies, are up to three times
    as long, and most of so many images have such a distance; None else. Distances that far fewer sectors show than the strongest do not count: with
    disks missing, as many pairs of images have no copies as have some."""
    most = max((it.shown for it in found), default=0)
    told = [it for it in found if it.distance and WEAK * it.shown >= most]
    for size in sorted({abs(it.distance) for it in told}):
        those = [it for it in told if it.distance % size == 0 and abs(it.distance) // size < MAX_COPIES]
        if 2 * len(those) > len(told) and 2 * len({image for it in those for image in (it.one, it.other)}) > images:
            return size
    return None


def layout(distance: int) -> str:
    """What RAID 10 has its copies so far apart: `offset` where that is a chunk, and else `far`."""
    return OFFSET if distance <= MAX_CHUNK and distance & (distance - 1) == 0 else FAR
