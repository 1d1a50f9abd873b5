"""Offsets that differ from image to image, as logical volumes of LVM RAID have them: by how far apart images hold the same sectors, by where each
image begins to hold something, by what a text of LVM2 names, and by what ties them then.

What ties images shows how much further the data of one begin than those of another, whatever stands before them, such as other volumes. Where they
begin is told by the first row that is tied."""

import collections
import dataclasses
import itertools
import time
from collections.abc import Iterable, Iterator, Mapping, Sequence

from ..errors import OutsideError, said
from . import image_groups, shifts
from .image_groups import LEVEL_5, LEVEL_6, connected
from .images import Image
from .relations import Relations
from .shifts import ALIGNED, Distances
from .ties import MAX_ROWS, Known, Ties

# So many ways to choose the offsets are tried, for each part of the images so many places behind the first one, and so many beginnings.
MAX_WAYS, MAX_PLACES, MAX_BEGINNINGS = 32, 8, 3
# The ways are asked about for this part of the time of a step at most. Rows are looked at so many times, each time closer to each other.
PART, PASSES = 6, 3
# Where partitions and the data of md begin, and the first extents of LVM2: multiples of so many sectors, from a first one on.
GRIDS = ((0, 2048), (2048, 8192))
# Where the data of md begin in a partition: behind its metadata, or at its start if the metadata are at its end.
USUAL_BEGINNINGS = (2048, 0)
# The sectors at which a text of LVM2 says that parts of volumes begin on some images, by their numbers.
Starts = Mapping[int, Sequence[int]]


@dataclasses.dataclass(frozen=True)
class Unlike:
    """Offsets of some images, in their order, at which parity ties all of them, and what is known of them there."""

    offsets: tuple[int, ...]
    known: Known

    def line(self) -> str:
        """Return it as one line of text."""
        return f"the data begin at different sectors of the images; parity matches at these: {', '.join(map(str, self.offsets))}"


def found_shifts(images: Sequence[Image], first: int, end: int) -> Distances:
    """How far apart these images hold the same sectors."""
    try:
        return shifts.distances({image.number: image.name for image in images}, first, end)
    except OSError as error:
        raise OutsideError(f"an image cannot be read: {said(error)}") from error


def parts(images: Sequence[Image], found: Distances) -> list[dict[int, int]]:
    """The images that distances connect, the largest part first, in each how much further the data of each begin than of the one where they begin
    first, by the distances that most sectors have; those without any, each by itself."""
    joined = connected((it.one, it.other) for it in found.told)
    known = [shifts.strongest([it for it in found.told if it.one in part], [it for it in found.weaker if {it.one, it.other} <= part])
             for part in sorted(joined, key=lambda it: (-len(it), min(it)))]
    within = {image for part in known for image in part}
    return known + [{image.number: 0} for image in images if image.number not in within]


def held(part: Mapping[int, int], images: Mapping[int, Image]) -> list[int]:
    """Where the data of a part may begin: where one of its images begins to hold something, less its distance; the greatest first, since what stands
    before the data, such as other volumes, comes earlier."""
    starts = {(images[image].first or 0) // ALIGNED * ALIGNED - distance for image, distance in part.items()}
    return sorted((start for start in starts if start >= 0), reverse=True)


def further(part: Mapping[int, int], main: Mapping[int, int], images: Mapping[int, Image], found: Distances, named: Starts) -> list[int]:
    """How much further the data of a part may begin than those of the main one, the likely numbers first: by weaker distances, by where images begin
    to hold something, by what a text names, or as far as those of one of its images do. Where no distances tell, weaker ones say nothing."""
    weaker = [main[it.one] + it.distance - part[it.other] for it in found.weaker if it.one in main and it.other in part]
    weaker += [main[it.other] - it.distance - part[it.one] for it in found.weaker if it.one in part and it.other in main]
    by_held = [one - other for other in held(main, images) for one in held(part, images)]
    by_text = [one - part[image] - (other - main[base]) for image, base in itertools.product(part, main)
               for one, other in itertools.product(named.get(image, ()), named.get(base, ()))]
    if not found.told:
        return list(dict.fromkeys([*by_text, *by_held]))[:MAX_PLACES]
    alike = [there - here for there in main.values() for here in part.values()]
    return list(dict.fromkeys([*weaker[:MAX_PLACES // 2], *by_held[:1], *by_text, *by_held, *alike]))[:MAX_PLACES]


def chosen(choices: Sequence[Sequence[int]], behind: int) -> Iterator[tuple[int, ...]]:
    """The ways to choose one of each, which stand together so many places behind the first ones."""
    if not choices:
        yield from [()] * (behind == 0)
        return
    for place in range(min(behind, len(choices[0]) - 1) + 1):
        for rest in chosen(choices[1:], behind - place):
            yield choices[0][place], *rest


def ways(images: Sequence[Image], found: Distances, named: Starts) -> list[tuple[int, ...]]:
    """How much further the data of each image may begin than those of the one where they begin first, the likely ways first; that all begin at the
    same sector left out."""
    by_number, (main, *others) = {image.number: image for image in images}, parts(images, found)
    choices = [further(part, main, by_number, found, named) for part in others]
    most = sum(len(it) - 1 for it in choices)
    made: dict[tuple[int, ...], None] = {}
    for places in itertools.islice((it for behind in range(most + 1) for it in chosen(choices, behind)), MAX_WAYS):
        begins = main | {image: place + distance for part, place in zip(others, places) for image, distance in part.items()}
        least = min(begins.values())
        made[tuple(begins[image.number] - least for image in images)] = None
    return [it for it in made if any(it)]


def beginnings(images: Sequence[Image], way: Sequence[int], begin: int, named: Starts, few: bool = False) -> list[int]:
    """Where the data of the image where they begin first may begin, the likely sectors first, none behind the first row that is tied: what a text
    names of most images, the place of that row, unless few are tied, where images begin to hold something, and where data usually begin."""
    texts = collections.Counter(start - further for image, further in zip(images, way) for start in set(named.get(image.number, ())))
    by_text = sorted(texts, key=lambda it: (-texts[it], -it))
    here = {image.number: further for image, further in zip(images, way)}
    usual = [first + (begin - first) // step * step for first, step in GRIDS]
    found = [*by_text[:1], *[begin // ALIGNED * ALIGNED] * (not few), *held(here, {image.number: image for image in images}), *usual]
    return [it for it in dict.fromkeys(found) if 0 <= it <= begin][:MAX_BEGINNINGS]


def tied(ties: Ties, images: Sequence[Image], way: Sequence[int], end: int) -> list[Known]:
    """What ties all of these images in some rows, where the data of each begin so much further."""
    last = min(end, *(image.sectors for image in images)) - max(way)
    told = ties.told([image.number for image in images], 0, last, way)
    return [it for it in told.known if len(it.group.images) == len(images) and it.group.level in (LEVEL_5, LEVEL_6)]


def begin_of(ties: Ties, numbers: Sequence[int], way: Sequence[int], known: Known) -> int:
    """The first row of a group behind the last one in which nothing is tied before a row with a tie of all images. What stands before the data
    may be tied by chance, as metadata are that are the same on two images."""
    begin = known.group.first if known.begin is None else known.begin
    first, last = begin, known.group.last
    for near in range(PASSES if known.group.parity else 0):
        found = ties.relations(numbers, first, last + 1, max(1, (last - first) // MAX_ROWS), way)
        told = behind_loose(found, frozenset(numbers), near > 0) if found else None
        if told is None:
            break
        first, begin = told
        last = begin
    return begin


def behind_loose(found: Relations, images: frozenset[int], near: bool) -> tuple[int, int] | None:
    """The last row in which something stands and nothing is tied, before the first row with a tie of all images, or `near` it before the last row;
    and the first that is tied behind it. None where there is no such row."""
    whole = (place for place, it in enumerate(found.rows) if images == image_groups.tied_images(it.ties))
    end = len(found.rows) if near else next(whole, 0)
    loose = [place for place, it in enumerate(found.rows[:end]) if not it.ties and it.zero != images]
    tied_row = next((it.first for it in found.rows[loose[-1] + 1:] if it.ties), None) if loose else None
    return None if tied_row is None else (found.rows[loose[-1]].last, tied_row)


def look(ties: Ties, images: Sequence[Image], found: Distances, end: int, named: Starts) -> list[Unlike]:
    """The offsets at which parity ties all of these images in most rows, by where the data may begin; or else, where the distances agree, those at
    which it ties them in some. None where none of those that come into question do so."""
    agreed = shifts.strongest(found.told, found.weaker) if shifts.agree(found.told, len(images)) else None
    perhaps: list[tuple[tuple[int, ...], Known]] = []
    until = time.monotonic() + ties.seconds / PART
    for way in ways(images, found, named):
        if time.monotonic() > until:
            break
        for known in tied(ties, images, way, end):
            if known.group.parity:
                return begun(ties, images, way, known, named)
            if agreed is not None and tuple(agreed[image.number] for image in images) == way:
                perhaps.append((way, known))
    return begun(ties, images, *perhaps[0], named) if perhaps else []


def begun(ties: Ties, images: Sequence[Image], way: Sequence[int], known: Known, named: Starts) -> list[Unlike]:
    """The offsets of images whose data begin so much further than those of another, by where these may begin."""
    begin = begin_of(ties, [image.number for image in images], way, known)
    return [Unlike(tuple(first + further for further in way), dataclasses.replace(known, begin=begin - first))
            for first in beginnings(images, way, begin, named, not known.group.parity)]


def guessed(images: Sequence[Image], found: Sequence[shifts.Shift]) -> tuple[int, ...]:
    """The offsets of the images by distances that agree, where parity does not tell; nothing where they do not, or say one number of all."""
    begins = shifts.potentials(found) or {}
    if len(begins) < len(images) or not any(begins.values()):
        return ()
    base = next(iter(held(begins, {image.number: image for image in images})), 0)
    return tuple(base + begins[image.number] for image in images)


def barely_tied(known: Iterable[Known]) -> bool:
    """Nothing but few rows tie the images of these groups, as of those of which some begin at the same sector and others do not."""
    return all(it.group.level in (LEVEL_5, LEVEL_6) and not it.group.parity for it in known)


def moved(ties: Ties, images: Sequence[Image], way: Sequence[int], end: int) -> list[Unlike]:
    """The offsets of images whose data are known to begin so much further than those of another, if parity ties all of them."""
    known = tied(ties, images, way, end)
    return begun(ties, images, way, known[0], {}) if known else []


def silent(images: Sequence[Image], way: Sequence[int]) -> list[tuple[int, ...]]:
    """The offsets of such images if parity tells nothing: where they begin to hold something, and where data of partitions usually begin."""
    here = {image.number: further for image, further in zip(images, way)}
    firsts = [*held(here, {image.number: image for image in images}), *USUAL_BEGINNINGS]
    shortest = min(image.sectors - further for image, further in zip(images, way))
    return [tuple(first + further for further in way) for first in dict.fromkeys(firsts) if first < shortest][:MAX_BEGINNINGS]
