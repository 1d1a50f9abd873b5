"""Texts that stand in an image in place of what an imaging program could not read, where no map says so. A volume may hold such texts too. Parity
tells them apart if fewer disks are lost than the level bears: it holds in the rows beside such a text and fails in it. Ordinary contents that repeat
are tied by chance, so only parity of all images of a group counts."""

import collections
import dataclasses
import enum
import itertools
import shlex
from collections.abc import Iterable, Sequence
from typing import Any

from ..errors import OutsideError, said
from ..units import SECTOR, counted
from . import image_groups, reading, texts
from .image_groups import LEVEL_5, LEVEL_6, ImageGroup
from .images import Image
from .relations import Relations, Rows
from .texts import Held
from .ties import Ties, Told, step_of

# A text of which parity tells nothing counts where it fills so many sectors. Ties are asked in so many places of a text, and so many rows of each;
# of so many of these places one may speak against it.
MIN_UNTOLD, MAX_PLACES, MAX_ROWS, FEW_STORED = 8, 8, 16, 10
# Parity tells of so many images at least. An old disk breaks parity in many rows: in so many rows more, and in so many times as many, as texts do.
MIN_TELLING, FEW_LOOSE, MAX_LOOSE = 3, 4, 2
# The most characters of a map that is printed.
MAX_TYPED = 1000


class Why(enum.Enum):
    """What ties say of a text: that parity does not go over it though it holds beside it; that it does; nothing."""

    UNREAD = "unread"
    STORED = "stored"
    UNTOLD = "untold"


def telling(told: Told) -> list[ImageGroup]:
    """Return the groups whose parity tells whether a sector is right: fewer disks are lost than the level bears."""
    return [it.group for it in told.known if it.group.level in (LEVEL_5, LEVEL_6) and it.group.parity and len(it.group.current) >= MIN_TELLING]


def group_of(found: Iterable[ImageGroup], image: int) -> ImageGroup | None:
    """Return the group of one image; None if parity tells nothing of it."""
    return next((it for it in found if image in it.current), None)


def holds(rows: Rows, images: frozenset[int]) -> bool:
    """Parity ties all of these images that are not zeros in some rows."""
    return images - rows.zero <= image_groups.tied_images(rows.ties)


def holds_beside(found: Relations | None, group: ImageGroup) -> bool:
    """Parity holds on one side of a run of sectors at least: on the other one sectors of another image may be unread. Rows of zeros alone count
    within the array."""
    images = frozenset(group.current)
    return any(holds(it, images) and (not images <= it.zero or group.first <= it.first <= group.last) for it in (found.rows if found else ()))


def in_run(found: Relations | None, images: frozenset[int]) -> Why:
    """Return what the rows of a run say if parity holds beside it: whether it holds in most of them."""
    loose = total = 0
    for rows in found.rows if found else ():
        count = rows.count(found.step if found else 1)
        total += count
        loose += 0 if holds(rows, images) else count
    return Why.UNTOLD if total == 0 else Why.UNREAD if 2 * loose > total else Why.STORED


def of_run(ties: Ties, group: ImageGroup, run: tuple[int, int], end: int) -> Why:
    """Return what parity of a group says of a run of sectors, by its rows, and by those right before and behind it, of images of so many
    sectors."""
    first, stop = run
    beside = range(first - 1 if first else stop, min(stop + 1, end), stop - first + 1)
    if stop > end or not beside:
        return Why.UNTOLD
    told = in_run(ties.relations(group.current, first, stop, -(-(stop - first) // MAX_ROWS)), frozenset(group.current))
    if told is not Why.UNREAD:
        return told
    return told if holds_beside(ties.relations(group.current, beside.start, beside.stop, beside.step), group) else Why.UNTOLD


def asked(ties: Ties, images: Sequence[Image], found: Iterable[ImageGroup], image: int, it: Held) -> Why:
    """Return what parity says of a text of an image, by some of the places where it stands."""
    group = group_of(found, image)
    if group is None:
        return Why.UNTOLD
    end, step = min(other.sectors for other in images if other.number in group.current), -(-len(it.runs) // MAX_PLACES)
    told = [of_run(ties, group, run, end) for run in it.runs[::step]]
    if told.count(Why.UNREAD) > FEW_STORED * told.count(Why.STORED):
        return Why.UNREAD
    return Why.STORED if Why.STORED in told else Why.UNTOLD


@dataclasses.dataclass(frozen=True)
class Fill:
    """A text in an image, what ties say of it, and in how many of its sectors it was looked for."""

    image: Image
    held: Held
    why: Why
    looked_at: int

    @property
    def counts(self) -> bool:
        """Its sectors count as unread."""
        return self.why is Why.UNREAD and self.image.map is None

    def line(self) -> str:
        """Return it as one line of text."""
        it, (first, last) = self.held, (self.held.runs[0][0], self.held.runs[-1][1] - 1)
        places = f"from sector {first} to {last}" + (f", in {counted(len(it.runs), 'place')}" if len(it.runs) > 1 else "")
        numbers = ", with a running number," if it.varies else ""
        seen = (f"image {self.image.number} {self.image.called} holds {it.text.quoted()}{numbers} in {it.sectors} of the {self.looked_at} sectors "
                f"read, {places}")
        if self.why is Why.UNREAD:
            told = ". So these sectors count as unread, as if a mapfile listed them" if self.counts else ""
            return (f"{seen}. Parity is consistent beside these sectors, and not in them. Probably an imaging program wrote the text in place of "
                    f"what it could not read{told}")
        return (f"{seen}. Either an imaging program wrote it in place of what it could not read, or it is stored data. Parity does not tell, so "
                f"these sectors count as read. If an imaging program wrote it, {self.remedy()}")

    @property
    def map_text(self) -> str:
        """The map of the image in which just these sectors were not read."""
        return self.held.gaps(self.image.sectors).text

    def remedy(self) -> str:
        """Return how to make a map that calls these sectors unread."""
        target, text = shlex.quote(self.image.called + ".map"), self.map_text.replace("\n", "\\n")
        if len(text) <= MAX_TYPED:
            return f"write a mapfile and run again:\n    printf '{text}' > {target}"
        return f"save the mapfile that --json prints in the event fill as {target}, and run again"

    def fields(self) -> dict[str, Any]:
        """What programs are told of it, with the map of the image by which its sectors count as unread, or would."""
        runs = [[first, stop - first] for first, stop in self.held.runs]
        return {"image": self.image.number, "holds": self.held.text.quoted(), "sectors": self.held.sectors, "of": self.looked_at, "runs": runs,
                "why": self.why.value, "map": self.map_text if self.counts or self.why is Why.UNTOLD else None}


def is_told(it: Fill, alike: int, images: int) -> bool:
    """It is worth a line: parity does not go over the text; or nothing is known of one for people, which stands there over and over or counts on, and
    in fewer images than not."""
    long = it.held.sectors >= MIN_UNTOLD and (it.held.text.again or it.held.varies)
    return it.why is Why.UNREAD or it.why is Why.UNTOLD and long and it.held.text.has_words and 2 * alike < images


def of_image(ties: Ties, images: Sequence[Image], found: Sequence[ImageGroup], image: Image, length: int) -> list[Fill]:
    """The texts in so many first bytes of one of these images, where its map calls nothing unread, but for those that parity goes over."""
    gaps = image.map.gaps(length // SECTOR) if image.map else []
    try:
        with open(image.name, "rb") as file:
            whys = {it.text.like: asked(ties, images, found, image.number, it) for it in texts.seen(file, length).sorted(gaps)}
            wanted = [it for it, why in whys.items() if why is Why.UNREAD or why is Why.UNTOLD and it.has_words]
            all_of = texts.all_like(file, length, wanted).sorted(gaps)
    except OSError as error:
        raise OutsideError(f"image {image.number} {image.called} cannot be read: {said(error)}") from error
    return [Fill(image, it, whys[it.text.like], length // SECTOR) for it in all_of]


def explained(found: Sequence[Fill], group: ImageGroup, step: int) -> bool:
    """Texts are where most rows are in which parity of a group fails, of rows that lie so many sectors apart. Else a disk is old, and parity
    that fails says nothing of a text."""
    rows = sum(it.held.sectors for it in found if it.why is Why.UNREAD and it.image.number in group.current) // step
    return group.loose <= FEW_LOOSE + MAX_LOOSE * rows


def told(ties: Ties, images: Sequence[Image], first_bytes: int) -> list[Fill]:
    """The texts in images that are told of, by what is read of each. An image that is the same as another one is not looked at."""
    there = [image for image in images if image.first is not None and image.like is None]
    end = min((image.sectors for image in there), default=0)
    known = telling(ties.told([image.number for image in there], 0, end))

    def of(place: int) -> list[Fill]:
        return of_image(ties, there, known, there[place], min(there[place].sectors, first_bytes // SECTOR) * SECTOR)
    try:
        found = list(itertools.chain.from_iterable(reading.by_disk([image.name for image in there], of)))
    except OSError as error:
        raise OutsideError(f"an image cannot be read: {said(error)}") from error
    for group in known:
        if not explained(found, group, step_of(0, end)):
            found = [dataclasses.replace(it, why=Why.UNTOLD) if it.image.number in group.current else it for it in found]
    alike = collections.Counter(it.held.text.like for it in found)
    return [it for it in found if is_told(it, alike[it.held.text.like], len(there))]


def counted_unread(images: Sequence[Image], found: Iterable[Fill]) -> tuple[Image, ...]:
    """The images, each with the map of the texts in it that count as unread."""
    unread: dict[int, Held] = {}
    for it in (it for it in found if it.counts):
        unread[it.image.number] = it.held.joined(unread[it.image.number]) if it.image.number in unread else it.held
    return tuple(dataclasses.replace(image, fill=unread[image.number].gaps(image.sectors)) if image.number in unread else image for image in images)
