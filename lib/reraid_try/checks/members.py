"""The images that a command over a set names. Its members end at the shortest of these, also where that one is in no slot."""

import dataclasses
from collections.abc import Sequence

from ..calls.sets import Word
from ..evidence import maps
from ..evidence.images import Image
from ..evidence.maps import Map


@dataclasses.dataclass(frozen=True)
class Members:
    """A set with the images that are named for it, in order: `word` has their numbers among these."""

    word: Word
    images: tuple[Image, ...]

    @property
    def names(self) -> tuple[str, ...]:
        """The files that are read."""
        return tuple(image.name for image in self.images)

    @property
    def end(self) -> int:
        """The sectors of the shortest."""
        return min(image.sectors for image in self.images)

    @property
    def maps(self) -> str | None:
        """Their maps, as `salvage` reads them; None where there are none."""
        return maps.maps_text([unread_of(self.word, image) for image in self.images])


def unread_of(word: Word, image: Image) -> Map | None:
    """Return the map that counts for an image of a set. A map that nobody gave counts only if parity of the set can find what is unread."""
    return image.unread if word.spare > 0 else image.map


def named(word: Word, images: Sequence[Image]) -> Members:
    """What is named for a set of some images: all of them, so that the set is the one of the table; where one in no slot is shorter than those in
    slots, these alone, so that nothing of the volume is cut off. How far apart far copies lie comes from where all of the images end."""
    within = [image for image in images if image.number in word.images]
    every = Members(word, tuple(images))
    if not within or word.needs_end or every.end == min(image.sectors for image in within):
        return every
    return Members(word.over([image.number for image in within]), tuple(within))
