"""Shapes: which levels and how many members are searched, in which order. The evidence says what comes first."""

import dataclasses
from collections.abc import Sequence

from ..calls.sets import LEVELS
from ..evidence.gathered import Evidence
from ..options import Options
from ..units import MAX_IMAGES


@dataclasses.dataclass(frozen=True)
class Shape:
    """Which members are searched: the levels, with commas between, how many members, how many of them are missing, how many images are foreign."""

    levels: str
    members: int
    missing: int = 0
    foreign: int = 0

    def line(self) -> str:
        """Return it as one line of text."""
        said = [f"RAID {self.levels.replace(',', ' or ')} of {self.members} disks"]
        said += [f"{self.missing} missing"] if self.missing else []
        said += [f"{self.foreign} {'image' if self.foreign == 1 else 'images'} left out"] if self.foreign else []
        return ", ".join(said)

    @property
    def telling(self) -> str:
        """The levels at which parity tells something."""
        return ",".join(level for level in self.levels.split(",") if level in LEVELS and self.missing < LEVELS[level].parity)

    @property
    def parity(self) -> bool:
        """Parity tells something at one of the levels."""
        return bool(self.telling)


@dataclasses.dataclass(frozen=True)
class Tiers:
    """What is searched, in three parts: by the hints of level and data disks, what parity tells of, the rest."""

    hinted: tuple[Shape, ...] = ()
    told: tuple[Shape, ...] = ()
    rest: tuple[Shape, ...] = ()

    @property
    def all(self) -> tuple[Shape, ...]:
        """All that is searched, in order."""
        return self.hinted + self.told + self.rest


class Shapes:
    """The shapes of an evidence that the options ask for."""

    def __init__(self, evidence: Evidence, options: Options) -> None:
        self.evidence, self.options = evidence, options
        self.count = len(evidence.images)

    def data_told(self, alone: bool = False) -> list[int]:
        """The numbers of data disks that hints say: those that file systems on several images say, or else those of a file system on one image alone,
        which may be foreign."""
        most = max((hint.shown for hint in self.evidence.data), default=0)
        return [hint.value for hint in self.evidence.data if (hint.shown == 1 < most) == alone]

    def hinted(self, alone: bool = False) -> list[Shape]:
        """What the hints say: the number of data disks with each level, those levels first that are hints themselves; or what one image alone
        says."""
        found = []
        levels = [str(hint.value) for hint in self.evidence.levels]
        for level in levels + [it for it in ("5", "6", "0") if it not in levels]:
            for data in self.data_told(alone):
                lost = LEVELS[level].parity
                members = data + lost
                if 0 <= members - self.count <= lost:
                    found.append(Shape(level, members, members - self.count))
                elif self.count - 2 <= members < self.count:
                    found.append(Shape(level, members, 0, self.count - members))
        return found

    def exact(self) -> list[Shape]:
        """The levels with parity at which the images are as many as the data disks of a hint need."""
        return [shape for shape in self.hinted() if shape.parity and not shape.missing and not shape.foreign]

    def speak_for(self, shape: Shape) -> bool:
        """Hints say so many members, all of which are images or missing, at levels at which parity tells something."""
        return shape.parity and not shape.foreign and shape in self.hinted()

    def tiers(self) -> Tiers:
        """What is searched, in order."""
        count, hinted = self.count, self.hinted()
        if self.evidence.pairs:
            # What is asked for is level 10, and so many members of that.
            return Tiers((Shape("0", count),))
        level = str(self.evidence.levels[0].value) if self.evidence.levels else ""
        first = [shape for shape in hinted if not shape.foreign and shape.levels == level]
        levels = ",".join(it for it in ("5", "6") if Shape(it, count) not in first)
        second = [*self.exact(), Shape(levels, count), *(shape for shape in hinted if shape.parity)]
        second += [Shape("6", count + 1, 1), Shape("5,6", count - 1, 0, 1)]
        third = [Shape("0", count), Shape("5", count + 1, 1), *(shape for shape in hinted if not shape.foreign)]
        third += [Shape("6", count + 2, 2), Shape("0", count - 1, 0, 1), Shape("5", count, 1, 1)]
        third += [Shape("6", count, 2, 1), *hinted, *self.hinted(True)]
        one = self.new(first, ())
        two = self.new(second, one)
        return Tiers(one, two, self.new(third, one + two))

    def new(self, shapes: Sequence[Shape], before: tuple[Shape, ...]) -> tuple[Shape, ...]:
        """Of these shapes those that are asked for and came not before, each once."""
        kept = [it for it in map(self.allowed, shapes) if it]
        return tuple(it for it in dict.fromkeys(kept) if it not in before)

    def allowed(self, shape: Shape) -> Shape | None:
        """The shape with the levels alone that are asked for; None where it makes no sense."""
        levels = [level for level in filter(None, shape.levels.split(",")) if self.options.wants(level) and shape.members >= LEVELS[level].least]
        if not levels or (self.options.members and shape.members not in self.options.members) or shape.members > MAX_IMAGES:
            return None
        return dataclasses.replace(shape, levels=",".join(levels))
