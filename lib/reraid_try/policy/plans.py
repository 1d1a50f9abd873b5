"""What is asked for: the requests of a shape, and what may be relaxed for it. Nothing is asked of the program here."""

from ..calls.sets import LEVELS
from ..calls.surveys import Request
from ..evidence import hints
from ..evidence.gathered import Evidence
from ..evidence.images import unread_by
from ..options import Options
from ..units import listed
from . import relaxations
from .relaxations import Asked, Relaxation, RelaxationKind
from .shapes import Shape, Shapes

# An offset with less than this part of the filled sectors behind it is tried last.
FEW_FILLED = 16
# How many rows may be bad at least, where that is relaxed, and of so many of the filled rows one at most.
MIN_BAD, MAX_BAD = 128, 4
# Of so many rows of the window one may be bad at most, where no hint speaks for a shape.
FEW_BAD = 64
# So many rows are tested alone, none of them bad, where maps tell of bad ones.
FIRST_ROWS = 65536
# So many offsets of the hints are tried with more offsets.
MAX_OFFSETS = 24
# How far apart the offsets of images are that differ, in sectors, and out of how many offsets of the hints.
APART, MAX_UNLIKE = 2048, 2


class Asking:
    """What is asked for of each shape of an evidence."""

    def __init__(self, evidence: Evidence, options: Options) -> None:
        self.evidence = evidence
        self.shapes = Shapes(evidence, options)

    def has_weight(self, offset: int) -> bool:
        """Enough is filled from this offset on for it to be tried before all others are."""
        return FEW_FILLED * self.evidence.filling.behind(offset) >= self.evidence.filled and self.tells(offset)

    def tells(self, offset: int) -> bool:
        """Of the filled sectors from this offset on, so few are unread that parity tells something there."""
        unread = self.evidence.unread
        return not unread or self.evidence.filling.behind(offset) > 2 * unread

    def request(self, shape: Shape, every: bool = False) -> Request:
        """What is asked for with nothing relaxed, but for the rows that maps call unread; with those offsets too behind which little is filled,
        where every one is asked for and landmarks rule sets out: parity of zeros allows any."""
        tried = self.evidence.tried
        offsets = [offset for offset in tried if (self.tells(offset) if every and self.evidence.plan.groups else self.has_weight(offset))]
        values: dict[str, str | int] = {"levels": shape.levels, "members": shape.members, "offsets": listed(offsets or tried)}
        values |= {"missing": shape.missing} if shape.missing else {}
        values |= {"foreign": shape.foreign} if shape.foreign else {}
        values |= {"badrows": self.evidence.unread} if shape.parity and self.evidence.unread else {}
        return self.evidence.base.having(**values)

    def first_rows(self, shape: Shape) -> Request:
        """What is asked for of the first rows alone, none of them bad."""
        return self.request(shape).having(window=min(FIRST_ROWS, self.evidence.window), badrows=0)

    def bare(self, shape: Shape) -> Request:
        """What is asked for with all groups left out."""
        return relaxations.bare(self.evidence.plan).of(self.request(shape))

    def most_bad(self, shape: Shape) -> int:
        """How many rows may be bad at most, where that is relaxed: a fourth of the filled ones where hints speak for the shape, since landmarks
        leave few sets then to be asked for so many rows, and else fewer."""
        filled = self.evidence.filled
        few = min(self.evidence.window // FEW_BAD, filled // FEW_FILLED)
        return self.evidence.bad + max(MIN_BAD, filled // MAX_BAD if self.shapes.speak_for(shape) else few)

    def unread_relaxation(self, shape: Shape, request: Request | None) -> tuple[Relaxation, ...]:
        """What is relaxed by the rows that maps call unread; nothing where the request has none of them, or more."""
        unread = self.evidence.unread
        asked = shape.parity and request.number("badrows") == unread if request else shape.levels == "10"
        told = f"badrows {unread} from {unread_by(self.evidence.images)}"
        return (relaxations.told(told, RelaxationKind.UNREAD),) if unread and asked else ()

    def relaxations(self, shape: Shape, every: bool = False, quick: bool = False) -> list[Relaxation]:
        """What may be relaxed for a shape, in order; where not every one is asked for, without what is mostly wrong. Quick ones have nothing
        relaxed that makes a listing long, nor, where no hint speaks for them, rows that may be bad where a member is missing or an image foreign,
        of which parity tells late."""
        evidence, rows = self.evidence, self.most_bad(shape)
        late = bool(shape.missing or shape.foreign) and not self.shapes.speak_for(shape)
        more = [*evidence.offset_values[:MAX_OFFSETS], *(evidence.start + it for it in hints.MORE_OFFSETS)]
        offsets = [it for it in more if it < evidence.end and (every or self.has_weight(it))]
        unlike = [it for it in self.unlike_offsets() if every or all(map(self.has_weight, it))]
        telling = [it for it in evidence.tried if evidence.filling.behind(it) >= 2 * rows]
        asked = Asked(rows, telling, unlike, offsets, every, bool(shape.foreign))
        kinds = {group.kind for group in evidence.plan.groups}

        def stands(relaxation: Relaxation) -> bool:
            """The relaxation makes sense for the shape and these landmarks, and is asked for now."""
            tells = shape.parity or relaxation.relaxes not in (RelaxationKind.WINDOW, RelaxationKind.BAD_ROWS)
            tells = tells and (relaxation.relaxes is not RelaxationKind.DELAYS or any(LEVELS[level].parity for level in shape.levels.split(",")))
            seen = (kinds or relaxation.relaxes is not RelaxationKind.ORIGINS) and (relaxation.kind is None or relaxation.kind in kinds)
            hasty = quick and (relaxation.slow or late and relaxation.relaxes is RelaxationKind.BAD_ROWS)
            return bool(tells and seen and not hasty and not (shape.foreign and relaxation.slow))
        return list(filter(stands, relaxations.in_order(evidence.plan, asked)))

    def unlike_offsets(self) -> list[list[int]]:
        """Offsets of which each image may have another one: the first two of the hints, and the first with one a usual distance away. None over some
        of the images, since a set with an offset for each has to name all."""
        if any(image.number != place for place, image in enumerate(self.evidence.images)):
            return []
        values = self.evidence.offset_values[:MAX_UNLIKE]
        found = [sorted(values)] if len(values) == MAX_UNLIKE else []
        for first in values[:1]:
            found += [[first, first + APART]] + ([[first - APART, first]] if first >= APART + self.evidence.start else [])
        return [it for k, it in enumerate(found) if it not in found[:k] and max(it) < self.evidence.end]
