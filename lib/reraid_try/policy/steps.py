"""Steps: a shape, with what is relaxed for it, and what is asked for then."""

import dataclasses

from ..calls.program import Copied
from ..calls.surveys import Request
from .relaxations import Relaxation, RelaxationKind
from .shapes import Shape


def names_of(relaxations: tuple[Relaxation, ...]) -> str:
    """Return the names of relaxations as one text."""
    return " and ".join(relaxation.name for relaxation in relaxations)


@dataclasses.dataclass(frozen=True)
class Step:
    """A listing: what is searched, what is relaxed, and what is asked for; of RAID 10 by its copies no request, but what is asked of these."""

    shape: Shape
    relaxations: tuple[Relaxation, ...] = ()
    request: Request | None = None
    number: int = 0
    copied: Copied | None = None

    @property
    def relaxed(self) -> list[str]:
        """The names of what is relaxed."""
        return [relaxation.name for relaxation in self.relaxations]

    @property
    def has_bad_rows(self) -> bool:
        """Rows may be unsound."""
        return self.request is not None and self.request.number("badrows") > 0

    @property
    def lenient(self) -> bool:
        """Marks may lie where they should not, or rows be unsound."""
        return self.has_bad_rows or self.request is not None and self.request.number("misfits") > 0

    @property
    def is_bare(self) -> bool:
        """All groups of landmarks are left out."""
        return any(relaxation.relaxes is RelaxationKind.BARE for relaxation in self.relaxations)

    @property
    def out(self) -> frozenset[int]:
        """The groups that are left out."""
        return frozenset().union(*(relaxation.out for relaxation in self.relaxations))

    def line(self) -> str:
        """Return it as one line of text."""
        copies = f", {self.copied.line()}" if self.copied else ""
        return f"{self.shape.line()}{copies}; relaxed: {names_of(self.relaxations) or 'nothing'}"
