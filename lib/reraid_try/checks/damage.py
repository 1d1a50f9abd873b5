"""Damage that no map tells of: the images that make the rows of a set unsound, and the set without them."""

import dataclasses
from collections.abc import Mapping, Sequence

from ..calls.sets import simplest
from ..policy import relaxations
from ..policy.relaxations import RelaxationKind
from .candidates import Candidate
from .joints import duel
from .verdicts import Score

# So many sets of a step are looked at without images, those with the fewest unsound rows.
MAX_SETS = 3
# With so many images to spare parity tells which are bad.
TELLING = 2


def doubted(tested: Sequence[Candidate], mapped: bool) -> list[Candidate]:
    """The candidates of a step that have unsound rows, but not most, and can lose an image: those that are whole, where one is; none then where maps
    say what could not be read."""
    found = [it for it in tested if it.unsound and not it.mostly_unsound and it.listed and len(it.word.offsets) == 1 and it.word.spare > 0]
    if any(it.score is Score.WHOLE for it in tested):
        found = [it for it in found if it.score is Score.WHOLE and not mapped]
    return sorted(found, key=lambda it: (it.unsound or 0, it.order))[:MAX_SETS]


def blamed(candidate: Candidate, counts: Mapping[int, int]) -> list[int]:
    """The images without which fewer rows are unsound, that with the most first: `counts` has the unsound rows without each image, by its place in
    the scope."""
    return sorted((image for image, count in counts.items() if count < (candidate.unsound or 0)), key=lambda image: counts[image])


def is_sounder(candidate: Candidate, whole: Candidate) -> bool:
    """A set with unsound rows has none without an image, though parity still tells, and as much speaks for its volume then: what that image has is
    wrong in these rows."""
    return bool(whole.unsound) and candidate.unsound == 0 and candidate.word.spare > 0 and candidate.found.score >= whole.found.score


def is_better(candidate: Candidate, whole: Candidate) -> bool:
    """More speaks for a set without an image than with it: its volume, its parity, or the files that both have."""
    by_files = duel(whole.found.joints, candidate.found.joints).second_wins
    return candidate.found.gain > whole.found.gain or is_sounder(candidate, whole) or by_files and candidate.found.score >= whole.found.score


def lesser(candidate: Candidate, images: frozenset[int]) -> Candidate:
    """A candidate without these images, by their places in its scope."""
    listed, step, scope = (candidate.listed or candidate.word).without(images), candidate.step, candidate.scope
    name = f"without {' and '.join(f'image {number}' for number in sorted(scope.evidence.images[image].number for image in images))}"
    shape = dataclasses.replace(step.shape, missing=listed.lost)
    step = dataclasses.replace(step, shape=shape, relaxations=(*step.relaxations, relaxations.told(name, RelaxationKind.LEFT_OUT)))
    return Candidate(simplest(scope.word(listed.text)), candidate.rank, step, scope, listed=listed, whole=candidate)
