"""Candidates: sets that passed, and what is known of each."""

import dataclasses
from collections.abc import Sequence
from typing import Optional

from ..calls.formats import Held
from ..calls.plans import Plan
from ..calls.sets import Word
from ..policy.scope import Scope
from ..policy.steps import Step
from .verdicts import Score, Verdict

# A set of which more than one in so many filled rows is unsound is doubtful.
MAX_UNSOUND = 2
# Why a set has no rating that marks speak against.
AGAINST = "some landmarks contradict it, and no file that was found is intact"
# What is said where a volume at level 0 ends too soon and its images differ in length.
UNEQUAL = "the images differ in length, and RAID 0 that continues on only the longer disks is not searched"
# So many sets of one volume are said in words.
MAX_ALIKE = 3


@dataclasses.dataclass(frozen=True)
class Inside:
    """A volume is that of another class without its first rows of chunks."""

    number: int
    rows: int


@dataclasses.dataclass
class Candidate:
    """A set that passed a step of a scope. `word` is the simplest set of its volume; `listed` that which was listed, by the images of the scope, None
    for RAID 10 by its copies. `alike` has the other sets of its class, `groups` what `check` says of each group, `unsound` how many rows are
    unsound, None where that was not asked; `doubted` says that as much speaks against it for another reason, `left_most` that a group with most of
    the marks was left out, and does not hold, `rivalled` how another candidate contradicts it that has more for itself. `rows` says in which rows
    parity holds, `old` which images in no slot belong to it and are old or damaged, `same` and `inside` which other candidates have its volume,
    `whole` is the candidate with the images that are left out of it for their bad rows. `unsettled` says which other set contradicts it with as much
    for itself. Candidates whose volumes were compared byte by byte, and hold the same, have one number in `volume`. `since` is after how many seconds
    of the run a checker was content with it."""

    word: Word
    rank: int
    step: Step
    scope: Scope
    listed: Word | None = None
    alike: list[str] = dataclasses.field(default_factory=list)
    groups: tuple[Held, ...] = ()
    unsound: int | None = None
    doubted: bool = False
    left_most: bool = False
    rivalled: str = ""
    verdict: Verdict | None = None
    rows: str = ""
    old: tuple[str, ...] = ()
    same: int | None = None
    inside: Inside | None = None
    whole: Optional["Candidate"] = None
    unsettled: str = ""
    volume: int | None = None
    since: int | None = None

    @property
    def found(self) -> Verdict:
        """What was found in its volume; nothing, where that was not looked at."""
        return self.verdict or Verdict()

    @property
    def score(self) -> Score:
        """How much speaks for its volume."""
        score = Score(self.found.score - 1) if self.lessened else self.found.score
        if self.unsettled:
            score = min(score, Score.CHECKED)
        return min(score, Score.KNOWN) if self.rivalled or self.spoken_against else score

    @property
    def end(self) -> int | None:
        """Where its members end, where that is another place than the end of the shortest image and its volume depends on it; None else."""
        copied = self.step.copied
        return copied.end if copied and self.word.needs_end else None

    @property
    def lessened(self) -> bool:
        """There is one plus less: a group with most of the marks was left out. One plus is left where files tell the order of the chunks."""
        return self.left_most and self.found.score >= Score.CHECKED and not self.found.in_order

    @property
    def spoken_against(self) -> bool:
        """Marks speak against it, and no file that was found in its volume is whole."""
        return self.found.files.found > 0 and not self.found.files.whole and any(group.misfits for group in self.groups)

    @property
    def doubts(self) -> list[str]:
        """Why it has no rating, or one less."""
        kept = self.left_most and self.found.in_order
        left = ["a landmark group with most landmarks was left out"] * (self.left_most and not kept)
        against = [AGAINST] * (self.spoken_against and self.found.score >= Score.CHECKED)
        others = list(filter(None, (self.rivalled, self.unsettled)))
        return self.found.doubts + self.found.less + [UNEQUAL] * self.unequal + left + against + others

    @property
    def unequal(self) -> bool:
        """At level 0 a file system is longer than the volume, and the images differ in length: the longer ones may go on in rows of fewer disks."""
        if self.word.level != "0" or not self.found.doubts or not any(finding.too_long for finding in self.found.findings):
            return False
        return len({image.sectors for image in self.scope.evidence.images}) > 1

    @property
    def alike_said(self) -> str:
        """The sets that its volume does not tell from it; nothing where there are none."""
        more = f" and {len(self.alike) - MAX_ALIKE} more" if len(self.alike) > MAX_ALIKE else ""
        return f"same volume, cannot be told apart: {' '.join(self.alike[:MAX_ALIKE])}{more}" if self.alike else ""

    @property
    def mostly_unsound(self) -> bool:
        """Most of the filled rows are unsound, as far as was asked."""
        return MAX_UNSOUND * (self.unsound or 0) > self.scope.evidence.filled

    @property
    def doubtful(self) -> bool:
        """More marks of some group speak against it than for it, or most rows do."""
        return self.doubted or self.mostly_unsound or any(group.doubtful for group in self.groups)

    @property
    def origins(self) -> list[int]:
        """Where its groups of file systems begin, in sectors of the volume."""
        return [group.origin for group in self.groups if group.origin is not None and group.kind != "gpt"]

    @property
    def order(self) -> tuple[int, int, int]:
        """What it is tested by: how much was relaxed, the step, the rank."""
        return len(self.step.relaxations), self.step.number, self.rank

    @property
    def fits(self) -> int:
        """How many more marks fit than do not."""
        return sum(group.fits - group.misfits for group in self.groups)

    @property
    def place(self) -> tuple[int, int, tuple[int, str, int], tuple[int, int, int]]:
        """What it is printed by: the rating, how many more marks fit than do not, the members, and the order of tests."""
        return -max(self.score, Score.KNOWN), -self.fits, self.word.simplicity, self.order


def left_most(step: Step, plan: Plan, groups: Sequence[Held]) -> bool:
    """The groups that a step left out of a plan, and that do not hold either, have most of its marks. `groups` has what `check` says of each."""
    left = 0
    for group, held in zip(plan.groups, groups):
        if group.place in step.out and (held.origin is None or held.doubtful):
            left += len(group.marks)
    return 2 * left > len(plan.marks())
