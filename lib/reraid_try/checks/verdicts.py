"""What was found in a volume, and how much that says."""

import dataclasses
import enum
from collections.abc import Sequence

from ..units import SECTOR, counted, percent
from .joints import Joints
from .lvm import Physical, Piece
from .systems import System, system_of
from .wholes import Wholes

# A file system that covers less than this part of its volume says little of it, and one that covers more than this part says much.
LITTLE, MUCH = 4, 2
# Of so many files some is whole in the right volume, and one in so many may be broken where all is intact.
MANY_FILES, FEW_BROKEN = 8, 10


class Score(enum.IntEnum):
    """How much speaks for a volume: nothing, or something against it; something known, of which no checker was asked, or too little; a checker that
    is content; and besides that a long whole file, or the sums of all data."""

    NOTHING = 0
    KNOWN = 1
    CHECKED = 2
    WHOLE = 3

    @property
    def rating(self) -> str:
        """What stands for it in the table."""
        return "+" * max(0, self - 1)


@dataclasses.dataclass
class Finding:
    """A region that holds something: what it is called, its type, and what its checker said. `clean` is None where none was asked. `pieces` are
    where it lies, as far as it says that it is long; `lacks` how many of its bytes lie behind the end of the volume, as zeros are put there; `told`
    and `there` how many bytes it says that it has, 0 where that is not told, and how many of the volume there are for it; `table` says that it is a
    partition table. `device` is what a logical volume is once its group is active. Of a physical volume `own` is its identifier, `beside` and `apart`
    are the others on which volumes of its group lie: those that images have in one piece, and the identifiers of those that none has; `thin` has the
    thin volumes of its group, which are not looked at."""

    region: str
    kind: str
    clean: bool | None = None
    said: str = ""
    pieces: tuple[Piece, ...] = ()
    lacks: int = 0
    told: int = 0
    there: int = 0
    table: bool = False
    device: str = ""
    own: str = ""
    beside: tuple[Physical, ...] = ()
    apart: tuple[str, ...] = ()
    thin: tuple[str, ...] = ()

    @property
    def place(self) -> Piece | None:
        """Where it lies, where it is in one piece."""
        return self.pieces[0] if len(self.pieces) == 1 else None

    @property
    def system(self) -> System:
        """The row of its kind."""
        return system_of(self.kind)

    @property
    def is_outer(self) -> bool:
        """It is but what file systems lie in."""
        return self.table or self.system.holds

    @property
    def summed(self) -> bool:
        """All its data are right by their sums."""
        return self.system.sums and bool(self.clean)

    @property
    def too_long(self) -> str:
        """That it says itself that it is longer than the volume; nothing where it is not, or where its checker is content with zeros at its end."""
        if self.told <= self.there or self.lacks and self.clean:
            return ""
        return f"{self.kind} states {counted(self.told // SECTOR, 'sector')}, but only {self.there // SECTOR} are there"

    def text(self) -> str:
        """Return it as one line of text."""
        where = f"{self.region} " if self.region else ""
        return f"{where}{self.kind}" + (f": {self.said}" if self.said else "")


def covered(pieces: Sequence[Piece], length: int) -> int:
    """How many bytes of a volume lie in these pieces, of which some may lie in other files."""
    total, after = 0, 0
    for piece in sorted((it for it in pieces if not it.path), key=lambda it: it.first):
        first, last = max(piece.first, after), min(piece.first + piece.length, length)
        total, after = total + max(0, last - first), max(after, last)
    return total


@dataclasses.dataclass
class Verdict:
    """What was found in a volume of so many bytes: regions, files, the bytes of a chunk and of a row of chunks, and what else is said of it. `empty`
    says that nothing lies in what was found, `counted` that files were looked for, `lacked_room` that something was not looked at for want of
    room. `joints` is what long files say of the order of the chunks, if they were asked."""

    findings: list[Finding] = dataclasses.field(default_factory=list)
    files: Wholes = dataclasses.field(default_factory=Wholes)
    notes: list[str] = dataclasses.field(default_factory=list)
    length: int = 0
    chunk: int = 0
    row: int = 0
    empty: bool = False
    counted: bool = True
    lacked_room: bool = False
    joints: Joints | None = None

    @property
    def inner(self) -> list[Finding]:
        """What was found, without what it lies in."""
        return [finding for finding in self.findings if not finding.is_outer]

    @property
    def thin(self) -> list[str]:
        """The thin volumes in it, which are not looked at: their parts lie in the pieces of a pool."""
        return [device for finding in self.findings for device in finding.thin]

    @property
    def begins(self) -> int | None:
        """The first byte of the volume at which something was found; None where nothing was."""
        return min((0 if it.table else it.pieces[0].first for it in self.findings if it.table or it.pieces and not it.pieces[0].path), default=None)

    @property
    def clean(self) -> bool:
        """Some checker found nothing wrong, and none found fault."""
        told = [finding.clean for finding in self.findings if finding.clean is not None]
        return bool(told) and all(told)

    @property
    def unchecked(self) -> bool:
        """What was found has no checker, so that files alone tell: and at least half of the first ones are whole."""
        told = any(finding.clean is not None for finding in self.findings)
        return bool(self.inner or self.thin) and not told and not self.settled and 0 < self.files.found <= 2 * self.files.whole

    @property
    def whole(self) -> bool:
        """A file that is longer than a row of chunks is whole, and at least half of the first ones are."""
        return self.files.longest_of_all > self.row and 2 * self.files.whole >= self.files.found

    @property
    def torn(self) -> bool:
        """Long files break where no whole one goes on."""
        return self.joints is not None and self.joints.speak_against

    @property
    def in_order(self) -> bool:
        """A checker is content with more than half of the volume, at least half of the first files are whole, and from each chunk of a row some whole
        file goes on into the next one, as hardly is so where chunks stand in another order."""
        enough = bool(self.thin) or MUCH * self.covers > self.length
        return self.score is Score.CHECKED and self.joined and 2 * self.files.whole >= self.files.found and enough

    @property
    def is_intact(self) -> bool:
        """Nearly all files all over a large volume are whole, and some go on from each chunk of a row into the next one: nothing more is to be
        sought."""
        return self.in_order and self.has_whole_files

    @property
    def has_whole_files(self) -> bool:
        """A checker is content with more than half of the volume, and nearly all of many files are whole that tables tell of all over it."""
        found = self.files.spread and self.files.found >= MANY_FILES and FEW_BROKEN * self.files.broken <= self.files.found
        return found and self.score is Score.CHECKED and MUCH * self.covers > self.length

    @property
    def joined(self) -> bool:
        """From each chunk of a row some whole file goes on into the next one."""
        return self.files.long is not None and self.chunk > 0 and self.files.long.joined == self.row // self.chunk

    @property
    def thin_in_order(self) -> bool:
        """Thin volumes lie in it, at least half of the first files are whole, and from each chunk of a row some whole file goes on into the next one.
        Files that are longer than a piece of their pool are in pieces there, also in the right volume."""
        return bool(self.thin) and self.joined and 2 * self.files.whole >= self.files.found

    @property
    def unjoined(self) -> bool:
        """What was found has no checker but such as read little of it, and files do not make up for that: some are broken, and none that is whole is
        longer than a row of chunks."""
        checked = [finding.system for finding in self.inner if finding.clean is not None]
        broken = self.files.whole < self.files.found
        return bool(checked) and all(it.shallow for it in checked) and broken and self.files.longest_of_all <= self.row

    @property
    def summed(self) -> bool:
        """A file system was checked with the sums of all its data."""
        return any(finding.summed for finding in self.findings)

    @property
    def wholly_summed(self) -> bool:
        """All that was found has the sums of all its data right: files say nothing more, and those in several pieces would count as broken."""
        return bool(self.inner) and all(finding.summed for finding in self.inner)

    @property
    def refuted(self) -> bool:
        """Some checker found fault."""
        return any(finding.clean is False for finding in self.findings)

    @property
    def settled(self) -> bool:
        """Whatever files are in it, it has no rating: a checker found fault, or nothing lies in what was found."""
        return self.refuted or self.empty

    @property
    def encrypted(self) -> list[Finding]:
        """What is encrypted in it."""
        return [finding for finding in self.findings if finding.system.opened]

    @property
    def closed(self) -> bool:
        """All that was found is encrypted: no file is to be seen."""
        return bool(self.inner) and all(finding.system.opened for finding in self.inner)

    @property
    def covers(self) -> int:
        """How many bytes of the volume lie in what was found, as far as that says how long it is."""
        return covered([piece for finding in self.inner if finding.clean is not False for piece in finding.pieces], self.length)

    @property
    def within_chunks(self) -> bool:
        """Some files are whole, but none that is longer than a chunk; others are broken. Such files are whole in whatever order the chunks stand.
        Where long files are in pieces anyway that says nothing."""
        broken = not self.scattered and 0 < self.files.longest_of_all <= self.chunk and self.files.whole < self.files.found
        return broken and not self.thin_in_order

    @property
    def all_broken(self) -> bool:
        """Of many files none is whole. Where long files are in pieces anyway that says nothing."""
        return not self.scattered and self.files.found >= MANY_FILES and not self.files.longest_of_all

    @property
    def scattered(self) -> bool:
        """Long files are in several pieces in what was found."""
        return any(finding.system.scattered for finding in self.inner)

    @property
    def doubts(self) -> list[str]:
        """Why what was found says too little for a rating."""
        said: list[str] = []
        if self.settled:
            return said
        said += filter(None, (finding.too_long for finding in self.findings))
        if self.inner and LITTLE * self.covers < self.length:
            said.append(f"what was found covers {percent(self.covers, self.length)} of the volume")
        if self.within_chunks and not self.wholly_summed:
            said.append("only files within one chunk are intact, as in any order of the chunks")
        elif self.all_broken and not self.wholly_summed:
            said.append(f"none of {self.files.found} files is intact")
        elif self.unjoined:
            said.append("its checker reads little of it, some files are broken, and no intact one is longer than a stripe")
        return said

    @property
    def less(self) -> list[str]:
        """Why what was found says less than its files alone do."""
        return [self.joints.text()] if self.joints and self.torn and self.whole and not self.summed else []

    @property
    def score(self) -> Score:
        """How much speaks for the volume."""
        broken = not self.clean and self.files.found and not self.files.whole
        if not self.findings or self.settled or broken:
            return Score.NOTHING
        if self.doubts:
            return Score.KNOWN
        if self.summed or self.whole and not self.torn:
            return Score.WHOLE
        return Score.CHECKED if self.clean or self.thin_in_order else Score.KNOWN

    @property
    def gain(self) -> tuple[Score, int]:
        """What two volumes of one set are compared by: how much speaks for them, and how many files are whole."""
        return self.score, self.files.whole

    def text(self) -> str:
        """What is said of the volume."""
        said = [finding.text() for finding in self.findings] or ["nothing recognized"]
        files = [] if self.wholly_summed or self.closed or not self.counted else [self.files.text(self.chunk, self.row)]
        return "; ".join(said + files + self.notes)
