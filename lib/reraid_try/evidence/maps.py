"""The maps of ddrescue beside the images."""

import dataclasses
import hashlib
from collections.abc import Iterator, Sequence

from ..errors import OutsideError, said
from ..units import SECTOR

# The statuses of blocks, of which one is that of what was read, and those of what was done last.
READ, STATUSES, STEPS = "+", "?*/-+", "?*/-FG+"
# Numbers of bytes are less than this.
MAX_BYTES = 1 << 64


@dataclasses.dataclass(frozen=True)
class Map:
    """A map: its name, its text, the blocks as first byte, bytes and status, and the SHA-256 of its file."""

    name: str
    text: str
    blocks: tuple[tuple[int, int, str], ...]
    sha256: str = ""

    @property
    def plain(self) -> str:
        """The same map without its comments."""
        return f"0 {READ}\n" + "".join(f"{first} {count} {status}\n" for first, count, status in self.blocks)

    def not_read(self, end: int) -> Iterator[tuple[int, int]]:
        """Where each block begins, and how many bytes it has before an end in sectors, that was not read; of what lies in no block nothing was."""
        last = sum(self.blocks[-1][:2]) if self.blocks else 0
        before = [(0, first, "") for first, _, _ in self.blocks[:1]]
        for begin, count, status in (*before, *self.blocks, (last, end * SECTOR - last, "")):
            count = min(count, end * SECTOR - begin)
            if status != READ and count > 0:
                yield begin, count

    def unread(self, end: int) -> int:
        """How many sectors before an end it does not call read, about."""
        return sum(-(-count // SECTOR) + 1 for _, count in self.not_read(end))

    def gaps(self, end: int) -> list[range]:
        """The runs of sectors before an end of which it does not call each byte read, in order."""
        found: list[range] = []
        for first, count in self.not_read(end):
            begin = first // SECTOR
            if found and found[-1].stop >= begin:
                begin = found.pop().start
            found.append(range(begin, -(-(first + count) // SECTOR)))
        return found


def is_status_line(words: Sequence[str]) -> bool:
    """It is what a map begins with: a place, what was done last there, and in newer ones the number of the pass."""
    try:
        return len(words) in (2, 3) and words[1] in STEPS and len(words[1]) == 1 and all(int(word, 0) >= 0 for word in (words[0], *words[2:]))
    except ValueError:
        return False


def read_map(name: str) -> Map:
    """The map of a file."""
    try:
        with open(name, "rb") as file:
            data = file.read()
        text = data.decode()
    except (OSError, UnicodeDecodeError) as error:
        why = said(error) if isinstance(error, OSError) else "it is not text"
        raise OutsideError(f"the mapfile {name} cannot be read: {why}") from error
    lines = [(number, line.split()) for number, line in enumerate(text.splitlines(), 1) if line.strip() and not line.startswith("#")]
    if not lines or not is_status_line(lines[0][1]):
        where = f"line {lines[0][0]}" if lines else "it has no lines"
        raise OutsideError(f"{name} is not a ddrescue mapfile: {where} (move it away to search without it)")
    blocks: list[tuple[int, int, str]] = []
    after = 0
    for number, words in lines[1:]:
        try:
            first, length = int(words[0], 0), int(words[1], 0)
            good = len(words) == 3 and words[2] in STATUSES and len(words[2]) == 1 and length > 0 and (first == after or not blocks)
            good = good and first + length < MAX_BYTES
        except (ValueError, IndexError):
            good = False
        if not good:
            raise OutsideError(f"{name} is not a ddrescue mapfile: line {number} (move it away to search without it)")
        blocks.append((first, length, words[2]))
        after = first + length
    if not blocks:
        raise OutsideError(f"{name} is not a ddrescue mapfile: it has no blocks (move it away to search without it)")
    return Map(name, text, tuple(blocks), hashlib.sha256(data).hexdigest())


def maps_text(maps: Sequence[Map | None]) -> str | None:
    """The maps of images, in their order, as `salvage` reads them; None where there is none."""
    texts = [f"map {number}\n{it.text.rstrip()}\n" for number, it in enumerate(maps) if it]
    return "".join(texts) or None
