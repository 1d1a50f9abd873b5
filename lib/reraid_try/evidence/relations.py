"""The output of `reraid relations`: which images depend on one another in each row of sectors. What these say of arrays is told in `image groups`."""

import dataclasses
import json
import re
from collections.abc import Iterable, Iterator, Sequence

ROWS = re.compile(r"rows (\d+) (\d+) zero (\S+) tied (.+)")
TIE = re.compile(r"(\d+)=(\d+\*\d+(?:\+\d+\*\d+)*)")
TOGETHER = re.compile(r"together (\S+) in (\d+) rows")
ALONE = re.compile(r"alone (\S+)")
FREE = re.compile(r"free (\d+) of (\d+)")
OTHERS = re.compile(r"others (\d+)")
NONE = "-"


class Unreadable(ValueError):
    """A line that is none of the output of `reraid relations`."""


@dataclasses.dataclass(frozen=True)
class Tie:
    """An image whose sector is the weighted sum of those of others: its number, and each of these with its weight in GF(2^8), by number."""

    image: int
    weights: tuple[tuple[int, int], ...]

    @property
    def images(self) -> frozenset[int]:
        """All images that it ties."""
        return frozenset({self.image, *(image for image, _ in self.weights)})

    @property
    def plain(self) -> bool:
        """All weights are 1: the sectors cancel, as with the parity of RAID 5 or of copies."""
        return all(weight == 1 for _, weight in self.weights)


@dataclasses.dataclass(frozen=True)
class Rows:
    """Neighbouring rows with one table: the first and the last that was looked at, the images whose sectors are zeros, and the ties."""

    first: int
    last: int
    zero: frozenset[int]
    ties: tuple[Tie, ...]

    def count(self, step: int) -> int:
        """How many rows were looked at, of which every one is so many sectors behind the one before."""
        return (self.last - self.first) // step + 1

    def tied(self) -> list[frozenset[int]]:
        """The sets of images that the ties connect."""
        found: list[frozenset[int]] = []
        for tie in self.ties:
            near = [it for it in found if it & tie.images]
            found = [it for it in found if it not in near] + [tie.images.union(*near)]
        return found


@dataclasses.dataclass(frozen=True)
class Together:
    """Images that some row's ties connect, and in how many rows."""

    images: frozenset[int]
    rows: int


@dataclasses.dataclass(frozen=True)
class Alone:
    """The images that no row ties."""

    images: frozenset[int]


@dataclasses.dataclass(frozen=True)
class Free:
    """How many rows have no tie, of how many."""

    rows: int
    total: int


@dataclasses.dataclass(frozen=True)
class Others:
    """How many sets of images that stand together are not named."""

    sets: int


Line = Rows | Together | Alone | Free | Others


@dataclasses.dataclass(frozen=True)
class Relations:
    """The whole output: its rows, each `step` sectors behind the one before, and what is common to all of them. `free` rows of `total` have no tie;
    `others` is how many sets of images that stand together are not named."""

    step: int
    rows: tuple[Rows, ...]
    together: tuple[Together, ...] = ()
    alone: frozenset[int] = frozenset()
    free: int = 0
    total: int = 0
    others: int = 0

    def tied_rows(self) -> Iterator[Rows]:
        """The rows that have a tie."""
        return (rows for rows in self.rows if rows.ties)

    def count(self, rows: Rows) -> int:
        """How many rows were looked at in these."""
        return rows.count(self.step)

    def before(self, row: int) -> int:
        """Return the last row before one at which a run begins or ends; one step before where there is none."""
        return max((place for it in self.rows for place in (it.first, it.last) if place < row), default=row - self.step)


def read_list(text: str) -> frozenset[int]:
    """The numbers of a list; `-` is none."""
    return frozenset() if text == NONE else frozenset(int(number) for number in text.split(","))


def read_tie(text: str) -> Tie:
    """A tie, such as `4=143*0+1*2`: the dependent image, and weights before the images that they are of."""
    match = TIE.fullmatch(text)
    if not match:
        raise Unreadable(f"no tie: {text}")
    pairs = (part.split("*") for part in match[2].split("+"))
    return Tie(int(match[1]), tuple((int(image), int(weight)) for weight, image in pairs))


def read_rows(match: re.Match[str]) -> Rows:
    """A line of rows."""
    ties = () if match[4] == NONE else tuple(read_tie(word) for word in match[4].split(" "))
    return Rows(int(match[1]), int(match[2]), read_list(match[3]), ties)


def read_line(line: str) -> Line:
    """A line of the text: rows, or a number or set of what is common to all of them."""
    if match := ROWS.fullmatch(line):
        return read_rows(match)
    if match := TOGETHER.fullmatch(line):
        return Together(read_list(match[1]), int(match[2]))
    if match := ALONE.fullmatch(line):
        return Alone(read_list(match[1]))
    if match := FREE.fullmatch(line):
        return Free(int(match[1]), int(match[2]))
    if match := OTHERS.fullmatch(line):
        return Others(int(match[1]))
    raise Unreadable(f"no line of relations: {line}")


def read_object(line: str) -> Line:
    """The same of an object of JSON."""
    try:
        it = json.loads(line)
        if "tied" in it:
            ties = tuple(Tie(image, tuple((other, weight) for weight, other in weights)) for image, weights in it["tied"])
            return Rows(it["rows"][0], it["rows"][1], frozenset(it["zero"]), ties)
        if "together" in it:
            return Together(frozenset(it["together"]), it["rows"])
        if "alone" in it:
            return Alone(frozenset(it["alone"]))
        return Free(it["free"], it["of"]) if "free" in it else Others(it["others"])
    except (ValueError, TypeError, KeyError, IndexError) as error:
        raise Unreadable(f"no object of relations: {line}") from error


def read(text: str, step: int) -> Relations:
    """The output of a run with this step, as text or as objects of JSON. An end that was cut off leaves what is common to all rows out; a line that
    is none raises `Unreadable`."""
    found = [read_object(line) if line.startswith("{") else read_line(line) for line in text.splitlines()]
    rows, together = tuple(it for it in found if isinstance(it, Rows)), tuple(it for it in found if isinstance(it, Together))
    alone = frozenset[int]().union(*(it.images for it in found if isinstance(it, Alone)))
    free = next((it for it in found if isinstance(it, Free)), Free(0, 0))
    return Relations(step, rows, together, alone, free.rows, free.total, sum(it.sets for it in found if isinstance(it, Others)))


def renumbered(found: Relations, numbers: Sequence[int]) -> Relations:
    """The same relations with other numbers for the images: of each the one at its place."""
    def again(images: Iterable[int]) -> frozenset[int]:
        return frozenset(numbers[image] for image in images)

    def tie(it: Tie) -> Tie:
        return Tie(numbers[it.image], tuple((numbers[image], weight) for image, weight in it.weights))
    rows = tuple(Rows(it.first, it.last, again(it.zero), tuple(map(tie, it.ties))) for it in found.rows)
    together = tuple(Together(again(it.images), it.rows) for it in found.together)
    return dataclasses.replace(found, rows=rows, together=together, alone=again(found.alone))
