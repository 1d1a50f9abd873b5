"""Plans, as `reraid survey` prints them: their text, their groups of landmarks, and what a rule says of a mark."""

import dataclasses
from collections.abc import Collection, Mapping

from ..errors import OutsideError
from ..units import counted

FIELDS = ("levels", "members", "patterns", "delays", "syndromes", "chunks", "offsets", "origins", "missing", "foreign", "badrows", "window",
          "misfits", "least")
# For how many rows parity stays where nothing else is asked for, of which a plan has no line.
DELAYS, NO_DELAY = "delays", "1"
# Version 2: each image has an offset of its own. Version 3 says that in a line of its own, and there parity may stay for several rows, and a group
# may have bounds of its own.
COMMON, EACH, BOUNDED = 1, 2, 3
MODES = {COMMON: "common", EACH: "each"}


@dataclasses.dataclass(frozen=True)
class Mark:
    """A sector of an image that says where in its volume it belongs."""

    kind: str
    image: int
    sector: int
    rule: str

    @property
    def numbers(self) -> list[int]:
        """Return the numbers of the rule."""
        return [int(number) for number in self.rule.split(":")[1:]]

    @property
    def nearest(self) -> int:
        """Return the least distance that the rule allows, in sectors from where its file system begins."""
        numbers = self.numbers
        return numbers[2] if self.rule.startswith("every") else min(numbers)

    @property
    def step(self) -> int | None:
        """Return the sectors from one allocation group to the next; None where the rule has no step."""
        return self.numbers[0] if self.rule.startswith("every") else None

    def text(self) -> str:
        """Return its line in a plan."""
        return f"mark {self.kind} {self.image} {self.sector} {self.rule}\n"


@dataclasses.dataclass(frozen=True)
class Bounds:
    """How many marks of a group may misfit at most, and how many have to fit at least."""

    misfits: int
    least: int

    def text(self) -> str:
        """Return its line in a plan."""
        return f"bounds {self.misfits} {self.least}\n"


@dataclasses.dataclass(frozen=True)
class Group:
    """The landmarks of one file system, of one physical volume, or of all partition tables. `place` is its number in the survey, `bounds` what holds
    for it in place of the plan's misfits and least."""

    kind: str
    marks: tuple[Mark, ...]
    place: int
    bounds: Bounds | None = None

    def text(self) -> str:
        """Return its lines in a plan."""
        return f"group {self.kind}\n" + (self.bounds.text() if self.bounds else "") + "".join(mark.text() for mark in self.marks)

    def images(self) -> set[int]:
        """Return the images that show it."""
        return {mark.image for mark in self.marks}

    def name(self) -> str:
        """Return what it is called in a report."""
        return f"landmark group {self.place} ({self.kind}, {counted(len(self.marks), 'landmark')})"


@dataclasses.dataclass(frozen=True)
class Plan:
    """A plan: lengths of the images, `end`, the values of the other lines by their names, and the groups. `version` is 2 where each image has an
    offset of its own and 1 else, also of a plan whose text is of version 3 for its delays or the bounds of its groups."""

    version: int
    lengths: tuple[int, ...]
    end: int
    values: Mapping[str, str]
    groups: tuple[Group, ...]

    def numbers(self, name: str) -> list[int]:
        """Return the numbers of a line."""
        return [int(number) for number in self.values[name].split(",")]

    def text(self) -> str:
        """Return the plan as `list` and `check` read it: of version 3 only where parity may stay for several rows, or a group has bounds of its
        own."""
        delayed = self.values.get(DELAYS, NO_DELAY) != NO_DELAY
        bounded = delayed or any(group.bounds for group in self.groups)
        head = [f"reraid-plan {BOUNDED}", f"mode {MODES[self.version]}"] if bounded else [f"reraid-plan {self.version}"]
        lines = [*head, f"images {len(self.lengths)}", *(f"length {length}" for length in self.lengths), f"end {self.end}"]
        lines += [f"{name} {self.values[name]}" for name in FIELDS if name != DELAYS or delayed]
        return "\n".join(lines) + "\n" + "".join(group.text() for group in self.groups) + "done\n"

    def having(self, **values: str | int) -> "Plan":
        """Return the plan with other values."""
        return dataclasses.replace(self, values={**self.values, **{name: str(value) for name, value in values.items()}})

    def without(self, places: Collection[int]) -> "Plan":
        """Return the plan without the groups of these places."""
        return dataclasses.replace(self, groups=tuple(group for group in self.groups if group.place not in places))

    def bounded(self, place: int, bounds: Bounds | None) -> "Plan":
        """Return the plan in which the group of this place has bounds of its own, or those of the plan again."""
        changed = (dataclasses.replace(group, bounds=bounds) if group.place == place else group for group in self.groups)
        return dataclasses.replace(self, groups=tuple(changed))

    def bare(self) -> "Plan":
        """Return the plan without its groups."""
        return dataclasses.replace(self, groups=())

    def marks(self) -> list[Mark]:
        """Return all landmarks."""
        return [mark for group in self.groups for mark in group.marks]


def read_plan(text: str) -> Plan:
    """Return the plan of a text that `reraid survey` printed."""
    try:
        return read_lines([line.split() for line in text.splitlines()])
    except (ValueError, IndexError, KeyError) as error:
        raise OutsideError(f"what reraid survey printed is no plan: {error}") from error


def read_lines(lines: list[list[str]]) -> Plan:
    """Return the plan of these lines, each as its words."""
    values = {words[0]: words[1] for words in lines if words[0] in FIELDS}
    lengths = tuple(int(words[1]) for words in lines if words[0] == "length")
    end, = (int(words[1]) for words in lines if words[0] == "end")
    groups: list[tuple[str, list[Mark]]] = []
    bounds: dict[int, Bounds] = {}
    for words in lines:
        if words[0] == "group":
            groups.append((words[1], []))
        elif words[0] == "bounds":
            bounds[len(groups) - 1] = Bounds(int(words[1]), int(words[2]))
        elif words[0] == "mark":
            groups[-1][1].append(Mark(words[1], int(words[2]), int(words[3]), words[4]))
    if lines[-1] != ["done"]:
        raise ValueError("it has no end")
    found = (Group(kind, tuple(marks), place, bounds.get(place)) for place, (kind, marks) in enumerate(groups))
    return Plan(read_version(lines), lengths, end, values, tuple(found))


def read_version(lines: list[list[str]]) -> int:
    """Return whether each image has an offset of its own, as a version: by the first line, or in version 3 by the second."""
    version = int(lines[0][1])
    if version != BOUNDED:
        return version
    found = [mode for mode, name in MODES.items() if lines[1] == ["mode", name]]
    if not found:
        raise ValueError("it has no mode")
    return found[0]
