"""The text of LVM2, and the logical volumes that lie in linear pieces of a physical one, and of others that are known, but for what lies on another
one behind these."""

import dataclasses
import re
from collections.abc import Iterable, Mapping

from ..units import ALL, SECTOR

TOKEN = re.compile(r'"[^"]*"|[\w.+-]+|[{}\[\]=]')
SEGMENT = re.compile(r"segment\d+")
# What the label of a physical volume begins with, in one of so many sectors; where in it the identifier stands, and how many characters that has.
LABEL, LABEL_SECTORS, IDENTIFIER, CHARACTERS = b"LABELONE", 4, 32, 32
# What a segment of a thin volume is called.
THIN = "thin"
Value = str | list[str] | dict[str, "Value"]
Folder = dict[str, Value]


@dataclasses.dataclass(frozen=True)
class Piece:
    """A part of a volume: its first byte, and how many; and the file in which it lies, where that is not the volume's."""

    first: int
    length: int
    path: str = ""


@dataclasses.dataclass(frozen=True)
class Physical:
    """A physical volume that an image has in one piece: its identifier, the number of the image and its file, its first byte there, and how many it
    says that it has."""

    identifier: str
    image: int
    path: str
    first: int
    length: int

    @property
    def said(self) -> str:
        """Where it is."""
        return f"image {self.image} from sector {self.first // SECTOR} on"


@dataclasses.dataclass(frozen=True)
class Logical:
    """A logical volume: its name and that of its group, and its pieces in order. Where it is `spread` the last ones lie on another physical volume,
    behind all that is there; `beside` are the places of those on other physical volumes that are known."""

    name: str
    pieces: tuple[Piece, ...]
    spread: bool = False
    group: str = ""
    beside: tuple[str, ...] = ()

    @property
    def said(self) -> str:
        """How it is called."""
        beside = f", in part on {' and '.join(self.beside)}" if self.beside else ""
        return f"logical volume {self.name}{beside}" + ", whose end lies on another physical volume" * self.spread

    @property
    def device(self) -> str:
        """The device that it is once its group is active."""
        return f"/dev/{self.group}/{self.name}"


def read_text(text: str) -> Folder:
    """The text of LVM2 as folders of values: texts, and lists of texts."""
    root: Folder = {}
    path, name = [root], ""
    tokens = iter(TOKEN.findall(re.sub(r"#[^\n]*", "", text)))
    for token in tokens:
        if token == "{":
            inner = path[-1].setdefault(name, {})
            path.append(inner if isinstance(inner, dict) else {})
        elif token == "}":
            path.pop()
            if not path:
                break
        elif token == "=":
            value = next(tokens, "")
            path[-1][name] = [part.strip('"') for part in iter(lambda: next(tokens, "]"), "]")] if value == "[" else value.strip('"')
        else:
            name = token
    return root


def folder(value: Value | None) -> Folder:
    """A value that is a folder; an empty one where it is none."""
    return value if isinstance(value, dict) else {}


def number(values: Mapping[str, Value], name: str) -> int:
    """The number of a name."""
    value = values[name]
    if not isinstance(value, str):
        raise ValueError(name)
    return int(value)


def linear(segment: Folder) -> bool:
    """A segment lies on one physical volume."""
    return segment.get("type") == "striped" and segment.get("stripe_count") == "1"


def piece(segment: Folder, bases: Mapping[str, Piece], size: int) -> Piece:
    """Where a segment lies, by where the extents of physical volumes begin, by their names; behind all that is there where that is not known."""
    stripes = segment.get("stripes")
    if not isinstance(stripes, list):
        raise ValueError("stripes")
    base = bases.get(stripes[0])
    found = Piece(base.first + int(stripes[1]) * size if base else ALL, number(segment, "extent_count") * size, base.path if base else "")
    if found.first < 0 or found.length <= 0:
        raise ValueError("stripes")
    return found


def identifier(head: bytes) -> str | None:
    """The identifier of the physical volume that begins so; None where it has no label."""
    label = head.find(LABEL, 0, LABEL_SECTORS * SECTOR)
    return head[label + IDENTIFIER:label + IDENTIFIER + CHARACTERS].decode("ascii", "replace") if label >= 0 else None


def group_of(text: str) -> tuple[str, Folder]:
    """The first group that a text tells of, with its name; it raises `StopIteration` where it tells of none."""
    return next((name, folder(group)) for name, group in read_text(text).items() if "physical_volumes" in folder(group))


def logical_volumes(text: str, first: int, volume: str | None = None, others: Iterable[Physical] = ()) -> list[Logical]:
    """The logical volumes of a physical one that begins at a byte, by its text and its identifier, and of others that are known; none where the text
    is none."""
    try:
        return of_group(*group_of(text), first, volume, {it.identifier: it for it in others})
    except (KeyError, ValueError, IndexError, StopIteration):
        return []


def thin_volumes(text: str) -> tuple[str, ...]:
    """The devices that thin volumes of the group of a text are once it is active, whose parts the metadata of their pool name; none where the text is
    none."""
    try:
        called, group = group_of(text)
        bodies = folder(group.get("logical_volumes")).items()
        thin = [name for name, body in bodies if any(it.get("type") == THIN for it in segments_of(folder(body)))]
        return tuple(Logical(name, (), group=called).device for name in thin)
    except (KeyError, ValueError, StopIteration):
        return ()


def others_of(text: str, volume: str | None) -> dict[str, str]:
    """The identifiers of the other physical volumes on which logical ones lie in the group of one, each with the device that it was; none where the
    text is none."""
    try:
        _, group = group_of(text)
        own = own_name(group, volume)
        stripes = [segment.get("stripes") for body in folder(group.get("logical_volumes")).values() for segment in segments_of(folder(body))]
        used = {name for it in stripes if isinstance(it, list) for name in it[::2]} - {own}
        return {identifier_of(body): str(folder(body).get("device", "")) for name, body in folder(group["physical_volumes"]).items() if name in used}
    except (KeyError, ValueError, StopIteration):
        return {}


def identifier_of(body: Value) -> str:
    """The identifier of a physical volume that a text names, as its label has it."""
    return str(folder(body).get("id", "")).replace("-", "")


def segments_of(body: Folder) -> list[Folder]:
    """The segments of a logical volume, in their order."""
    return sorted((folder(it) for key, it in body.items() if SEGMENT.fullmatch(key)), key=lambda it: number(it, "start_extent"))


def own_name(group: Folder, volume: str | None) -> str:
    """What a group calls the physical volume of an identifier; its first one where it names none such."""
    names = folder(group["physical_volumes"])
    return next((name for name, body in names.items() if identifier_of(body) == volume), next(iter(names)))


def of_group(called: str, group: Folder, first: int, volume: str | None, others: Mapping[str, Physical]) -> list[Logical]:
    """The logical volumes of a group that lie on its physical volume of an identifier, which begins at a byte."""
    names, own, size = folder(group["physical_volumes"]), own_name(group, volume), number(group, "extent_size") * SECTOR
    known = {name: others[identifier_of(body)] for name, body in names.items() if name != own and identifier_of(body) in others}
    begins = {own: Piece(first, 0), **{name: Piece(it.first, 0, it.path) for name, it in known.items()}}
    bases = {name: dataclasses.replace(it, first=it.first + number(folder(names[name]), "pe_start") * SECTOR) for name, it in begins.items()}
    places = {it.path: it.said for it in known.values()}
    found = []
    for name, body in folder(group.get("logical_volumes")).items():
        segments = segments_of(folder(body))
        pieces = tuple(piece(it, bases, size) for it in segments) if all(map(linear, segments)) else ()
        elsewhere = [it.first == ALL for it in pieces]
        # What lies elsewhere before what is there would move that.
        if any(not it.path and it.first != ALL for it in pieces) and elsewhere == sorted(elsewhere):
            beside = tuple(dict.fromkeys(places[it.path] for it in pieces if it.path))
            found.append(Logical(name, pieces, elsewhere[-1], called, beside))
    return found
