"""Linear volumes of LVM2: disks that are joined one after another, without an array."""

import dataclasses
from collections.abc import Iterator, Sequence

from ..checks import lvm
from ..checks.lvm import Folder
from ..checks.systems import system_of
from ..units import SECTOR
from . import metadata
from .homes import LVM, Home, home_at
from .pools import read_at

# What the types of segments begin with that spread data over disks, or copy them.
SPREAD = ("raid", "mirror")


@dataclasses.dataclass(frozen=True)
class Volume:
    """A logical volume: its name, and what mounts the file system that begins it."""

    name: str
    options: str


@dataclasses.dataclass(frozen=True)
class Group:
    """A group of LVM2 of linear volumes: its name, its disks, its volumes, and how many of its disks are not among the images."""

    name: str
    disks: tuple[Home, ...]
    volumes: tuple[Volume, ...]
    lost: int = 0


def identifier(home: Home) -> str:
    """Return the identifier of a physical volume."""
    return lvm.identifier(read_at(home.image.name, home.first * SECTOR, lvm.LABEL_SECTORS * SECTOR)) or ""


def text_of(home: Home) -> str:
    """Return the newest text of a physical volume."""
    return metadata.newest(read_at(home.image.name, home.first * SECTOR, metadata.LVM_TEXT))


def is_spread(segment: Folder) -> bool:
    """A segment lies on several disks at once, or is copied."""
    kind = str(segment.get("type", ""))
    return kind.startswith(SPREAD) or kind == "striped" and segment.get("stripe_count") != "1"


def linear(homes: Sequence[Home]) -> Group | None:
    """Return the group that has one disk on each of these images, if all its volumes are linear; None else."""
    found = {identifier(home): home for home in homes if home.kind == LVM}
    if len(found) < len(homes) or not homes:
        return None
    try:
        name, group = lvm.group_of(text_of(homes[0]))
        disks = [lvm.identifier_of(body) for body in lvm.folder(group["physical_volumes"]).values()]
        logical = {called: lvm.segments_of(lvm.folder(body)) for called, body in lvm.folder(group.get("logical_volumes")).items()}
        if not logical or any(is_spread(it) for segments in logical.values() for it in segments) or not set(found) <= set(disks):
            return None
        return Group(name, tuple(homes), tuple(volumes(group, logical, found)), len(disks) - len(found))
    except (KeyError, ValueError, IndexError, StopIteration):
        return None


def volumes(group: Folder, logical: dict[str, list[Folder]], found: dict[str, Home]) -> Iterator[Volume]:
    """Yield the logical volumes of a group that can be seen, each with the options that mount it."""
    physical, extent = lvm.folder(group["physical_volumes"]), lvm.number(group, "extent_size")
    for name, segments in logical.items():
        stripes = segments[0].get("stripes") if segments else None
        if not isinstance(stripes, list) or name.endswith(("_tdata", "_tmeta", "_pmspare")):
            continue
        home = found.get(lvm.identifier_of(physical.get(stripes[0], {})))
        first = lvm.number(lvm.folder(physical.get(stripes[0])), "pe_start") + int(stripes[1]) * extent
        held = home_at(home.image, home.first + first) if home else None
        yield Volume(name, system_of(held.kind).mount or "ro" if held else "ro")
