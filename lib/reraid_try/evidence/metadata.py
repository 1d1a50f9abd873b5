"""Metadata of RAID that still stand on the images: what `mdadm --examine` says of each, and the text of LVM2. It is a hint and no more: metadata
may be of an older array, or of one that somebody made anew over it."""

import collections
import dataclasses
import os
import re
import shutil
from collections.abc import Iterator, Mapping, Sequence

from ..calls.commands import Runner
from ..checks import lvm
from ..errors import OutsideError, said
from ..units import MIB, SECTOR, counted
from .shared import Place

MDADM = "mdadm"
# Where Debian has it, which is not on the PATH of everybody.
SYSTEM_FOLDERS = "/usr/sbin:/sbin"
MAX_SECONDS = 10
# So much of the start and of the end of a partition holds the metadata of md.
KEPT = MIB
# So much of an image behind a label of LVM2 holds its text.
LVM_TEXT = 2 * MIB

# The layouts of md as `mdadm` calls them, in the words of a set: pattern, and order of Q at level 6.
PATTERNS = {"left-asymmetric": "la", "left-symmetric": "ls", "right-asymmetric": "ra", "right-symmetric": "rs", "parity-first": "parity-first",
            "parity-last": "parity-last"}
DDF = {"ddf-zero-restart": ("ra", "by-slot"), "ddf-N-restart": ("n-restart", "by-slot"), "ddf-N-continue": ("n-continue", "by-slot")}
WITHOUT_Q = {"left-asymmetric-6": "la-6", "left-symmetric-6": "ls-6", "right-asymmetric-6": "ra-6", "right-symmetric-6": "rs-6",
             "parity-first-6": "parity-first-6"}
# The segment types of LVM2: level, and the layout as md calls it.
SEGMENTS = {"raid5": ("raid5", "left-symmetric"), "raid5_ls": ("raid5", "left-symmetric"), "raid5_la": ("raid5", "left-asymmetric"),
            "raid5_rs": ("raid5", "right-symmetric"), "raid5_ra": ("raid5", "right-asymmetric"), "raid4": ("raid4", ""),
            "raid6": ("raid6", "ddf-zero-restart"), "raid6_zr": ("raid6", "ddf-zero-restart"), "raid6_nr": ("raid6", "ddf-N-restart"),
            "raid6_nc": ("raid6", "ddf-N-continue"),
            "raid0": ("raid0", ""), "raid0_meta": ("raid0", ""), "raid10": ("raid10", "near=2"), "raid10_near": ("raid10", "near=2")}

KIB_SECTORS = 2
SIZE = re.compile(r"(\d+) ?([KMG]?)")
FACTORS = {"": 1 / 1024, "K": 1, "M": 1 << 10, "G": 1 << 20}
ROLE = re.compile(r"Active device (\d+)")
THIS = re.compile(r"^this\s+\d+\s+\d+\s+\d+\s+(\d+)", re.MULTILINE)
LINE = re.compile(r"^\s*([A-Z][A-Za-z ]*[A-Za-z]) : (.*?)\s*$", re.MULTILINE)


@dataclasses.dataclass(frozen=True)
class Member:
    """What metadata on an image say of the array that it is of: who says it, the array's identifier, its level, layout and number of disks as `mdadm`
    calls them, the sectors of a chunk, the image's slot, the image sector at which its data begin, and how many events the metadata have seen.
    What is not told is None, or empty."""

    image: int
    source: str
    array: str
    level: str
    disks: int
    layout: str = ""
    chunk: int | None = None
    slot: int | None = None
    offset: int | None = None
    events: int | None = None

    def line(self, name: str) -> str:
        """Return it as one line of text."""
        said = [f"{self.level} of {counted(self.disks, 'disk')}", self.layout, f"chunks of {self.chunk // KIB_SECTORS} KiB" if self.chunk else "",
                "" if self.slot is None else f"slot {self.slot}", "" if self.offset is None else f"data offset {self.offset} sectors",
                "" if self.events is None else counted(self.events, "event")]
        return f"metadata on {name} ({self.source}): " + ", ".join(filter(None, said))


def fields_of(text: str) -> dict[str, str]:
    """The first value of each name that `mdadm --examine` prints."""
    found: dict[str, str] = {}
    for match in LINE.finditer(text):
        found.setdefault(match[1], match[2])
    return found


def chunk_of(text: str) -> int | None:
    """The sectors of a chunk, by such as `64K` or `64 KiB`; None where it is no size, or none of whole sectors."""
    match = SIZE.match(text)
    sectors = int(match[1]) * FACTORS[match[2]] * KIB_SECTORS if match else 0
    return int(sectors) if sectors >= 1 else None


def number_of(text: str) -> int | None:
    """The number that a text begins with; None where it begins with none."""
    match = re.match(r"\d+", text)
    return int(match[0]) if match else None


def read_examined(text: str, image: int, start: int = 0) -> Member | None:
    """What `mdadm --examine` says of an image, or of a partition of it that begins at a sector; None where that is no array."""
    said = fields_of(text)
    level = said.get("Raid Level", said.get("RAID Level", ""))
    disks = number_of(said.get("Raid Devices", said.get("Members", "")))
    if not level or not disks:
        return None
    role, this = ROLE.match(said.get("Device Role", "")), THIS.search(text)
    slot = int(role[1]) if role else int(this[1]) if this else number_of(said.get("This Slot", ""))
    if level.isdigit():
        level = f"raid{level}"
    intel = said.get("Magic", "").startswith("Intel")
    # Metadata 0.90 and 1.0 stand behind the data, which begin at the start; the RAID 5 of Intel has one layout.
    offset = number_of(said.get("Data Offset", said.get("Sector Offset", "0"))) or 0
    layout = said.get("Layout", "left-asymmetric" if intel and level == "raid5" else "")
    source = "Intel" if intel else f"md {said.get('Version', 'of another kind')}"
    return Member(image, source, said.get("Array UUID", said.get("UUID", "")), level, disks, layout, chunk_of(said.get("Chunk Size", "")), slot,
                  start + offset, number_of(said.get("Events", "")))


def read_at(name: str, first: int, count: int) -> bytes:
    """So many bytes of an image, from a first one on."""
    try:
        with open(name, "rb") as file:
            file.seek(first)
            return file.read(count)
    except OSError as error:
        raise OutsideError(f"image {name} cannot be read: {said(error)}") from error


def excerpt(name: str, place: Place, target: str) -> None:
    """Writes a sparse file as long as a partition, with its start and its end alone."""
    length = place.count * SECTOR
    parts = [(first, read_at(name, place.first * SECTOR + first, last - first)) for first, last in
             ((0, min(KEPT, length)), (max(0, length - KEPT), length))]
    try:
        with open(target, "wb") as new:
            for first, part in parts:
                new.seek(first)
                new.write(part)
            new.truncate(length)
    except OSError as error:
        raise OutsideError(f"{target} cannot be written: {said(error)}") from error


def tool() -> str | None:
    """`mdadm`, where it is installed."""
    return shutil.which(MDADM) or shutil.which(MDADM, path=SYSTEM_FOLDERS)


def examine(runner: Runner, folder: str, names: Mapping[int, str], place: Place | None = None) -> list[Member]:
    """What `mdadm` says of images by their numbers, or of what they hold at a place; nothing where it is not installed. Excerpts are put into a
    folder, and taken away again."""
    program, found = tool(), []
    for image, name in names.items() if program else ():
        # A name may begin as an option does.
        path = os.path.abspath(name)
        if place:
            path = os.path.join(folder, f"{image}.excerpt")
            excerpt(name, place, path)
        answer = runner.run([program or MDADM, "--examine", path], seconds=MAX_SECONDS)
        if place:
            os.remove(path)
        if answer.good and (member := read_examined(answer.out, image, place.first if place else 0)):
            found.append(member)
    return found


@dataclasses.dataclass(frozen=True)
class Volume:
    """A logical volume of LVM RAID, by the text of LVM2: its name, the type of its segment, the sectors of a stripe, and for each of its parts the
    identifier of the physical volume and the sector on it at which the part begins."""

    name: str
    kind: str
    chunk: int
    parts: tuple[tuple[str, int], ...]

    def members(self, images: Mapping[str, tuple[int, int]]) -> Iterator[Member]:
        """What this says of images: of those whose label has the identifier of a physical volume, each with the sector at which that begins."""
        level, layout = SEGMENTS[self.kind]
        for slot, (volume, first) in enumerate(self.parts):
            if volume in images:
                image, start = images[volume]
                yield Member(image, "LVM2", self.name, level, len(self.parts), layout, self.chunk, slot, start + first)


def raid_volumes(text: str) -> list[Volume]:
    """The logical volumes of LVM RAID that a text of LVM2 tells of, each of one segment over parts that lie in one piece; none where the text is
    none."""
    try:
        groups = [group for group in map(lvm.folder, lvm.read_text(text).values()) if "physical_volumes" in group]
        return [volume for group in groups[:1] for volume in volumes_of(group)]
    except (KeyError, ValueError, IndexError, StopIteration):
        return []


def volumes_of(group: lvm.Folder) -> Iterator[Volume]:
    """The logical volumes of LVM RAID of a group."""
    extent, logical = lvm.number(group, "extent_size"), lvm.folder(group.get("logical_volumes"))
    physical = {key: lvm.folder(value) for key, value in lvm.folder(group["physical_volumes"]).items()}
    for name, body in logical.items():
        segments = [lvm.folder(it) for key, it in lvm.folder(body).items() if lvm.SEGMENT.fullmatch(key)]
        kind = str(segments[0].get("type")) if len(segments) == 1 else ""
        raids = segments[0].get("raids") if kind in SEGMENTS else None
        if not isinstance(raids, list):
            continue
        # Before the name of each part stands that of the part with its metadata, which level 0 has none of.
        parts = [part_of(lvm.folder(logical[part]), physical, extent) for part in (raids if kind == "raid0" else raids[1::2])]
        yield Volume(name, kind, lvm.number(segments[0], "stripe_size"), tuple(parts))


def part_of(body: lvm.Folder, physical: Mapping[str, lvm.Folder], extent: int) -> tuple[str, int]:
    """Where a part of a volume lies: the identifier of its physical volume, and the sector on that at which it begins."""
    segments = [lvm.folder(it) for key, it in body.items() if lvm.SEGMENT.fullmatch(key)]
    stripes = segments[0]["stripes"]
    if len(segments) != 1 or not isinstance(stripes, list):
        raise ValueError("stripes")
    volume = physical[stripes[0]]
    return str(volume["id"]).replace("-", ""), lvm.number(volume, "pe_start") + int(stripes[1]) * extent


def physical(labels: Mapping[int, int], names: Mapping[int, str]) -> tuple[dict[str, tuple[int, int]], list[str]]:
    """Of images by their numbers, on which a physical volume begins at these sectors, the image and that sector by the identifier of each label, and
    the text of each."""
    volumes: dict[str, tuple[int, int]] = {}
    texts = []
    for image, start in labels.items():
        area = read_at(names[image], start * SECTOR, LVM_TEXT)
        label = area.find(b"LABELONE", 0, 4 * SECTOR)
        if label >= 0:
            volumes[area[label + 32:label + 64].decode("ascii", "replace")] = image, start
            texts.append(newest(area))
    return volumes, texts


def examine_lvm(labels: Mapping[int, int], names: Mapping[int, str]) -> list[Member]:
    """What the text of LVM2 says of images by their numbers, on which a physical volume begins at these sectors."""
    volumes, texts = physical(labels, names)
    found = {member for text in texts for volume in raid_volumes(text) for member in volume.members(volumes)}
    return sorted(found, key=lambda it: (it.array, it.slot or 0, it.image))


def lvm_starts(labels: Mapping[int, int], names: Mapping[int, str]) -> dict[int, tuple[int, ...]]:
    """The sectors of images by their numbers, on which a physical volume begins at these sectors, at which the text of LVM2 says that parts of
    logical volumes begin, of whatever type these are."""
    volumes, texts = physical(labels, names)
    found: dict[int, set[int]] = collections.defaultdict(set)
    for text in texts:
        for volume, first in segments_of(text):
            if volume in volumes:
                image, start = volumes[volume]
                found[image].add(start + first)
    return {image: tuple(sorted(starts)) for image, starts in sorted(found.items())}


def starts_line(name: str, starts: Sequence[int]) -> str:
    """What is said of where parts begin on an image."""
    return f"metadata on {name} (LVM2): parts of volumes begin at {'sector' if len(starts) == 1 else 'sectors'} {', '.join(map(str, starts))}"


def segments_of(text: str) -> list[tuple[str, int]]:
    """The identifier of a physical volume and a sector on it for each part of a logical volume that a text of LVM2 names; none where it is none."""
    try:
        groups = [group for group in map(lvm.folder, lvm.read_text(text).values()) if "physical_volumes" in group]
        return [it for group in groups[:1] for it in stripes_of(group)]
    except (KeyError, ValueError, IndexError, StopIteration):
        return []


def stripes_of(group: lvm.Folder) -> Iterator[tuple[str, int]]:
    """The same of a group."""
    extent, there = lvm.number(group, "extent_size"), {key: lvm.folder(value) for key, value in lvm.folder(group["physical_volumes"]).items()}
    for body in lvm.folder(group.get("logical_volumes")).values():
        for segment in (lvm.folder(it) for key, it in lvm.folder(body).items() if lvm.SEGMENT.fullmatch(key)):
            stripes = segment.get("stripes")
            for name, place in zip(stripes[::2], stripes[1::2]) if isinstance(stripes, list) else ():
                if name in there:
                    yield str(there[name]["id"]).replace("-", ""), lvm.number(there[name], "pe_start") + int(place) * extent


def newest(area: bytes) -> str:
    """The text of LVM2 of the greatest number in the start of a physical volume, which keeps those before it; empty where there is none."""
    best, most = "", -1
    for match in re.finditer(rb"[\w.+-]+ \{\nid = \"", area):
        text = area[match.start():area.find(b"\0", match.start())].decode("utf-8", "replace")
        number = re.search(r"^seqno = (\d+)$", text, re.MULTILINE)
        if number and int(number[1]) > most:
            best, most = text, int(number[1])
    return best


def head_of(member: Member) -> str | None:
    """Level, pattern and order of Q in the words of a set; None where a set has no such words."""
    if member.level == "raid0":
        return "0:plain:none"
    if member.level == "raid4":
        return "5:parity-last:none"
    if member.level == "raid5" and member.layout in PATTERNS:
        return f"5:{PATTERNS[member.layout]}:none"
    if member.level == "raid6":
        if member.layout in PATTERNS:
            return f"6:{PATTERNS[member.layout]}:after-q"
        if member.layout in DDF:
            return "6:{}:{}".format(*DDF[member.layout])
        if member.layout in WITHOUT_Q:
            return f"6:{WITHOUT_Q[member.layout]}:after-q"
    if member.level == "raid10" and member.layout == "near=2":
        return "near2"
    return None


def arrays(members: Sequence[Member]) -> list[tuple[Member, ...]]:
    """The members by the arrays that they name, those with the most first; of an image of one array what has seen the most events."""
    found: dict[tuple[str, str], dict[int, Member]] = collections.defaultdict(dict)
    for member in sorted(members, key=lambda it: it.events or 0):
        found[member.source, member.array][member.image] = member
    return sorted((tuple(sorted(it.values(), key=lambda member: member.image)) for it in found.values()), key=lambda it: -len(it))


def old(members: Sequence[Member]) -> list[Member]:
    """The members of an array that have seen fewer events than others, by more than those that are written one after the other as a run ends."""
    most = max((it.events or 0 for it in members), default=0)
    return [it for it in members if it.events is not None and it.events + 1 < most]


def word_of(members: Sequence[Member], images: int) -> str | None:
    """The set that metadata of one array name, over so many images; None where it tells too little, where a set has no such words, or where two
    images claim one slot. An old member is in no slot."""
    left_out = old(members)
    placed = [it for it in members if it not in left_out and it.slot is not None]
    slots = {it.slot: it.image for it in placed}
    first = placed[0] if placed else None
    head = head_of(first) if first else None
    if not first or not head or not first.chunk or len(slots) < len(placed):
        return None
    if any(it.offset is None or (it.slot or 0) >= first.disks for it in placed):
        return None
    offsets = {it.image: it.offset for it in placed}
    if len(set(offsets.values())) == 1:
        offset = str(first.offset)
    elif len(offsets) == images:
        offset = "+".join(str(offsets[image]) for image in sorted(offsets))
    else:
        return None
    return f"{head}:{first.chunk}:{offset}:" + ",".join(str(slots.get(slot, "-")) for slot in range(first.disks))
