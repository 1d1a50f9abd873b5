"""What to type next for a candidate: the lines that mount its volume, which work when all are pasted at once, and those that end that."""

import dataclasses
import os
import shlex
from collections.abc import Iterable, Iterator, Sequence

from ..calls.sets import Word
from ..checks.candidates import Candidate
from ..checks.members import Members, named, unread_of
from ..checks.verdicts import Finding, Verdict
from ..evidence.images import Image
from ..evidence.maps import maps_text
from ..units import SECTOR

LVM = "LVM2_member"
# The most characters of maps that are typed.
MAX_TYPED = 4000


@dataclasses.dataclass(frozen=True)
class Line:
    """A line to type, and those that undo it later, in order."""

    text: str
    ends: tuple[str, ...] = ()


@dataclasses.dataclass(frozen=True)
class Typed:
    """The lines to type, in order, and those that end what they begin."""

    lines: tuple[str, ...]
    ends: tuple[str, ...]


def typed_of(lines: Iterable[Line]) -> Typed:
    """Return these lines with what ends them: the last one first, each end once."""
    found = list(lines)
    return Typed(tuple(it.text for it in found), tuple(dict.fromkeys(end for it in reversed(found) for end in it.ends)))


@dataclasses.dataclass(frozen=True)
class Shown:
    """A volume that is shown as a file of so many bytes: the name of its class, and the path of the file."""

    folder: str
    path: str
    length: int

    def loop(self, first: int, path: str = "", length: int = 0) -> Line:
        """Return the line that makes a disk of a file from a byte on: of the volume, or of another file, and then of so many bytes."""
        start = f"-o {first} " if first else ""
        size = f"--sizelimit {length} " if length else ""
        return Line(f"losetup -r -f --show {start}{size}{path or self.path}", (f"losetup -d {self.device(first, path)}",))

    def device(self, first: int, path: str = "") -> str:
        """Return what the shell puts in place of the disk that is made so."""
        return f"$(losetup -n -O NAME -j {path or self.path} -o {first})"


def first_of(it: Finding) -> int:
    """Return the byte at which a finding begins."""
    return it.place.first if it.place else 0


def options_of(it: Finding, shown: Shown, others: bool) -> str:
    """Return the options that mount a file system in one piece of a file; with `others` among others there."""
    options = f"{it.system.mount},loop" + (f",offset={first_of(it)}" if first_of(it) else "")
    # Of two file systems of one file the second is refused where the first might reach into it.
    end = first_of(it) + (it.place.length if it.place else 0)
    return options + (f",sizelimit={end - first_of(it)}" if others and end < shown.length else "")


def groups(it: Finding, shown: Shown, names: Sequence[str]) -> Iterator[Line]:
    """Yield the lines that make disks of a physical volume, and of the others of its group that images have, and make its logical volumes known."""
    yield shown.loop(first_of(it))
    for one in it.beside if names else ():
        yield shown.loop(one.first, shlex.quote(names[one.image]), one.length)
    yield Line("vgchange -ay", (f"vgchange -an $(pvs --noheadings -o vg_name {shown.device(first_of(it))})",))


def opened(it: Finding, shown: Shown) -> Line:
    """Return the line that opens an encrypted volume and mounts it: one line, since a key is asked for in between."""
    device, ends = shown.path, ["umount /mnt", f"cryptsetup close {shown.folder}"]
    if first_of(it):
        loop = shown.loop(first_of(it))
        device, ends = f"$({loop.text})", [*ends, *loop.ends]
    return Line(f"{shlex.join(it.system.opened)} {device} {shown.folder} && mount -o ro /dev/mapper/{shown.folder} /mnt", tuple(ends))


def mounts(verdict: Verdict, shown: Shown, names: Sequence[str] = ()) -> Iterator[Line]:
    """Yield the lines that mount what was found in a volume, for reading; or that make a disk of it for LVM2; or open what is encrypted. `names` are
    those of the images."""
    found = [it for it in verdict.findings if it.place]
    logical = [it for it in verdict.findings if len(it.pieces) > 1 and it.device and it.system.mount]
    plain = [it for it in found if it.system.mount and not (logical and it.device)]
    thin = verdict.thin
    if logical or thin or not plain:
        for it in (it for it in found if it.kind == LVM):
            yield from groups(it, shown, names)
        plain += [it for it in verdict.findings if logical and it.device and it.system.mount]
    for number, it in enumerate(plain):
        where = "/mnt" if len(plain) == 1 else f"{shown.folder}.{number}"
        make = f"mkdir -p {where} && " if len(plain) > 1 else ""
        what = shlex.quote(it.device) if logical and it.device else shown.path
        options = it.system.mount if logical and it.device else options_of(it, shown, len(plain) > 1)
        yield Line(f"{make}mount -o {options} {what} {where}", (f"umount {where}",))
    for number, device in enumerate(thin, len(plain)):
        where = "/mnt" if len(thin) == 1 and not plain else f"{shown.folder}.{number}"
        make = f"mkdir -p {where} && " if where != "/mnt" else ""
        yield Line(f"{make}mount -o ro {shlex.quote(device)} {where}", (f"umount {where}",))
    for it in verdict.encrypted:
        yield opened(it, shown)


def volume_lines(members: Members, shown: Shown, end: int | None) -> Iterator[Line]:
    """Yield the lines that show the volume of a set: containers are opened first, and maps that lie beside no image are written."""
    maps, options = typed_maps(members), ["--end", str(end)] if end else []
    for image in members.images:
        if image.opened:
            # Its server may still be read for a moment when the volume over it is unmounted.
            yield from (Line(text, (f"umount -l {os.path.dirname(image.opened.typed)}",) if last else ())
                        for text, last in zip(image.opened.lines, [False, True, False]))
    if maps:
        yield Line(f"printf '{maps}' > {shown.folder}.maps", (f"rm {shown.folder}.maps",))
        options += ["--maps", f"{shown.folder}.maps"]
    names = [image.opened.typed if image.opened else image.name for image in members.images]
    yield Line(shlex.join(["reraid-mount", *options, members.word.text, shown.folder, *names]), (f"umount {shown.folder}",))


def commands(number: int, it: Candidate, images: Sequence[Image]) -> Typed:
    """Return what to type for a candidate. Of a volume that ends before its file system a copy is made that is long enough."""
    members = named(it.word, images)
    folder, length = f"candidate{number}", it.word.sectors(it.end or members.end) * SECTOR
    shown, lacks = Shown(folder, f"{folder}/volume", length), max((finding.lacks for finding in it.found.findings), default=0)
    lines = list(volume_lines(members, shown, it.end))
    if lacks:
        copy = f"{folder}.img"
        lines += [Line(f"cp --sparse=always {shown.path} {copy}", (f"rm {copy}",)), Line(f"truncate -s {length + lacks} {copy}")]
        shown = Shown(folder, copy, length + lacks)
    return typed_of([*lines, *mounts(it.found, shown, [image.opened.typed if image.opened else image.name for image in images])])


def needs_maps(word: Word, image: Image) -> bool:
    """Return whether sectors of an image of a set count as unread, and no map of it lies where `reraid-mount` looks for it."""
    return unread_of(word, image) is not None and (not image.map or image.opened is not None)


def typed_maps(members: Members) -> str:
    """Return all maps of the images of a set as `printf` takes them, if one of them lies nowhere; nothing if none does so, or if they are too long to
    be typed."""
    if not any(needs_maps(members.word, it) for slot, it in enumerate(members.images) if slot in members.word.slots):
        return ""
    unread = [unread_of(members.word, image) for image in members.images]
    plain = [dataclasses.replace(it, text=it.plain) if it else None for it in unread]
    text = (maps_text(plain) or "").replace("\n", "\\n")
    return text if len(text) <= MAX_TYPED else ""


def of_maps(word: Word, images: Sequence[Image], is_typed: bool = False) -> list[str]:
    """Return what a mount of the set shows where sectors of its images count as unread."""
    damaged = [image for image in images if unread_of(word, image)]
    if not damaged:
        return []
    if any(needs_maps(word, image) for image in damaged) and not is_typed:
        why = "the texts that count as unread" if any(not image.map for image in damaged) else "what a container holds in its unread areas"
        return [f"  (this shows {why}: place the mapfile of each image beside it; --json prints those of texts in the event fill)"]
    what = "what counts as unread" if is_typed else "what the mapfiles list as unread"
    if word.is_mirrored:
        return [f"  ({what} is read from another copy if one has it; what none has cannot be read)"]
    if word.spare < 1:
        return [f"  ({what} cannot be read: no parity is left to compute it)"]
    return [f"  ({what} is computed from parity if the other images have their part of it; what is lost cannot be read)"]
