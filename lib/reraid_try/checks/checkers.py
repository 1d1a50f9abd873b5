"""Looks at volumes: what is in them, and what the checkers of their file systems say. None of these changes anything."""

import dataclasses
import os
import shutil
from collections.abc import Callable, Collection, Sequence

from ..calls.commands import Answer, Runner
from ..calls.memory import bounded
from ..calls.meter import Meter
from ..evidence import heads, tables, unread
from ..units import GIB, SECTOR, size_said
from . import joints, lost_files, lvm, roots, spread, wholes
from .joints import Grid
from .lost_files import Asked, LostFiles
from .lvm import Physical, Piece
from .systems import LENGTH_BYTES, SYSTEMS, TOOLS, System, system_of
from .verdicts import MANY_FILES, Finding, Score, Verdict
from .volumes import Region, Room, Volume

BLKID = "blkid"
# A checker may take so many times as long as a step, and files are looked for so many times as long.
CHECKED_TIMES, FILES_TIMES = 10, 2
# What a fault says little of, which a checker found in a volume whose end was not written.
CUT = ", over only its first bytes, for lack of space; this tells nothing about the rest"
# What is said of thin volumes, whose places no text of LVM2 has.
THIN = "thin volumes, which only LVM2 reads, so intact files decide:"
# What is said where there is no checker of a file system, and where one found only that it was not unmounted.
UNCHECKED, MINOR = "no checker, so intact files decide", ", only that it was not unmounted, so intact files decide"
# Long files are read at the borders of chunks for this part of the time of a step.
JOINTS_PART = 4
# A volume may lack so much of a region at its end.
MAX_LACKING = 4


def is_there(tool: str) -> bool:
    """A tool is installed; root's too."""
    return shutil.which(tool) is not None or os.path.exists(f"/usr/sbin/{tool}")


def read_at(path: str, first: int, count: int) -> bytes:
    """Some bytes of a volume, zeros where they cannot be read."""
    with unread.opened(path) as file:
        file.seek(first)
        return file.read(count)


def lacking(length: int, there: int) -> int:
    """How many bytes of a region of so many lie behind the end of a volume that has so many of them; 0 where that is too much to be the end of a
    volume that was cut."""
    lacks = max(0, length - there)
    return lacks if MAX_LACKING * lacks <= length else 0


def seen_length(system: System, told: int, there: int, lacks: int) -> int:
    """How many bytes the checker of a file system sees: all that is there, and zeros for what lies behind the end; or just as many as it says."""
    if lacks:
        return there + lacks
    return min(told, there) if system.exact and told else there


def put_at(path: str, first: int, data: bytes) -> None:
    """Puts bytes into a copy of a region."""
    with open(path, "r+b") as file:
        file.seek(first)
        file.write(data)


def unended(system: System, answer: Answer | None, meter: Meter | None, images: int) -> str:
    """What is said of a checker that did not come to its end, or was not asked; with the bound at which it was ended, of so many images."""
    if answer is None:
        return "not enough space to check it"
    if answer.full and meter:
        return f"{system.tool} stopped after {meter.most / max(1, images) / GIB:.3g} GiB of each image"
    return f"{system.tool} took too long"


@dataclasses.dataclass
class Looked:
    """A volume while it is looked at: its verdict, the regions that are still to be looked at, and the files and first bytes of those that were."""

    volume: Volume
    verdict: Verdict
    todo: list[Region]
    seen: set[tuple[str, int]] = dataclasses.field(default_factory=set)


def no_others(_: Collection[str]) -> Sequence[Physical]:
    """No physical volume is known beside that of a volume."""
    return ()


class Checkers:
    """Looks at volumes with the tools that are there. `beside` says which physical volumes of some identifiers the images have by themselves."""

    def __init__(self, commands: Runner, room: Room, seconds: float, most: int,
                 beside: Callable[[Collection[str]], Sequence[Physical]] = no_others) -> None:
        self.commands, self.room, self.seconds, self.most, self.beside = commands, room, seconds, most, beside
        self.there = {tool for tool in (*TOOLS, BLKID) if is_there(tool)}

    def kind_of(self, path: str, region: Region) -> str | None:
        """What `blkid` calls the head of a region; where it is not there, what it begins with."""
        first = region.pieces[0]
        if BLKID in self.there:
            words: list[str | int] = [BLKID, "-p", "-O", first.first, "-S", first.length, "-o", "export", first.path or path]
            lines = self.commands.run(words, seconds=self.seconds).out.splitlines()
            return dict(line.split("=", 1) for line in lines if "=" in line).get("TYPE")
        kind = heads.sniff(read_at(first.path or path, first.first, heads.HEAD_BYTES))
        return kind if kind in SYSTEMS else None

    def regions(self, volume: Volume) -> tuple[str | None, list[Region]]:
        """The kind of the volume's partition table; the whole volume, and its partitions, also where they end behind it."""
        with unread.opened(volume.path) as file:
            def read(place: int, count: int) -> bytes:
                file.seek(place)
                return file.read(count)
            table = tables.read_table(read, volume.length // SECTOR)
        found = [Region("", (Piece(0, volume.length),))]
        for it in table.partitions:
            if 0 < it.first * SECTOR < volume.length:
                found.append(Region(f"at {it.first}", (Piece(it.first * SECTOR, it.count * SECTOR),)))
        return table.kind, found

    def ask(self, system: System, volume: Volume, region: Region, length: int, meter: Meter | None) -> Answer | None:
        """What the checker of a region says, which sees so many bytes of it and is ended at a meter's bound; None where there is no room for it."""
        seconds = CHECKED_TIMES * self.seconds
        if system.at and length <= region.there(volume.length) and len(region.pieces) == 1:
            return bounded(self.commands, system.pipeline(volume.path, region.first), seconds, meter)
        if (len(region.pieces) > 1 or system.writes) and length > self.most:
            return None
        with (self.room.copied if system.writes else self.room.region)(volume, region, length) as path:
            if path is None:
                return None
            if system.ends and path != volume.path and length > region.there(volume.length):
                put_at(path, length - SECTOR, read_at(volume.path, region.first, SECTOR))
            return bounded(self.commands, system.pipeline(path), seconds, meter)

    def checked(self, it: Looked, region: Region, kind: str) -> tuple[Finding, list[Region]]:
        """What the checker of a region says, and the regions that were found in it."""
        system, volume = system_of(kind), it.volume
        head = read_at(region.pieces[0].path or volume.path, region.first, LENGTH_BYTES)
        told = system.length_of(head)
        there = region.there(volume.length)
        finding = Finding(region.name, kind, pieces=region.up_to(min(told or there, there)), lacks=lacking(told or region.length, there), told=told,
                          there=there, device=region.device)
        if system.within:
            return finding, self.held(region, system.within(head))
        if system.tool is None or system.tool not in self.there:
            finding.said = f"{system.tool} is not installed" if system.tool else "encrypted" if system.opened else UNCHECKED
            return finding, []
        if self.is_long(volume) and (wrong := self.head_fault(volume, region, kind, there) or self.files_fault(it, region, kind)):
            finding.clean, finding.said = False, wrong
            return finding, []
        meter = volume.meter(self.most if self.is_long(volume) else None)
        answer = self.ask(system, volume, region, seen_length(system, told, there, finding.lacks), meter)
        if answer is None or answer.status is None:
            finding.said = unended(system, answer, meter, volume.images)
            it.verdict.lacked_room |= answer is None
            return finding, []
        undecided = answer.good and system.holds or not answer.good and (volume.cut or system.is_minor(answer.out))
        finding.clean = None if undecided else answer.good
        finding.said = f"{system.tool} reports no errors" if answer.good else f"{system.tool} reports errors (status {answer.status})"
        finding.said += CUT if volume.cut and not answer.good else MINOR if undecided and not answer.good else ""
        finding.said += ", all data checksums match" if finding.summed else ""
        behind = " and a copy of its first sector" if system.ends else ""
        finding.said += f", with zeros{behind} in place of its last {size_said(finding.lacks)}, which are missing" if finding.lacks else ""
        return finding, self.inner(region, volume, answer.out, finding) if system.holds else []

    def is_long(self, volume: Volume) -> bool:
        """A volume is longer than what is read of it, so that little of it tells whether it is right before a checker reads more."""
        return volume.length > self.most and not volume.cut

    def head_fault(self, volume: Volume, region: Region, kind: str, there: int) -> str:
        """What tells that a file system begins elsewhere, or that the volume is another one, without its checker; nothing where nothing does, or
        where it is not in one piece."""
        if len(region.pieces) > 1 or region.pieces[0].path:
            return ""
        with unread.opened(volume.path) as file:
            return roots.fault(kind, spread.reader(file, volume.length), region.first, there)

    def files_fault(self, it: Looked, region: Region, kind: str) -> str:
        """That most of many files are broken that the tables of a file system tell of; nothing where they are not. A checker is asked only then,
        since it may read a wrong volume for hours."""
        if len(region.pieces) > 1 or region.pieces[0].path:
            return ""
        rows = it.verdict.row, it.verdict.chunk
        told = spread.by_tables(it.volume.path, it.volume.length, (kind, region.first), rows, FILES_TIMES * self.seconds)
        if told.found > it.verdict.files.found:
            it.verdict.files = told
        return "most files all over it are broken" if told.found >= MANY_FILES and 2 * told.whole < told.found else ""

    def held(self, region: Region, first: int) -> list[Region]:
        """What a region holds from one of its bytes on; nothing where that is not told."""
        place = Piece(region.first + first, region.length - first)
        return [Region(f"{region.name} at {place.first // SECTOR}".strip(), (place,))] if 0 < first < region.length else []

    def inner(self, region: Region, volume: Volume, text: str, finding: Finding) -> list[Region]:
        """The logical volumes of a physical one, by its text, of which most is there; on which other physical volumes some lie stands in its
        finding."""
        own = lvm.identifier(read_at(volume.path, region.first, lvm.LABEL_SECTORS * SECTOR))
        others = lvm.others_of(text, own)
        finding.own, finding.beside = own or "", tuple(self.beside(others))
        there = {it.identifier for it in finding.beside}
        finding.apart = tuple(identifier for identifier in others if identifier not in there)
        finding.said += "".join(f"; its volume group is also on {it.said}" for it in finding.beside)
        named = (" ".join(filter(None, (it, others[it]))) for it in finding.apart)
        finding.said += "".join(f"; its volume group is also on another physical volume, {it}" for it in named)
        finding.thin = lvm.thin_volumes(text)
        finding.said += f"; {THIN} {' '.join(finding.thin)}" if finding.thin else ""
        found = [Region(f"{region.name} {it.said}:".strip(), it.pieces, it.device)
                 for it in lvm.logical_volumes(text, region.first, own, finding.beside)]
        return [it for it in found if (it.pieces[0].path or it.first < volume.length) and
                (it.there(volume.length) == it.length or lacking(it.length, it.there(volume.length)))]

    def look(self, volume: Volume, origins: Sequence[int], chunk: int, row: int, files: bool = True, period: int = 0) -> Verdict:
        """What is in a volume whose chunks, and rows of these, have so many bytes, at its start, in its partitions and at these sectors: its tables,
        its file systems, and the files that are whole, where these are asked for. Its layout repeats after `period` chunks."""
        kind, todo = self.regions(volume)
        notes = ["only its first bytes were read"] if volume.cut else []
        it = Looked(volume, Verdict(notes=notes, length=volume.length, chunk=chunk, row=row, lacked_room=volume.cut), todo)
        if kind:
            it.verdict.findings.append(Finding("", kind, table=True))
        self.look_into(it)
        for place in (origin * SECTOR for origin in sorted(set(origins)) if origin * SECTOR < volume.length):
            it.todo = [Region(f"at {place // SECTOR}", (Piece(place, volume.length - place),))]
            self.look_into(it)
        if it.verdict.findings and not it.verdict.inner and not it.verdict.thin:
            last = it.verdict.findings[-1]
            it.verdict.empty, last.said = True, f"{last.said}; nothing recognized in it" if last.apart else "nothing recognized in it"
        if files and it.verdict.findings and not it.verdict.wholly_summed and not it.verdict.closed:
            self.count_files(it, period)
        it.verdict.counted = files
        return it.verdict

    def lost_files(self, volume: Volume, it: Finding, lost: Sequence[tuple[int, int]]) -> LostFiles:
        """Return the files of a file system that touch what is lost of its volume, by the tools of its kind."""
        place = it.place or Piece(0, 0)
        runs = lost_files.within(lost, place.first, place.length)
        where, sectors = f"{it.region} {it.kind}".strip(), sum(end - begin for begin, end in runs) // SECTOR
        if it.kind not in lost_files.TELLERS:
            return LostFiles(where, sectors, note=f"the files of {it.kind} that touch them are not looked for")
        block_of, tell, at = lost_files.TELLERS[it.kind]
        size = block_of(read_at(volume.path, place.first, LENGTH_BYTES))
        blocks = lost_files.blocks_of(runs, size)
        if at:
            found = tell(self.commands, Asked(volume.path, place.first, blocks[:lost_files.MAX_BLOCKS], size), CHECKED_TIMES * self.seconds)
        else:
            with self.room.region(volume, Region("", (place,)), place.length) as path:
                asked = Asked(path or "", 0, blocks[:lost_files.MAX_BLOCKS], size)
                found = tell(self.commands, asked, CHECKED_TIMES * self.seconds) if path else None
        return LostFiles(where, sectors, *lost_files.told(found, len(blocks), it.kind))

    def look_into(self, it: Looked) -> None:
        """Looks into the regions of a volume, and into those that are found in them."""
        while it.todo:
            region = it.todo.pop(0)
            place = region.pieces[0].path, region.first
            if place not in it.seen and (kind := self.kind_of(it.volume.path, region)):
                finding, inner = self.checked(it, region, kind)
                it.verdict.findings.append(finding)
                it.todo += inner
            it.seen.add(place)

    def count_files(self, it: Looked, period: int) -> None:
        """Count the files that are whole, and those that may be long if the first ones do not tell. Of a volume that these speak for, read long
        files at the borders of chunks. In a volume that is longer than what is read of it, count those that its tables tell of, all over it."""
        most, verdict = min(it.volume.length, self.most), it.verdict
        if self.is_long(it.volume):
            if not verdict.files.found and not verdict.settled:
                verdict.files = spread.in_windows(it.volume.path, it.volume.length, FILES_TIMES * self.seconds)
            return
        verdict.files = wholes.count(it.volume.path, 0, most, FILES_TIMES * self.seconds)
        doubted = verdict.score is Score.CHECKED or verdict.within_chunks or verdict.unchecked
        if verdict.clean and verdict.unjoined or verdict.files.more and doubted and (verdict.clean or verdict.unchecked):
            verdict.files.long = wholes.count_long(it.volume.path, most, verdict.row, verdict.chunk, self.seconds)
        if period > 1 and verdict.whole and not verdict.summed and verdict.score is Score.WHOLE:
            verdict.joints = joints.look(it.volume.path, most, Grid(verdict.chunk, period), self.seconds / JOINTS_PART)
