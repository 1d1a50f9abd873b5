"""What a page needs beside what the run says anyway: strips, digests, relations, landmarks, where parity holds, and what was not tried."""

import dataclasses
import os
import time
from collections.abc import Collection, Iterator, Sequence
from typing import Any

from ..calls.commands import Runner
from ..errors import OutsideError, said
from ..evidence.images import Image
from ..evidence.maps import Map
from ..evidence.relations import Relations
from ..evidence.ties import MAX_ROWS, Ties
from ..opening import Opened
from ..options import LEVELS, Options
from ..policy.search import Search
from ..report.report import Report
from ..units import ALL, MIB, SECTOR, counted
from . import host, page, regions, strips
from .strips import Hashing, Strip
from .writing import PageFile

# So many landmarks of a kind on an image are drawn; more are thinned out.
MAX_MARKS = 2000
# What this search knows nothing of.
UNKNOWN = "not searched at all: RAID 10 with near and far copies at once or with far_sets, RAID 50 and 60 as one array. Also not: RAID 5E and the " \
          "like, arrays in mid-reshape, RAID 0 over disks of unequal size"


def length_of(name: str) -> int:
    """Return the whole sectors of an image."""
    try:
        with open(name, "rb") as file:
            return file.seek(0, os.SEEK_END) // SECTOR
    except OSError as error:
        raise OutsideError(f"{name} cannot be read: {said(error)}") from error


def unread(it: Map | None, sectors: int) -> list[list[int]]:
    """Return the runs of sectors that a map calls unread, each as its first sector and how many they are."""
    return [[gap.start, len(gap)] for gap in it.gaps(sectors)] if it else []


def thinned(places: Collection[int]) -> list[int]:
    """Places in order, at even distances in their list where they are many."""
    step = max(1, -(-len(places) // MAX_MARKS))
    return sorted(places)[::step]


class Casefile:
    """The page of a run, while it is made. Images are read for it only where a page or digests are asked for."""

    def __init__(self, options: Options, words: Sequence[str], report: Report, commands: Runner) -> None:
        self.options, self.report, self.commands = options, report, commands
        self.began = time.monotonic()
        self.hashing: Hashing | None = None
        self.file = PageFile(options.report) if options.report else None
        if options.report or options.as_json:
            report.tell("run", **host.fields(words), case=options.case, examiner=options.examiner)

    def begin(self, names: Sequence[str], opened: Sequence[Opened] = ()) -> None:
        """The files of the images as they are now, and their digests, in the background of what follows."""
        parts = {it.path: it.container.parts for it in opened}
        if self.options.report or self.options.as_json:
            for number, name in enumerate(names):
                self.report.tell("files", image=number, files=[host.file_fields(part) for part in parts.get(name, (name,))])
        if self.options.hashes:
            lengths = [length_of(name) for name in names]
            named = [(number, name, length) for number, (name, length) in enumerate(zip(names, lengths))]
            self.hashing = Hashing(named, strips.cell_of(lengths))

    def end(self, search: Search, status: int, ended: bool = False) -> None:
        """All that is left to be told at the end of a run, and the page. `ended` says that the run was told to end."""
        if self.hashing:
            self.digests(self.hashing, search.images, ended)
        if not self.file:
            return
        if search.images:
            self.strips(search.images, ended)
            self.marks(search)
            # No command begins any more in a run that was told to end.
            if not ended:
                self.relations(search.images)
                self.parity(search)
                self.lost_files(search)
            for line in left_out(search, ended):
                self.report.tell("not tried", line)
        self.report.tell("finished", ended=host.now(), seconds=int(time.monotonic() - self.began), status=status)
        self.file.write(page.page(self.report.record))
        self.report.say("page", f"{self.file.name} is the report", page=self.file.name)

    def close(self) -> None:
        """Ends what goes on in the background."""
        if self.hashing:
            self.hashing.end()

    def digests(self, hashing: Hashing, images: Sequence[Image], ended: bool) -> None:
        """Waits for the digests, and says them; where the run was told to end those that are known."""
        while not ended and not hashing.wait(1):
            self.report.bar.show("computes the hashes of the images, MiB", hashing.done // MIB, hashing.total // MIB)
        hashing.end()
        for it in hashing.found:
            name = next((image.called for image in images if image.number == it.image), "")
            told = f"SHA-256 of image {it.image} {name}: " + (it.sha256 or it.why)
            self.report.say("hash", told, image=it.image, sha256=it.sha256, bytes=it.size, why=it.why)

    def strips(self, images: Sequence[Image], quick: bool) -> None:
        """Where each image holds data: of all that was read for its digest, of all of small ones where time is, or by a few places."""
        cell = strips.cell_of([image.sectors for image in images])
        read_wholly = {it.image: it.strip for it in self.hashing.found if it.strip} if self.hashing else {}
        small = not quick and sum(image.sectors for image in images) * SECTOR <= strips.SMALL
        for number, image in enumerate(images, 1):
            self.report.bar.show("looks for the places of data on the images", number, len(images))
            strip = read_wholly.get(image.number) or looked_at(image, cell, small)
            if strip:
                self.report.tell("strip", image=image.number, cell=strip.cell, filled=strip.filled, looks=strip.looks,
                                 unread=unread(image.unread, image.sectors), inferred=image.map is None)

    def relations(self, images: Sequence[Image]) -> None:
        """How the images depend on one another, row by row; nothing where that is not to be had."""
        self.report.bar.show("tests which images parity matches")
        end = min(image.sectors for image in images)
        step = max(1, -(-end // MAX_ROWS))
        found = Ties(self.commands, images, self.options.seconds).relations([image.number for image in images], 0, end, step)
        if found:
            self.report.tell("relations", **fields(found))

    def marks(self, search: Search) -> None:
        """The landmarks that some survey found, by their kinds."""
        kinds: dict[str, dict[int, set[int]]] = {}
        for mark, kind in ((mark, group.kind) for scope in search.scopes for group in scope.plan.groups for mark in group.marks):
            kinds.setdefault(kind, {}).setdefault(mark.image, set()).add(mark.sector)
        for kind, places in kinds.items():
            self.report.tell("marks", kind=kind, marks=[[image, sector] for image, found in sorted(places.items()) for sector in thinned(found)])

    def parity(self, search: Search) -> None:
        """Where parity holds for the best candidates."""
        for number, it in search.best_told():
            self.report.bar.show(f"tests parity region by region for candidate {number}")
            found = regions.regions(it, self.options.jobs)
            if found:
                told: dict[str, Any] = {"class": number, "set": it.word.text, "regions": [dataclasses.asdict(one) for one in found]}
                self.report.tell("parity", how=regions.told(found), **told)

    def lost_files(self, search: Search) -> None:
        """The files of the best candidate's volume that touch what is lost."""
        for number, it in search.best_told()[:1]:
            self.report.bar.show(f"looks for files of candidate {number} that touch lost sectors")
            for found in search.tests.lost_files(it):
                self.report.tell("lost files", f"candidate {number}: {found.text()}", **{"class": number, "set": it.word.text, "where": found.where,
                                 "sectors": found.sectors, "files": list(found.files)})


def fields(found: Relations) -> dict[str, Any]:
    """Return what is told of relations: the rows with their zero images and the sets of images that are tied there, and what is common to all
    rows."""
    rows = [{"first": it.first, "last": it.last, "zero": sorted(it.zero), "tied": [sorted(them) for them in it.tied()]} for it in found.rows]
    together = [{"images": sorted(it.images), "rows": it.rows} for it in found.together]
    return {"step": found.step, "rows": rows, "together": together, "alone": sorted(found.alone), "free": found.free, "total": found.total}


def looked_at(image: Image, cell: int, small: bool) -> Strip | None:
    """Return the strip of an image, by all of it where images are small, and else by a few places; None where it cannot be read."""
    try:
        if small:
            answer = strips.whole(image.name, image.number, image.sectors, cell)
            return answer[0] if answer else None
        return strips.sampled(image.name, image.number, image.sectors, cell)
    except (OSError, OutsideError):
        return None


def left_out(search: Search, ended: bool) -> Iterator[str]:
    """Yield what was not tried, a line each."""
    options = search.options
    longest = max(image.sectors for image in search.images) * SECTOR
    if options.first < min(longest, ALL):
        yield f"only the first {options.first // MIB} MiB of each image were searched for landmarks; the longest image has {longest // MIB} MiB"
    if ended:
        yield "the run was interrupted; all later steps are missing"
    yield from shapes_left(search)
    if not ended and search.scopes and not any(len(scope.evidence.images) == len(search.images) for scope in search.scopes):
        yield "the search over all images together, since what was found before it was enough"
    left = [level for level in LEVELS if level not in options.levels]
    if left:
        yield f"levels that --levels leaves out: {', '.join(left)}"
    if options.members:
        yield f"numbers of disks other than {', '.join(map(str, options.members))}, because of --members"
    if search.tests.put_off:
        yield f"{counted(len(search.tests.put_off), 'layout')} that passed, deferred and then not checked"
    passed_over = sum(scope.passed_over for scope in search.scopes)
    if passed_over:
        yield f"{counted(passed_over, 'step')} skipped, since landmarks by themselves, or parity by itself, allow no layout"
    yield UNKNOWN


def shapes_left(search: Search) -> Iterator[str]:
    """Yield the shapes without a search step."""
    window = max((scope.evidence.window for scope in search.scopes), default=0)
    if window:
        yield f"parity was tested over at most {counted(window, 'sector')} of each disk in a step"
    shapes = dict.fromkeys(shape.line() for scope in search.scopes for shape in scope.shapes.tiers().all)
    left = [line for line in shapes if line not in search.shapes_tried]
    if left:
        yield "no search step for: " + "; ".join(left)
