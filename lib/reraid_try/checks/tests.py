"""Tests candidates: reads their volumes, and lets the checkers read them."""

import concurrent.futures
import functools
from collections.abc import Callable, Hashable, Iterable, Sequence
from typing import TypeVar

from ..calls.commands import Runner
from ..calls.memory import Memory
from ..calls.program import Program
from ..calls.sets import Word
from ..errors import said
from ..evidence import heads, labels, maps
from ..evidence.images import Image, unread_by
from ..options import Options
from ..report.report import Report
from ..units import SECTOR, counted, percent
from . import damage, joints, lost_files
from .candidates import Candidate, left_most
from .checkers import Checkers
from .looks import Looks
from .lost_files import LostFiles
from .members import Members, named
from .verdicts import Score, Verdict
from .volumes import Room, Source

# Of so many sets all are looked at in their order; of more the first, of which so many classes at most.
FEW, MAX_BEGUN, MAX_CLASSED = 8, 2048, 1024
# More sets at once are put off where parity tells nothing, and so many are looked at that begin with nothing known.
MAX_UNTOLD, MAX_UNKNOWN = 1024, 256
# In so many volumes that have no rating, whatever files are in them, these are looked for at the end.
MAX_COUNTED = 256
# How far into a volume a file system may begin to be looked for before the whole is read, in sectors.
FARTHEST = 131072
# The writing of a volume may take so many times as long as a step.
WRITTEN_TIMES = 20
# So many images are left out of a set at most.
MAX_OUT = 2
One = TypeVar("One")
Other = TypeVar("Other")


def in_classes(program: Program, found: list[Candidate], end: int) -> list[Candidate]:
    """One candidate of each class, with the sets that give the same volume."""
    plain = [it for it in found if not it.word.is_mirrored]
    if len(plain) < 2:
        return found
    classes: dict[int, list[Candidate]] = {}
    for number, it in zip(program.classes([it.word for it in plain[:MAX_CLASSED]], end), plain):
        classes.setdefault(number, []).append(it)
    return [simplest_of(alike) for alike in classes.values()] + plain[MAX_CLASSED:] + [it for it in found if it.word.is_mirrored]


def simplest_of(alike: Sequence[Candidate]) -> Candidate:
    """The candidate of a class with the fewest members, of the lowest level, with the others' sets."""
    found = min(alike, key=lambda it: it.word.simplicity)
    for it in alike:
        if it is not found:
            found.alike += [it.word.text, *it.alike]
    return found


class Tests:
    """Tests the candidates of a run over some images. Those that are put off are kept for its end."""

    def __init__(self, options: Options, commands: Runner, report: Report, room: Room, images: Sequence[Image], memory: Memory | None = None) -> None:
        self.options, self.commands, self.report, self.room = options, commands, report, room
        self.names = tuple(image.name for image in images)
        self.program = Program(commands, self.names, options.seconds, options.jobs)
        self.images = tuple(images)
        self.checks = Checkers(commands, room, options.seconds, options.first, functools.partial(labels.physical, self.images))
        self.maps = maps.maps_text([image.unread for image in images])
        self.looks = Looks(memory, self.maps, self.checks.there, options.seconds, options.first)
        self.put_off: list[Candidate] = []
        self.told: set[str] = set()
        self.late = False

    def begins(self, candidate: Candidate) -> bool:
        """The volume of a candidate begins with something known, or a group of landmarks holds where something known begins."""
        self.ask(candidate, False)
        word = candidate.word
        places = [0, *(origin for origin in candidate.origins if origin < FARTHEST)]
        members = named(word, self.images)
        source = Source(members.word, members.names, candidate.end or members.end)
        pipeline, text = source.beginning(max(places) * SECTOR + heads.HEAD_BYTES)
        data = self.commands.shell(pipeline, text, self.options.seconds).data
        return any(heads.sniff(data[place * SECTOR:place * SECTOR + heads.HEAD_BYTES]) for place in places)

    def ask(self, candidate: Candidate, rows: bool = True) -> None:
        """What `check` says of a candidate: unsound rows, and where each group holds; of one row alone where rows are not asked for. What is known
        already is not asked again."""
        if candidate.unsound is not None or not rows and candidate.groups:
            return
        plan = candidate.scope.checked_by(candidate.step)
        if plan is None or candidate.listed is None:
            return
        told = candidate.scope.program.check(candidate.listed.text, plan if rows else plan.having(window=1))
        if told:
            candidate.groups = told.groups
            candidate.unsound = told.unsound if rows else None
            candidate.left_most = left_most(candidate.step, plan, told.groups)

    def unsound_rows(self, candidate: Candidate, word: Word) -> int:
        """How many rows are unsound of a set like a candidate's."""
        plan = candidate.scope.checked_by(candidate.step)
        told = candidate.scope.program.check(word.text, plan) if plan else None
        return told.unsound if told else candidate.unsound or 0

    def without_damaged(self, tested: Sequence[Candidate]) -> list[Candidate]:
        """The candidates with the fewest unsound rows once more, without the images that make these unsound; those that gain by it, or of which all
        rows are sound then."""
        found = []
        for it in damage.doubted(tested, bool(self.maps)):
            it = it if it.found.counted else self.read(it)
            lesser = [damage.lesser(it, images) for images in self.left_out(it)]
            self.side_by_side(self.read, lesser, "checks the candidates without damaged images")
            found += [one for one in lesser if damage.is_better(one, it)]
        return found

    def left_out(self, candidate: Candidate) -> list[frozenset[int]]:
        """What may be left out of a candidate, by places among the images of its scope: the two images that make most rows unsound, or each one,
        where parity does not tell which that is."""
        listed = candidate.listed or candidate.word
        if listed.spare < damage.TELLING:
            return [frozenset({image}) for image in listed.images]
        words = [listed.without(frozenset({image})) for image in listed.images]
        counts = dict(zip(listed.images, self.side_by_side(lambda word: self.unsound_rows(candidate, word), words,
                                                           "counts inconsistent rows without each image")))
        blamed = damage.blamed(candidate, counts)
        if blamed:
            numbers = [candidate.scope.evidence.images[image].number for image in blamed]
            told = ", ".join(f"{(candidate.unsound or 0) - counts[image]} because of image {number}" for image, number in zip(blamed, numbers))
            self.report.say("blamed", f"  {candidate.word.text}: {candidate.unsound} rows inconsistent, {told}", set=candidate.word.text,
                            unsound=candidate.unsound, images=numbers)
        return [frozenset(blamed[:MAX_OUT])] if blamed else []

    def read(self, candidate: Candidate, files: bool = True) -> Candidate:
        """Looks at the volume of a candidate, for files that are whole too where these are asked for."""
        self.ask(candidate)
        word = candidate.word
        known = self.looks.known(word, candidate.origins, files)
        if known:
            candidate.verdict = known
            return candidate
        members = named(word, self.images)
        source = Source(members.word, members.names, candidate.end or members.end, members.maps)
        most = self.options.first * max(1, int(word.data))
        try:
            with self.room.volume(source, most, WRITTEN_TIMES * self.options.seconds) as volume:
                if volume is None:
                    candidate.verdict = Verdict(notes=["its volume could not be written"])
                else:
                    candidate.verdict = self.checks.look(volume, candidate.origins, word.chunk * SECTOR, word.row * SECTOR, files,
                                                         joints.period_of(word))
                    candidate.verdict.notes += self.lost(members, volume.mounted)
                    self.looks.keep(word, candidate.origins, files, candidate.verdict)
        except OSError as error:
            candidate.verdict = Verdict(notes=[f"its volume could not be read: {said(error)}"])
        return candidate

    def lost(self, members: Members, mounted: bool) -> list[str]:
        """How much of a volume is lost by the maps, where there are some. A mirror is read by its maps only where it is mounted."""
        if members.maps is None:
            return []
        if members.word.is_mirrored:
            return ["how much its maps leave lost is not known" if mounted else "its maps are ignored"]
        program = Program(self.commands, members.names, self.options.seconds, self.options.jobs)
        told = program.lost(members.word.text, members.end, members.maps)
        if told is None:
            return ["how much the maps leave lost is not known"]
        by = unread_by(members.images)
        return [f"{told[0]} of {counted(told[1], 'sector')} ({percent(*told)}) lost by {by}" if told[0] else f"nothing lost by {by}"]

    def lost_files(self, candidate: Candidate) -> list[LostFiles]:
        """Return the files of a candidate's volume that touch what is lost by the maps; nothing if nothing is lost, or of a RAID 10."""
        members = named(candidate.word, self.images)
        if members.maps is None or members.word.is_mirrored:
            return []
        end = candidate.end or members.end
        program = Program(self.commands, members.names, self.options.seconds, self.options.jobs)
        lost = program.lost_runs(members.word.text, end, members.maps)
        places = [it for it in candidate.found.inner if it.place and not it.place.path]
        inner = [it for it in places if it.place and lost_files.within(lost, it.place.first, it.place.length)]
        if not inner:
            return []
        source = Source(members.word, members.names, end, members.maps)
        try:
            with self.room.volume(source, self.options.first * max(1, int(candidate.word.data)), WRITTEN_TIMES * self.options.seconds) as volume:
                return [self.checks.lost_files(volume, it, lost) for it in inner] if volume else []
        except OSError:
            return []

    def tell(self, it: Candidate) -> None:
        """Says of a candidate that a checker is content with it, once."""
        if it.score >= Score.CHECKED and it.word.text not in self.told:
            self.told.add(it.word.text)
            it.since = self.report.bar.seconds()
            self.report.say("sound", f"  {it.word.text}: {it.found.text()}", set=it.word.text, said=it.found.text(), seconds=it.since)

    def side_by_side(self, work: Callable[[One], Other], found: Iterable[One], what: str, then: Callable[[Other], None] | None = None) -> list[Other]:
        """Does something for all candidates, so many at a time, and then something with each result in their order."""
        todo, done = list(found), []
        with concurrent.futures.ThreadPoolExecutor(self.options.jobs) as pool:
            for number, result in enumerate(pool.map(work, todo), 1):
                self.report.bar.show(what, number, len(todo))
                done.append(result)
                if then:
                    then(result)
        return done

    def test(self, found: list[Candidate]) -> list[Candidate]:
        """Tests one of each class: of many, those first that begin with something known, and the others where none of these is clean or encrypted.
        Doubtful sets, and too many, are put off."""
        if len(found) > MAX_UNTOLD and not found[0].step.shape.parity and not self.late:
            self.report.say("put off", f"  {len(found)} layouts deferred: too many, since no parity is left to test", sets=len(found))
            self.put_off += found
            return []
        if len(found) > MAX_BEGUN:
            self.report.say("many", f"  only the first {MAX_BEGUN} of {len(found)} layouts are checked", sets=len(found))
            found = found[:MAX_BEGUN]
        tested: list[Candidate] = []
        for part in self.parts(self.without_doubtful(found)):
            classes = in_classes(self.program, part, max(named(it.word, self.images).end for it in part))
            if len(classes) > MAX_CLASSED:
                self.report.say("many", f"  only the first {MAX_CLASSED} of {len(classes)} volumes are checked", classes=len(classes))
            tested += self.looked_at(classes[:MAX_CLASSED])
            if any(it.score >= Score.CHECKED or it.found.closed for it in tested):
                break
        return tested

    def looked_at(self, classes: list[Candidate]) -> list[Candidate]:
        """Looks at the volumes of these. Of many the checkers are asked first, and files are looked for where they may give a rating; elsewhere at
        the end, since they are the longer work."""
        if len(classes) <= FEW:
            return self.side_by_side(self.read, classes, "checks the candidates", self.tell)
        self.side_by_side(lambda it: self.read(it, False), classes, "runs the checkers over the candidates")
        self.side_by_side(self.read, [it for it in classes if not it.found.settled], "checks the candidates", self.tell)
        return classes

    def count_late(self, tested: Sequence[Candidate]) -> None:
        """Looks for files in the volumes where that was put off, as they give no rating: in the first of these, as they are printed."""
        left = sorted((it for it in tested if it.found.settled and not it.found.counted and it.found.length <= self.options.first),
                      key=lambda it: it.place)
        self.side_by_side(self.read, left[:MAX_COUNTED], "looks for files in the candidates")

    def without_doubtful(self, found: list[Candidate]) -> list[Candidate]:
        """The sets of which more speaks for them than against them; the others are kept for the end."""
        if not found or not found[0].step.lenient or self.late:
            return found
        # At level 5 parity is the same in whatever order the images stand.
        firsts: dict[Hashable, Candidate] = {}
        alike = [firsts.setdefault((it.word.offsets, frozenset(it.word.slots)) if it.word.level == "5" else it.word, it) for it in found]
        self.side_by_side(lambda it: self.ask(it, it.step.has_bad_rows), firsts.values(), "counts the inconsistent rows of the candidates")
        self.side_by_side(lambda it: self.ask(it, False), found, "counts the matching landmarks of the candidates")
        for it, first in zip(found, alike):
            it.doubted = it.doubted or first.mostly_unsound
        doubtful = [it for it in found if it.doubtful]
        self.put_off += doubtful
        if doubtful:
            told = f"  {len(doubtful)} of {len(found)} layouts deferred: most landmarks, or most rows, contradict them"
            self.report.say("doubtful", told, doubtful=len(doubtful), sets=len(found))
        return [it for it in found if not it.doubtful]

    def test_late(self) -> list[Candidate]:
        """Tests the sets that were put off, those with the least relaxed first."""
        found, self.put_off, self.late = sorted(self.put_off, key=lambda it: it.order), [], True
        return self.test(found) if found else []

    def parts(self, found: list[Candidate]) -> list[list[Candidate]]:
        """Of many sets those that begin with something known, and the others after them; where there are landmarks these are put off."""
        if len(found) <= FEW:
            return [found] if found else []
        begin = self.side_by_side(self.begins, found, "reads how the candidates begin")
        known, others = [[it for it, kind in zip(found, begin) if kind == wanted] for wanted in (True, False)]
        later = bool(others and others[0].scope.plan.groups) and not self.late
        if others and (known or later):
            self.report.say("begins", f"  {len(known)} of {len(found)} volumes begin with known contents; " +
                            ("the others are deferred" if later else "these are checked first"), known=len(known), sets=len(found))
        self.put_off += others if later else []
        return [it for it in (known, [] if later else others[:MAX_UNKNOWN]) if it]
