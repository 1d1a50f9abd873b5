"""The first part of a search: what the images themselves say of their array is printed, and tried before all else."""

import collections
import contextlib
import dataclasses
import functools
import itertools
from collections.abc import Iterable, Iterator, Sequence
from typing import TYPE_CHECKING

from ..calls.formats import Ranked
from ..calls.program import Copied, Listing
from ..calls.sets import read_word
from ..calls.surveys import known_kinds
from ..checks.candidates import Candidate
from ..checks.verdicts import Score
from ..errors import OutsideError, said
from ..evidence import copies as copying
from ..evidence import stopped as early_ends
from ..evidence import gathered, hints, metadata, patterns, places, sampling, shared, shifts, ties, unlike
from ..evidence.image_groups import LEVEL_5, LEVEL_6
from ..evidence.images import Image
from ..evidence.places import Places
from ..evidence.relations import Relations
from ..evidence.shared import Place
from ..evidence.shifts import Distances
from ..evidence.ties import Ties, Told
from ..evidence.unlike import Unlike
from ..units import SECTOR
from . import relaxations, mirrors, plain, proposed, stopped, thousands
from .relaxations import RelaxationKind
from .scope import Scope
from .plain import Target, Span, Unsound
from .shapes import Shape
from .stages import Stage, delayed, of_kinds, with_bad_rows
from .steps import Step

if TYPE_CHECKING:
    from .search import Search

# So many things are relaxed at most, one after the other, where evidence says which array is searched.
MAX_RELAXED = 2


@dataclasses.dataclass(frozen=True)
class Later:
    """A target that was tried with nothing relaxed, and its scope."""

    target: Target
    scope: Scope


@dataclasses.dataclass(frozen=True)
class Part:
    """A part of some disks, by their numbers, that is searched for itself. Of a partition `alone` are images that may be of it alone."""

    images: tuple[int, ...]
    span: Span
    alone: tuple[int, ...] = ()


def is_closed(it: Candidate) -> bool:
    """Parity speaks for a candidate and it is encrypted, so that nothing more is to be seen in it."""
    return it.step.shape.parity and bool(it.found.encrypted)


def enough(it: Candidate) -> bool:
    """A candidate is content or whole, or nothing more is to be seen in it."""
    return it.score >= Score.CHECKED or is_closed(it)


class Evident:
    """The steps that evidence gives a reason for, of a search."""

    def __init__(self, search: "Search") -> None:
        self.search = search
        # A step of these takes no longer than a question of others.
        seconds = search.options.question_seconds
        self.options = dataclasses.replace(search.options, seconds=seconds, question=seconds)
        self.searched: list[Part] = []
        self.told = Told()
        self.kept: tuple[Target, Relations | None] | None = None
        self.copied_pairs: list[tuple[int, int]] = []

    def asked(self) -> Ties:
        """Who is asked how the images depend on one another."""
        return self.search.ties

    def run(self) -> bool:
        """All of them; it says whether a candidate of some part of the disks says enough."""
        self.searched = list(self.parts())
        return any([self.of_part(part) for part in self.searched])

    def scope(self) -> Scope:
        """The scope in which all else is tried: over the first partition that the disks have in common, or else over all images."""
        search = self.search
        for part in self.searched:
            if part.span.partition:
                search.report.say("reason", f"continuing in the partition from sector {part.span.first} on", first=part.span.first, end=part.span.end)
                images = self.within(part.images, part.span)
                return Scope(search.options, search.commands, images, search.say_late, start=part.span.first, shared=search.surveys)
        return Scope(search.options, search.commands, search.images, search.say_late, shared=search.surveys)

    def within(self, numbers: Iterable[int], span: Span) -> list[Image]:
        """Images by their numbers, as they are seen in a part of the disks."""
        images = [self.search.images[number] for number in numbers]
        return [gathered.within(image, span.first, span.end) for image in images] if span.partition else images

    def of_part(self, part: Part) -> bool:
        """The steps of a part; what comes later of images of which a candidate says enough is left. Of targets that are alike but for where the data
        begin all are tried before anything is relaxed. It says whether there is such a candidate."""
        solved: set[int] = set()
        for _, alike in itertools.groupby(self.targets(part), key=lambda target: bool(target.moved)):
            later: list[Later] = []
            for target in alike:
                if solved.isdisjoint(target.images) and self.seek(target, later):
                    solved |= set(target.images)
            for it in later:
                if solved.isdisjoint(it.target.images) and self.relax(it):
                    solved |= set(it.target.images)
        return bool(solved)

    def images(self) -> list[Image]:
        """The images that hold something, each once where it is there twice."""
        return [image for image in self.search.images if image.first is not None and image.like is None]

    def parts(self) -> Iterator[Part]:
        """The partitions that the disks have in common, or else the whole of them."""
        images, report = self.images(), self.search.report
        found = shared.looked_at(images)
        searched = shared.searched(found)
        for place in found:
            said = "" if place in searched else "; skipped"
            report.say("place", f"{place.line()}{said}", first=place.first, sectors=place.count, images=list(place.images), copied=place.copied,
                       empty=place.empty, searched=place in searched)
        for place in searched:
            yield Part(place.images, Span(place.first, place.end, True), tuple(it.number for it in shared.of_partition(place, images)))
        if not searched and images:
            yield Part(tuple(image.number for image in images), Span(0, min(image.sectors for image in images)))

    def targets(self, part: Part) -> list[Target]:
        """What is tried of a part, after what is known of it is printed."""
        self.search.report.bar.show("tests which images parity matches")
        asked = self.asked()
        found = asked.told(part.images, part.span.first, part.span.end)
        if found.known or not self.told.asked:
            self.told = found
        if not part.span.partition and not found.known and self.search.is_closed(found):
            return self.by_metadata(part)
        twins = {image.like: image.number for image in self.search.images if image.like is not None}
        self.say("relation", ties.lines(found, twins))
        self.copied_pairs = [pair for it in found.known for pair in it.group.copies]
        self.search.stale |= {old.image for it in found.known for old in it.group.old}
        self.search.reshapes += [it.group.reshape for it in found.known if it.group.reshape and it.group.reshape not in self.search.reshapes]
        ways = plain.perhaps_copied, plain.tied, plain.copied, plain.untied
        perhaps, tied, copied, untied = (of(found, part.images, part.span, self.options) for of in ways)
        copied, alike = plain.without_each(copied, plain.doubtful(found)), plain.without_each(self.alike(part), [] if tied else self.without_like())
        # Of large images that are the same it is known at once how they are grouped.
        early = alike[:1] if sampling.is_large(part.span.first, part.span.end) else []
        there = [image for image in self.search.images if image.first is not None]
        copied[1:1] = plain.halves_targets(found, there, part.span, self.options)
        others = [*early, *self.unlike(asked, found, part), *perhaps[:1], *tied, *perhaps[1:], *copied, *alike[len(early):], *untied]
        others = others or plain.unexplained(found, part.images, part.span, self.options)
        others = plain.with_thousands(others, plain.silent(found, part.images, self.options))
        # Copies of two images alone may be those of a RAID 10, which is soon looked for.
        alone = all(len(it.group.images) == 2 for it in found.known if it.group.states)
        others[len(others) - len(untied) if alone else 0:0] = self.without_states(found, part)
        return [*self.by_metadata(part), *self.of_partition(part), *self.without_stopped(found, part), *others]

    def of_partition(self, part: Part) -> list[Target]:
        """What is tried of a partition of whole disks together with images that are of it alone: data begin there at another sector."""
        if not part.alone:
            return []
        images = [self.search.images[number] for number in sorted((*part.images, *part.alone))]
        numbers, way = [image.number for image in images], [0 if image.number in part.alone else part.span.first for image in images]
        self.say("place", [f"{ties.named(part.alone)}: no partition table, and shorter than whole disks. Perhaps of only the partition"])
        span = Span(0, min(image.sectors for image in images))
        tied = unlike.moved(self.asked(), images, way, span.end)
        if tied:
            return [plain.unlike_target(it, numbers, span, self.options) for it in tied]
        return plain.moved_targets(unlike.silent(images, way), numbers, span, self.options)

    def without_states(self, found: Told, part: Part) -> list[Target]:
        """What is tried of a part without each in turn of two images that may be states of one disk, after what is known of the rest is printed."""
        targets: list[Target] = []
        states = plain.states(found) or ()
        for out, kept in itertools.permutations(states, 2):
            rest = tuple(number for number in part.images if number != out)
            told = self.asked().told(rest, part.span.first, part.span.end)
            self.say("relation", [f"without image {out}: {line}" for line in ties.lines(told)])
            targets += plain.without_state(told, rest, (out, kept), part.span, self.options)
        return targets

    def without_stopped(self, found: Told, part: Part) -> list[Target]:
        """What is tried of a part without images whose imaging may have stopped, which are named."""
        images = [self.search.images[number] for number in part.images]
        short = early_ends.found(images, part.span.end if part.span.partition else max(image.sectors for image in images))
        self.say("stopped", (stopped.line(image, images) for image in short))
        return stopped.targets(short, found, part.span, images, self.options)

    def alike(self, part: Part) -> list[Target]:
        """What is tried where whole images are the same, as the copies of a RAID 1 or 10 are."""
        same = [image for image in self.search.images if image.like is not None]
        if not same or part.span.partition or not self.options.wants("10"):
            return []
        why = "; ".join(f"image {image.number} is the same as image {image.like}" for image in same)
        there = [image for image in self.search.images if image.first is not None]
        return [Target(tuple(image.number for image in there), part.span, why, copied=True)]

    def without_like(self) -> list[int]:
        """The images that hold something, of which none holds the same as another."""
        like = {image.like for image in self.search.images}
        return [image.number for image in self.images() if image.number not in like]

    def say(self, event: str, lines: Iterable[str]) -> None:
        """Says what is known, a line each."""
        for line in lines:
            self.search.report.say(event, line)

    def by_metadata(self, part: Part) -> list[Target]:
        """What is tried by the metadata that stand on the disks still."""
        place = Place(part.span.first, part.span.end - part.span.first, part.images) if part.span.partition else None
        names = {number: self.search.images[number].name for number in part.images}
        members = metadata.examine(self.search.commands, self.search.room.base, names, place)
        members += metadata.examine_lvm({number: part.span.first for number in names}, names)
        self.say("metadata", (it.line(f"image {it.image}") for it in members))
        bare = sorted(set(part.images) - {it.image for it in members})
        found = [plain.metadata_target(it, part.span, self.options, bare) for it in metadata.arrays(members)]
        # A set with an offset for each image has to name all.
        named = [target for target in found if target and target.shapes and (not target.is_each or len(target.images) == len(self.search.images))]
        if not sampling.is_large(part.span.first, min(part.span.end, part.span.first + self.options.first // SECTOR)):
            return named
        exact = [plain.named_target(it, part.span, self.options, len(self.search.images)) for it in metadata.arrays(members)]
        return [*filter(None, exact), *named]

    def unlike(self, asked: Ties, found: Told, part: Part) -> list[Target]:
        """What is tried of images that nothing ties, where distances tell that their data begin at unlike sectors, or that they are copies which lie
        elsewhere on the next disk; the former too of images of which some are tied to nothing, where as many disks of the others are lost, or few
        rows tie these."""
        lost = sum(it.group.lost or 0 for it in found.known)
        if not found.asked or found.known and not (found.alone and (len(found.alone) <= lost or unlike.barely_tied(found.known))):
            return []
        images, span = [self.search.images[number] for number in part.images], part.span
        shown = unlike.found_shifts(images, span.first, span.end)
        offsets = [] if span.partition else self.offsets(asked, images, shown, span.end)
        if offsets:
            self.say("unlike", [offsets[0].line()])
            return [plain.unlike_target(it, part.images, span, self.options) for it in offsets]
        if found.known:
            return []
        distance = shifts.apart(shown.told, len(images)) if self.options.wants("10") else None
        copies = [plain.apart_target(distance, part.images, span)] if distance and self.lie_apart(images, distance, span) else []
        guessed = () if span.partition else unlike.guessed(images, shown.told)
        begins = plain.guessed_targets(guessed, part.images, span, self.options) if guessed else []
        # Distances that need not agree with one beginning of each image, and do, are none of copies.
        return [*begins, *copies] if shifts.agree(shown.told, len(images)) else [*copies, *begins]

    def lie_apart(self, images: Sequence[Image], distance: int, span: Span) -> bool:
        """Most of what images hold stands on another one too, so many sectors apart."""
        try:
            return copying.lie_apart([image.name for image in images], distance, span.first, span.end)
        except OSError as error:
            raise OutsideError(f"an image cannot be read: {said(error)}") from error

    def offsets(self, asked: Ties, images: Sequence[Image], shown: Distances, end: int) -> list[Unlike]:
        """The offsets at which parity ties these images, by distances and by what texts of LVM2 name."""
        names = {image.number: image.name for image in images}
        named = metadata.lvm_starts(dict.fromkeys(names, 0), names)
        self.say("metadata", (metadata.starts_line(f"image {number}", starts) for number, starts in named.items()))
        return unlike.look(asked, images, shown, end, named)

    def seek(self, target: Target, later: list[Later]) -> bool:
        """The steps of a target; where it is one of several that are alike but for where the data begin, those with something relaxed are left for
        later. It says whether a candidate says enough."""
        search = self.search
        search.report.say("reason", f"trying first: {target.why}", images=list(target.images), first=target.span.first, end=target.span.end,
                          why=target.why)
        before, search.why = len(search.tested), target.why
        images = self.within(target.images, target.span)
        search.report.bar.show("surveys the images")
        options = self.options if target.first is None else dataclasses.replace(self.options, first=target.first)
        scope = Scope(options, search.commands, images, search.say_late, start=target.span.first, asked=dict(target.asked), tied=target.tied,
                      shared=search.surveys)
        scope.ask_places = functools.partial(self.places_of, target)
        search.say_evidence(scope)
        if target.word:
            self.test_named(scope, target, target.word)
            search.why = ""
            return any(it.score is Score.WHOLE or it.found.has_whole_files for it in self.since(before))
        ended = self.read_off(scope, target, before) or self.by_thousands(scope, target, before)
        ended = ended or target.copied and self.copies(scope, target, before) or self.plainly(scope, target, before)
        if target.unsound and self.with_all(scope, target, target.unsound, before):
            ended = True
        if not ended:
            if target.moved:
                later.append(Later(target, scope))
            else:
                self.relaxed(scope, target, before)
        self.test_other_states(target, before)
        search.why = ""
        return any(map(enough, self.since(before)))

    def test_other_states(self, target: Target, before: int) -> None:
        """Tests each set of a target that has a rating with the other state of an image in its slot, so that their files are compared."""
        for it in [it for it in self.since(before) if target.states and it.score >= Score.CHECKED]:
            if other := plain.other_state(target, it.word, it.step.shape):
                self.seek(other, [])

    def test_named(self, scope: Scope, target: Target, text: str) -> None:
        """Tests the set that metadata name, or that another state of a disk gives."""
        word, shape = read_word(text).over(target.images), target.shapes[0]
        listing = Listing((Ranked(0, word.text),), 1, True, "with another state of a disk" if target.states else "named by metadata")
        if word.copying:
            step = Step(shape, copied=Copied((word.copying,), shape.members, shape.missing))
        else:
            step = Step(shape, request=scope.asking.request(shape))
        told = self.search.say_step(scope, step, listing)
        self.search.take(scope, told, listing.sets, lambda it: (None if word.copying else word, scope.word(it.text)))

    def with_all(self, scope: Scope, target: Target, unsound: Unsound, before: int) -> bool:
        """The steps of a target with all images of the group in slots, where rows may be bad, unless such a candidate has a rating already:
        what leaves some out may be whole too, and does not say that these are old. It says whether there is such a candidate."""
        if self.has_all(unsound, before):
            return True
        search, why = self.search, self.search.why
        search.report.say("reason", unsound.line(), images=list(unsound.images), first=target.span.first, end=target.span.end, why=unsound.line())
        search.why = unsound.line()
        if unsound.images != target.images:
            scope = Scope(self.options, search.commands, self.within(unsound.images, target.span), search.say_late, start=target.span.first,
                          asked=dict(target.asked), tied=True, shared=search.surveys)
        scope.program.seconds = search.options.seconds
        stages = (with_bad_rows(count, unsound.shape) for count in range(1, MAX_RELAXED + 1))
        found = any(search.take_stage(stage, scope) or self.has_all(unsound, before) for stage in stages)
        search.why = why
        return found

    def has_all(self, unsound: Unsound, before: int) -> bool:
        """A candidate that was tested since has a rating, with all images of a group in slots."""
        return any(it.score >= Score.CHECKED and set(unsound.images) <= set(it.word.images) for it in self.since(before))

    def relax(self, it: Later) -> bool:
        """The steps of a target with something relaxed, which were left for later; it says whether a candidate says enough."""
        before, self.search.why = len(self.search.tested), it.target.why
        self.relaxed(it.scope, it.target, before)
        self.search.why = ""
        return any(map(enough, self.since(before)))

    def copies(self, scope: Scope, target: Target, before: int) -> bool:
        """RAID 10 by its copies, with as few members missing as may be; it says whether the search is at its end, or a candidate is content."""
        pairs = self.copied_pairs + [(image.like, image.number) for image in self.search.images if image.like is not None]
        if target.halves:
            pairs = [pair for pair in pairs if pair not in target.halves]
            ways = list(mirrors.without_one(pairs, target.halves, target.images))
            return any(self.search.grouped(scope, it, counts) or self.is_content(before) for counts in mirrors.PLAIN_FIRST for it in ways)
        grouped = mirrors.told(pairs, target.images) if sampling.is_large(0, scope.evidence.end) and not target.apart else None
        if grouped and (self.search.grouped(scope, grouped) or self.is_content(before)):
            return True
        count = len(target.images)
        asked = mirrors.moved(count, target.apart, scope.evidence) if target.apart else mirrors.near(count, self.alike_count(target.images))
        return any(self.search.mirrors(scope, it) or self.is_content(before) for it in asked if it.missing in target.missing)

    def alike_count(self, numbers: Iterable[int]) -> int:
        """How many of these images hold the same wholly, of most of those of which another one does; 1 where none does."""
        sizes = collections.Counter(collections.Counter(self.same_as(number) for number in numbers).values())
        return max((size for size in sizes if size > 1), key=lambda size: sizes[size], default=1)

    def same_as(self, number: int) -> int:
        """The first image that holds the same as one."""
        like = self.search.images[number].like
        return number if like is None else like

    def places_of(self, target: Target, shape: Shape) -> Places | None:
        """Where parity may lie on the images of a target at a shape, by rows of which a part is zeros; None where that cannot be told. Of what parity
        ties that is asked at the first shape, and of other images at those at which as many disks are lost as the level bears."""
        asked = shape == target.shapes[0] if target.tied else not shape.parity
        if not asked or target.is_each and not target.moved or shape.levels not in (LEVEL_5, LEVEL_6):
            return None
        found = self.zero_rows(target)
        if not found:
            return None
        names = {number: self.search.images[number].name for number in target.images}
        with contextlib.closing(patterns.Sectors(names, target.moved)) as sectors:
            return Places(found, target.images, shape.levels, shape.members, self.unread(target), sectors.repeat)

    def zero_rows(self, target: Target) -> Relations | None:
        """The relations of many rows of the images of a target, kept until others are asked for; None where they were not had in their time."""
        if self.kept is None or self.kept[0] != target:
            self.search.report.bar.show("looks for rows of zeros")
            end = min(target.span.end, *(self.search.images[image].sectors for image in target.images)) - max(target.moved, default=0)
            self.kept = target, self.zeros(target, end)
        return self.kept[1]

    def zeros(self, target: Target, end: int) -> Relations | None:
        """The relations of many rows of the images of a target up to an end."""
        if sampling.is_large(target.span.first, end):
            return self.asked().spread(target.images, target.span.first, end, places.MAX_ROWS, target.moved)
        step = max(1, (end - target.span.first) // places.MAX_ROWS)
        return self.asked().relations(target.images, target.span.first, end, step, target.moved)

    def unread(self, target: Target) -> Iterator[range]:
        """The runs of rows in which maps call a sector of the images of a target unread."""
        for number, moved in itertools.zip_longest(target.images, target.moved, fillvalue=0):
            image = self.search.images[number]
            for gap in image.unread.gaps(image.sectors) if image.unread else ():
                yield range(max(0, gap.start - moved), max(0, gap.stop - moved))

    def by_places(self, scope: Scope, target: Target) -> bool:
        """The sets that rows of which a part is zeros allow, by where parity lies in them, and where none of these is content those whose parity
        stays for several rows; it says whether a candidate is whole."""
        where = scope.places_at(target.shapes[0]) if target.tied and target.shapes else None
        if where is None:
            return False
        before = len(self.search.tested)
        return self.placed(scope, target, where) or not self.is_content(before) and self.placed(scope, target, where, relaxations.DELAY)

    def placed(self, scope: Scope, target: Target, where: Places, delay: int = 1) -> bool:
        """The sets that these places allow, with parity that stays for so many rows; it says whether a candidate is whole."""
        shape = target.shapes[0]
        best = where.best(self.offsets_of(scope, target), [delay * chunk for chunk in places.CHUNKS])
        numbers = {image: place for place, image in enumerate(target.images)}
        words = dict.fromkeys(word for it in best for word in it.words(shape.levels, numbers, tuple(one + it.offset for one in target.moved), delay))
        if not words:
            return False
        listing = Listing(tuple(Ranked(rank, word) for rank, word in enumerate(words)), None, True,
                          "those that the fewest rows of zeros contradict; no others were tested")
        places_of_groups = [group.place for group in scope.plan.groups]
        bare = relaxations.told("all landmarks (rows of zeros show the places of parity)", RelaxationKind.BARE, places_of_groups)
        # What a fresh NTFS numbers 0 is no reason to call its group one that does not hold.
        request = dataclasses.replace(scope.asking.request(shape), records=True)
        chosen = (bare, relaxations.delays()) if delay > 1 else (bare,)
        step = self.search.say_step(scope, Step(shape, chosen, relaxations.relaxed(request, chosen[1:])), listing)
        return self.search.take(scope, step, listing.sets, lambda it: (read_word(it.text), scope.word(it.text)))

    def read_off(self, scope: Scope, target: Target, before: int) -> bool:
        """The set that landmarks by the thousand propose; it says whether the search is at its end, or a candidate is content."""
        shapes = () if target.is_each else target.by_thousands or target.shapes
        kinds = [kind for kind in thousands.seen(scope) if kind in self.later_kinds] if shapes else []
        return bool(kinds) and (proposed.attempt(self.search, scope, shapes, kinds) or self.is_content(before))

    def by_thousands(self, scope: Scope, target: Target, before: int) -> bool:
        """The sets at which the most landmarks by the thousand lie where they say, where the program knows such; it says whether the search is at
        its end, or a candidate is content."""
        kinds = [kind for kind in thousands.seen(scope) if kind in self.later_kinds] if target.by_thousands else []
        return bool(kinds) and (thousands.attempt_all(self.search, scope, target.by_thousands, kinds) or self.is_content(before))

    @functools.cached_property
    def later_kinds(self) -> tuple[str, ...]:
        """The later kinds of landmarks that the program knows."""
        return known_kinds(self.search.commands, self.search.images[0].name)

    def offsets_of(self, scope: Scope, target: Target) -> list[int]:
        """The rows at which the data of a target may begin, not behind one that is tied. Those of images that are moved are counted from where they
        begin, by what they hold, at the earliest."""
        base = min(target.moved, default=0)
        values = {target.span.first + offset for offset in hints.MORE_OFFSETS}.union(scope.evidence.tried, [base] if target.moved else [])
        rows = {value - base for value in values if base <= value < scope.evidence.end}
        return sorted(row for row in rows if target.begin is None or row <= target.begin)

    def relaxed(self, scope: Scope, target: Target, before: int) -> None:
        """The steps of the shapes of a target with ever more relaxed, until a candidate is whole, encrypted or content; of the shapes alone of which
        one is content already, where there are such. `before` is how many candidates were tested before those of the target."""
        if self.search.is_hopeless(self.told):
            return
        scope.program.seconds = self.options.seconds
        content = tuple(shape for shape in target.shapes if self.is_content(before, shape))
        target = dataclasses.replace(target, shapes=content or target.shapes)
        for count in range(1, MAX_RELAXED + 1):
            if self.take_stage(target, count, scope, before) or self.is_content(before):
                return

    def plainly(self, scope: Scope, target: Target, before: int) -> bool:
        """The steps with nothing relaxed; it says whether the search is at its end. What is listed comes before what zeros allow, but where it is
        known to say nothing: P is the same in any order of the disks, so without landmarks it is Q alone that tells one. Where zeros may tell the
        order too a listing is asked for again, in the whole time of a step, only if they do not."""
        by_q = any(LEVEL_6 in shape.telling for shape in target.shapes)
        silent = not by_q and not scope.plan.groups
        if silent and self.by_places(scope, target):
            return True
        # What the images are tied for is worth the whole time of a step.
        scope.program.seconds = self.search.options.seconds if target.tied and by_q else self.options.seconds
        if self.plain_steps(target, scope, before):
            return True
        if not silent and not self.is_content(before) and (self.by_places(scope, target) or self.is_closed(before)):
            return True
        if target.tied and scope.cut_short and not self.is_content(before):
            scope.program.seconds = self.search.options.seconds
            scope.ask_again()
            if self.take_stage(target, 0, scope, before):
                return True
        return not scope.plan.groups and any(self.search.attempt_bare(scope, shape) for shape in target.shapes if not shape.parity)

    def plain_steps(self, target: Target, scope: Scope, before: int) -> bool:
        """The steps of the shapes of a target with nothing relaxed. Where parity tells nothing at a shape, and no candidate is content, what one kind
        of group needs, and parity that stays for several rows, come before the next shape, with another disk lost, of which more sets pass by few
        landmarks. Parity that stays is asked for too where a candidate of the shape is content, since of metadata in the first rows a checker is
        content without. It says whether nothing more is to be seen."""
        for shape, following in itertools.zip_longest(target.shapes, target.shapes[1:]):
            if self.search.take_stage(Stage((shape,), 0), scope):
                return True
            early = following is not None and not self.is_content(before)
            more = [of_kinds(shape)] * early + [delayed(shape)] * (early or self.is_content(before, shape))
            if not shape.parity and any(self.search.take_stage(stage, scope) for stage in more):
                return True
        return self.is_closed(before)

    def take_stage(self, target: Target, count: int, scope: Scope, before: int) -> bool:
        """The steps of the shapes of a target with so many things relaxed; it says whether nothing more is to be seen."""
        return self.search.take_stage(Stage(target.shapes, count), scope) or self.is_closed(before)

    def is_closed(self, before: int) -> bool:
        """A candidate that was tested since is encrypted, and parity speaks for it."""
        return any(map(is_closed, self.since(before)))

    def is_content(self, before: int, shape: Shape | None = None) -> bool:
        """A candidate that was tested since has a rating; one of a shape, where it is named."""
        return any(it.score >= Score.CHECKED and (shape is None or it.step.shape == shape) for it in self.since(before))

    def since(self, before: int) -> list[Candidate]:
        """The candidates that were tested behind so many."""
        return self.search.tested[before:]
