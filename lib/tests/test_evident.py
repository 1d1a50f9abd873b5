"""What is tried of images by their evidence, in which order, and what is left."""

import dataclasses
import random
import types
import unittest
from collections.abc import Sequence
from typing import Any, cast
from unittest import mock

from reraid_try.calls.commands import Answer, Words
from reraid_try.calls.program import Copied, Listing
from reraid_try.checks.verdicts import Score
from reraid_try.evidence import ties
from reraid_try.evidence.image_groups import ImageGroup
from reraid_try.evidence.heads import Head
from reraid_try.evidence.images import Image
from reraid_try.evidence.maps import Map
from reraid_try.evidence.metadata import Member
from reraid_try.evidence.places import Placement
from reraid_try.evidence.relations import Relations
from reraid_try.evidence.shared import Place
from reraid_try.evidence.shifts import Distances, Shift
from reraid_try.evidence.tables import Partition, Table
from reraid_try.evidence.ties import Ties
from reraid_try.evidence.unlike import Unlike
from reraid_try.options import Options
from reraid_try.policy import relaxations
from reraid_try.policy import evident as evident_module
from reraid_try.policy.evident import Evident, Later, Part
from reraid_try.policy.plain import Target, Span, Unsound
from reraid_try.policy.shapes import Shape
from reraid_try.policy.stages import Stage, is_of_bad_rows, with_bad_rows
from reraid_try.policy.steps import Step

from . import rows
from .standin import Told, plan_of
from .test_policy import BASE, NTFS
from .test_ties import Standin, disks


class NoTools(Standin):
    """`mdadm` finds nothing."""

    def run(self, words: Words, text: str | None = None, seconds: float | None = None) -> Answer:
        """The relations of images; of `mdadm` that there is nothing."""
        return super().run(words, text, seconds) if words[0] == "reraid" else Answer(1)


def evident(images: Sequence[Image], runner: Standin, options: Options, closed: bool = False) -> tuple[Evident, Told]:
    """The evidence of a search over these images, which may be encrypted, and its report."""
    report = Told()
    room = types.SimpleNamespace(base="/nowhere")
    search = types.SimpleNamespace(images=images, options=options, report=report, commands=runner, room=room, tested=[], stale=set(), reshapes=[],
                                   is_closed=lambda _: closed, surveys="the surveys", ties=Ties(runner, images, options.seconds))
    return Evident(cast(Any, search)), report


class Without(Evident):
    """Evidence that finds no text of LVM2, and of which stated targets say enough."""

    good: frozenset[int] = frozenset()
    tried: list[Target]
    order: Sequence[Target] = ()

    def targets(self, part: Part) -> list[Target]:
        """Those that are stated."""
        return list(self.order)

    def seek(self, target: Target, later: list[Later]) -> bool:
        """The step of a target says enough where that is stated."""
        self.tried.append(target)
        later += [Later(target, cast(Any, None))] * bool(target.moved)
        return self.order.index(target) in self.good

    def relax(self, it: Later) -> bool:
        """What is relaxed of a target says enough where that is stated, behind all targets."""
        self.tried.append(it.target)
        return len(self.order) + self.order.index(it.target) in self.good


class Order(unittest.TestCase):
    """Which targets are tried."""

    def tried(self, good: frozenset[int], *targets: Target) -> tuple[bool, list[int]]:
        """Whether some target says enough, and which were tried."""
        it = Without(cast(Any, types.SimpleNamespace(options=Options(("a",)))))
        it.good, it.order, it.tried = good, targets, []
        done = it.of_part(Part((0, 1, 2), Span(0, 9)))
        return done, [targets.index(target) for target in it.tried]

    def test_solved(self) -> None:
        """What is known enough is tried no more, and other images are."""
        first, again, other = (Target(images, Span(0, 9), why) for images, why in (((0, 1, 2), "a"), ((1, 2), "b"), ((3, 4), "c")))
        self.assertEqual(self.tried(frozenset({0}), first, again, other), (True, [0, 2]))
        self.assertEqual(self.tried(frozenset(), first, again, other), (False, [0, 1, 2]))
        self.assertEqual(self.tried(frozenset({1}), first, again, other), (True, [0, 1, 2]))

    def test_where_data_begin(self) -> None:
        """Of targets that differ in that alone all are tried before anything is relaxed, and then the next ones."""
        one, two, other = (Target((0, 1, 2), Span(0, 9), "why", moved=moved) for moved in ((0, 8), (8, 16), ()))
        self.assertEqual(self.tried(frozenset(), one, two, other), (False, [0, 1, 0, 1, 2]))
        self.assertEqual(self.tried(frozenset({1}), one, two, other), (True, [0, 1]))
        self.assertEqual(self.tried(frozenset({3}), one, two, other), (True, [0, 1, 0]))


class Zeros(Evident):
    """Evidence that keeps in which order a target is tried."""

    order: list[str]
    ends = ""

    def by_places(self, scope: Any, target: Target) -> bool:
        """What zeros allow is asked."""
        self.order.append("zeros")
        return self.ends == "zeros"


class Attempts(unittest.TestCase):
    """In which order the shapes of a target are tried."""

    def order(self, shape: Shape | tuple[Shape, ...], groups: bool, *found: Any, late: bool = False, tied: bool = True, ends: str = "",
              first: int = 0) -> list[str]:
        """What is asked of shapes, with marks or without, where each listing gives these candidates from a first one on, or runs out of its time,
        and one thing may be enough."""
        asked: list[str] = []
        tested: list[Any] = []
        self.times: list[int] = []

        def stage(it: Stage, _scope: Any) -> bool:
            """A listing with so much relaxed."""
            asked.append(f"list {it.count}" if it.only is None else it.only.__name__)
            scope.cut_short |= {"a plan"} if late else set()
            self.times.append(scope.program.seconds)
            tested.extend(found if it.count >= first else ())
            return asked[-1] == ends

        def bare(_scope: Any, _shape: Shape) -> bool:
            """A listing without landmarks."""
            asked.append("bare")
            return False
        search = types.SimpleNamespace(options=Options(("a",)), take_stage=stage, attempt_bare=bare, tested=tested, is_hopeless=lambda _: False)
        it = Zeros(cast(Any, search))
        it.order, it.ends = asked, ends
        scope = types.SimpleNamespace(plan=types.SimpleNamespace(groups=["a group"] if groups else []), program=types.SimpleNamespace(seconds=0),
                                      cut_short=set(), ask_again=lambda: asked.append("again"))
        shapes = (shape,) if isinstance(shape, Shape) else shape
        target = Target((0, 1, 2), Span(0, 9), "why", shapes, tied=tied)
        if not it.plainly(cast(Any, scope), target, 0):
            it.relaxed(cast(Any, scope), target, 0)
        return asked

    def test_marks_and_parity(self) -> None:
        """With marks a plain listing comes before what zeros allow. It has the whole time of a step where Q tells something; else a sixth, and the
        whole only where that was up and zeros did not help."""
        self.assertEqual((self.order(Shape("6", 6, 1), True), self.times), (["list 0", "zeros", "list 1", "list 2"], [60, 10, 10]))
        self.assertEqual((self.order(Shape("5", 6), True), self.times), (["list 0", "zeros", "list 1", "list 2"], [10, 10, 10]))
        content: Any = types.SimpleNamespace(score=Score.CHECKED, found=types.SimpleNamespace(encrypted=[]),
                                             step=types.SimpleNamespace(shape=types.SimpleNamespace(parity=True)))
        for late in (False, True):
            self.assertEqual(self.order(Shape("5", 6), True, content, late=late), ["list 0", "list 1"])
        self.assertEqual(self.order(Shape("5", 6), True, late=True, tied=False), ["list 0", "zeros", "list 1", "list 2"])
        self.assertEqual((self.order(Shape("5", 6), True, late=True), self.times),
                         (["list 0", "zeros", "again", "list 0", "list 1", "list 2"], [10, 60, 10, 10]))

    def test_what_is_enough(self) -> None:
        """A listing, or what zeros allow, wherever it is asked; what is content once something is relaxed."""
        self.assertEqual(self.order(Shape("5", 6), True, ends="list 0"), ["list 0"])
        self.assertEqual(self.order(Shape("5", 6), True, ends="zeros"), ["list 0", "zeros"])
        self.assertEqual(self.order(Shape("5", 6), False, ends="zeros"), ["zeros"])
        self.assertEqual(self.order(Shape("5", 6), True, ends="list 1"), ["list 0", "zeros", "list 1"])
        content: Any = types.SimpleNamespace(score=Score.CHECKED, found=types.SimpleNamespace(encrypted=[]),
                                             step=types.SimpleNamespace(shape=types.SimpleNamespace(parity=True)))
        self.assertEqual(self.order(Shape("5", 6), True, content, first=1), ["list 0", "zeros", "list 1"])

    def test_time_of_what_is_not_tied(self) -> None:
        """It is no more than a sixth of that of a step, also where Q tells something."""
        self.order(Shape("6", 6, 1), True, tied=False)
        self.assertEqual(self.times, [10, 10, 10])

    def test_encrypted(self) -> None:
        """A volume that is encrypted ends it where parity speaks for it, since nothing more is to be seen."""
        def candidate(parity: bool, encrypted: list[str]) -> Any:
            found = types.SimpleNamespace(encrypted=encrypted)
            return types.SimpleNamespace(found=found, step=types.SimpleNamespace(shape=types.SimpleNamespace(parity=parity)), score=Score.KNOWN)
        self.assertEqual(self.order(Shape("6", 6), False, candidate(True, ["LUKS"])), ["list 0"])
        self.assertEqual(self.order(Shape("5", 6), False, candidate(True, ["LUKS"])), ["zeros", "list 0"])
        for other in (candidate(False, ["LUKS"]), candidate(True, [])):
            self.assertEqual(self.order(Shape("6", 6), False, other), ["list 0", "zeros", "list 1", "list 2"])

    def test_before_another_disk_is_lost(self) -> None:
        """Where parity tells nothing what NTFS needs, and parity that stays, come before the next shape, unless a set is enough or content."""
        content: Any = types.SimpleNamespace(score=Score.CHECKED, found=types.SimpleNamespace(encrypted=[]),
                                             step=types.SimpleNamespace(shape=types.SimpleNamespace(parity=False)))
        shapes, then = (Shape("5", 4, 1), Shape("6", 5, 2)), ["is_of_kind", "stays"]
        self.assertEqual(self.order(shapes, True, tied=False)[:5], ["list 0", *then, "list 0", "zeros"])
        for place, what in enumerate(then):
            self.assertEqual(self.order(shapes, True, tied=False, ends=what), ["list 0", *then[:place + 1]])
        self.assertEqual(self.order(shapes, True, content, tied=False), ["list 0", "list 0", "list 1"])
        for shape, wanted in zip(shapes, (["list 0", "stays", "list 0", "list 1"], ["list 0", "list 0", "stays", "list 1"])):
            content.step.shape = shape
            self.assertEqual(self.order(shapes, True, content, tied=False), wanted)
        self.assertEqual(self.order((Shape("5", 3), *shapes), True)[:4], ["list 0", "list 0", *then])

    def test_what_is_relaxed_of_what_is_content(self) -> None:
        """The shapes of which a candidate has a rating already, and no others; all where none has."""
        asked: list[tuple[Shape, ...]] = []

        def stage(it: Stage, _scope: Any) -> bool:
            asked.append(it.shapes)
            return False
        shapes = Shape("0", 3), Shape("5", 4, 1), Shape("6", 5, 2)
        cases: list[tuple[list[Shape], list[tuple[Shape, ...]]]] = [
            ([shapes[0]], [(shapes[0],)]), ([shapes[2], shapes[1]], [shapes[1:]]), ([], [shapes, shapes]), ([Shape("5", 3)], [shapes])]
        for rated, wanted in cases:
            asked.clear()
            found = types.SimpleNamespace(encrypted=[])
            tested = [types.SimpleNamespace(score=Score.CHECKED, found=found, step=types.SimpleNamespace(shape=shape)) for shape in rated]
            search = types.SimpleNamespace(options=Options(("a",)), take_stage=stage, tested=tested, is_hopeless=lambda _: False)
            it = Evident(cast(Any, search))
            it.relaxed(cast(Any, types.SimpleNamespace(program=types.SimpleNamespace())), Target((0, 1, 2), Span(0, 9), "why", shapes), 0)
            self.assertEqual(asked, wanted)

    def test_no_parity_or_no_marks(self) -> None:
        """Without marks zeros come first where Q tells nothing; where no parity is left either, all sets are listed too."""
        self.assertEqual(self.order(Shape("5", 6, 1), True), ["list 0", "zeros", "list 1", "list 2"])
        self.assertEqual(self.order(Shape("5", 6), False), ["zeros", "list 0", "list 1", "list 2"])
        self.assertEqual(self.order(Shape("6", 6), False), ["list 0", "zeros", "list 1", "list 2"])
        self.assertEqual(self.order(Shape("0", 3), False), ["zeros", "list 0", "bare", "list 1", "list 2"])


class ByPlaces(unittest.TestCase):
    """What zeros allow is tested."""

    def test_records_of_number_0(self) -> None:
        """A set that zeros allow is checked without the file records that a fresh NTFS numbers 0, so that its other marks may speak for it."""
        taken: list[Step] = []

        def take(_scope: Any, step: Step, sets: Any, _words: Any) -> bool:
            """The sets are tested."""
            self.assertEqual([it.text for it in sets], ["5:ls:none:16:64:0,1,2"])
            self.assertEqual(said, ["1 layout passes (those that the fewest rows of zeros contradict; no others were tested)"])
            taken.append(step)
            return True
        placement = types.SimpleNamespace(words=lambda *_: ["5:ls:none:16:64:0,1,2"])
        scope = types.SimpleNamespace(places_at=lambda _: types.SimpleNamespace(best=lambda *_: [placement]), plan=plan_of(NTFS),
                                      evidence=types.SimpleNamespace(tried=(0, 64), end=900),
                                      asking=types.SimpleNamespace(request=lambda _: BASE))
        said: list[str] = []

        def say_step(_scope: Any, step: Step, listing: Listing) -> Step:
            """The step is said: it does not read as if all sets had been listed."""
            said.append(listing.line())
            self.assertTrue(listing.whole)
            return step
        search = types.SimpleNamespace(options=Options(("a",)), say_step=say_step, take=take, tested=[])
        target = Target((0, 1, 2), Span(0, 900), "why", (Shape("5", 3),), tied=True)
        self.assertTrue(Evident(cast(Any, search)).by_places(cast(Any, scope), target))
        self.assertEqual([(it.request and it.request.records, it.out) for it in taken], [(True, {0})])

    def test_parity_that_stays(self) -> None:
        """Where no set by which it moves in each row is whole or content those are tested by which it stays for 16 rows of shorter chunks."""
        asked: list[tuple[list[str], list[str], str]] = []
        tested: list[Any] = []
        found: list[Any] = []

        def take(_scope: Any, step: Step, sets: Any, _words: Any) -> bool:
            asked.append(([it.text for it in sets], step.relaxed[1:], step.request.get("delays") if step.request else ""))
            tested.extend(found)
            return whole
        turn = mock.Mock(patterns=(("la", "none"),))

        def best(_offsets: Any, chunks: Sequence[int]) -> list[Placement]:
            return [Placement(turn, chunk, 64, (0, 1, 2), 0, 99) for chunk in chunks if chunk in (128, 2048 * 16)]
        scope = types.SimpleNamespace(places_at=lambda _: types.SimpleNamespace(best=best), plan=plan_of(NTFS),
                                      evidence=types.SimpleNamespace(tried=(0, 64), end=900), asking=types.SimpleNamespace(request=lambda _: BASE))
        search = types.SimpleNamespace(options=Options(("a",)), say_step=lambda _, step, __: step, take=take, tested=tested)
        first: tuple[list[str], list[str], str] = ["5:la:none:128:64:0,1,2"], [], ""
        staying = ["5:la*16:none:8:64:0,1,2", "5:la*16:none:2048:64:0,1,2"], ["delays 16"], "16"
        for content, whole, wanted in ((False, False, [first, staying]), (True, False, [first]), (False, True, [first])):
            asked.clear()
            tested.clear()
            found = [cast(Any, types.SimpleNamespace(score=Score.CHECKED))] * content
            target = Target((0, 1, 2), Span(0, 900), "why", (Shape("5", 3),), tied=True)
            self.assertEqual(Evident(cast(Any, search)).by_places(cast(Any, scope), target), whole)
            self.assertEqual(asked, wanted)

    def test_nothing_that_zeros_allow(self) -> None:
        """Where parity lies may not be known, or no set be near what zeros say: then nothing is tested. It is asked of what is tied alone, at its
        first shape."""
        none, five = types.SimpleNamespace(best=lambda *_: []), Shape("5", 3)
        cases: list[tuple[Any, bool, tuple[Shape, ...], list[Shape]]] = [
            (None, True, (five, Shape("6", 3)), [five]), (none, True, (five,), [five]), (none, False, (five,), []), (none, True, (), [])]
        for found, tied, shapes, asked in cases:
            scope = types.SimpleNamespace(places_at=(ask := mock.Mock(return_value=found)), evidence=types.SimpleNamespace(tried=(0,), end=900))
            it, report = evident([], NoTools({}), Options(("a",)))
            self.assertFalse(it.by_places(cast(Any, scope), Target((0, 1, 2), Span(0, 900), "why", shapes, tied=tied)))
            self.assertEqual((report.lines, ask.call_args_list), ([], [mock.call(shape) for shape in asked]))

    def test_where_data_may_begin(self) -> None:
        """Not behind a row that is tied; of images that are moved by how much later than the first of them, and not before it."""
        scope = types.SimpleNamespace(evidence=types.SimpleNamespace(tried=(0, 64, 2048, 3000), end=2100))
        found, _ = evident([], NoTools({}), Options(("a",)))

        def told(target: Target) -> list[int]:
            return [row for row in found.offsets_of(cast(Any, scope), target) if row in (0, 64, 80, 100, 300, 1948, 2048, 3000)]
        self.assertEqual(told(Target((0, 1), Span(0, 2100), "why")), [0, 64, 2048])
        other = types.SimpleNamespace(evidence=types.SimpleNamespace(tried=(100,), end=2100))
        self.assertEqual(found.offsets_of(cast(Any, other), Target((0,), Span(100, 2100), "why"))[:2], [100, 116])
        self.assertEqual(told(Target((0, 1), Span(0, 2100), "why", begin=64)), [0, 64])
        self.assertEqual(told(Target((0, 1), Span(0, 2100), "why", begin=1948, moved=(100, 400))), [0, 1948])


class Apart(unittest.TestCase):
    """Images that hold the same, but not at the same sectors."""

    images = [Image(name, number, 900, first=8) for number, name in enumerate("abc")]
    named = "metadata on image 1 (LVM2): parts of volumes begin at sectors 8, 16"
    copied = True

    def unlike(self, known: Sequence[ties.Known], alone: Sequence[int], shown: Sequence[Shift], offsets: Sequence[Unlike] = (),
               options: Options = Options(("a",)), partition: bool = False) -> list[Target]:
        """What is tried of three images, of which this is known, with distances between them and the offsets that parity allows."""
        it, self.report = evident(self.images, NoTools({}), options)
        told, part = ties.Told(tuple(known), tuple(alone), True), Part((0, 1, 2), Span(0, 900, partition))
        with mock.patch("reraid_try.policy.evident.unlike.found_shifts", return_value=Distances(tuple(shown))), \
                mock.patch("reraid_try.policy.evident.metadata.lvm_starts", return_value={1: (8, 16)}), \
                mock.patch("reraid_try.policy.evident.copying.lie_apart", return_value=self.copied), \
                mock.patch("reraid_try.policy.evident.unlike.look", return_value=offsets) as look:
            found = it.unlike(it.asked(), told, part)
        if look.called:
            self.assertEqual(look.call_args[0][1:], (self.images, Distances(tuple(shown)), 900, {1: (8, 16)}))
        return found

    def test_images_of_a_partition_alone(self) -> None:
        """They are searched with those of whole disks: where parity ties all, or else at the sectors where data usually begin."""
        images = [Image("a", 0, 9000, first=0), Image("b", 1, 8900, first=2048), Image("c", 2, 9000, first=0)]
        found, report = evident(images, NoTools({}), Options(("a",)))
        part = Part((0, 2), Span(2048, 8900, True), (1,))
        tied = Unlike((4096, 2048, 4096), ties.Known(ImageGroup((0, 1, 2), 500, 8, 900, "5", 1)))
        with mock.patch("reraid_try.policy.evident.unlike.moved", return_value=[tied]) as moved:
            target, = found.of_partition(part)
        self.assertEqual(moved.call_args[0][1:], (images, [2048, 0, 2048], 8900))
        self.assertEqual((target.images, target.moved, target.tied, target.shapes), ((0, 1, 2), (4096, 2048, 4096), True, (Shape("5", 3),)))
        with mock.patch("reraid_try.policy.evident.unlike.moved", return_value=[]):
            first, *_ = found.of_partition(part)
        self.assertEqual((first.moved, first.tied, first.shapes[0]), ((4096, 2048, 4096), False, Shape("5", 4, 1)))
        self.assertEqual(report.lines, ["image 1: no partition table, and shorter than whole disks. Perhaps of only the partition"] * 2)
        self.assertEqual(found.of_partition(dataclasses.replace(part, alone=())), [])

    def test_copies_that_lie_apart(self) -> None:
        """They are tried as RAID 10, but where parity ties the images at offsets of their own, or level 10 is not asked for."""
        shown = [Shift(0, 1, 128, 50), Shift(1, 2, 128, 40)]
        target, _ = self.unlike((), (0, 1, 2), shown)
        self.assertEqual((target.images, target.copied, target.apart, target.shapes), ((0, 1, 2), True, 128, ()))
        self.assertEqual(target.why, "much of the data is on another image too, 128 sectors apart, as in RAID 10 of layout offset")
        self.assertEqual([target.apart for target in self.unlike((), (0, 1, 2), shown, options=Options(("a",), levels=("5",)))], [None])
        self.assertEqual(self.report.lines, [self.named])
        five = ties.Known(ImageGroup((0, 1, 2), 500, 8, 900, "5", 1), None, 40)
        found = self.unlike((), (0, 1, 2), shown, [Unlike((8, 136, 264), five), Unlike((0, 128, 256), dataclasses.replace(five, begin=48))])
        self.assertEqual([(target.moved, target.apart, target.begin, target.shapes) for target in found],
                         [((8, 136, 264), None, 40, (Shape("5", 3),)), ((0, 128, 256), None, 48, (Shape("5", 3),))])
        self.assertEqual(self.report.lines, [self.named, "the data begin at different sectors of the images; parity matches at these: 8, 136, 264"])
        target, = self.unlike((), (0, 1, 2), shown, [Unlike((8, 136, 264), five)], partition=True)
        self.assertEqual((target.moved, target.apart, self.report.lines), ((), 128, []))

    def test_files_that_are_stored_twice(self) -> None:
        """A distance that few sectors have is no reason to look for copies."""
        self.copied = False
        self.assertEqual([target.apart for target in self.unlike((), (0, 1, 2), [Shift(0, 1, 128, 50), Shift(1, 2, 128, 40)])], [None])

    def test_beginnings_before_copies(self) -> None:
        """Distances that agree with one beginning of each image, and might not, are tried as such before RAID 10; those of a chain behind it."""
        shown = [Shift(0, 1, 128, 50), Shift(1, 2, 128, 40), Shift(0, 2, 256, 30)]
        for these, order in ((shown, [None, 128]), (shown[:2], [128, None])):
            found = self.unlike((), (0, 1, 2), these)
            self.assertEqual([target.apart for target in found], order)
            guess, = (target for target in found if not target.copied)
            self.assertEqual((dict(guess.asked)["offsets"], guess.shapes), ("8,136,264", (Shape("5", 4, 1), Shape("6", 5, 2))))
        # Distances that contradict each other are none of beginnings, and of others nothing is tried.
        self.assertEqual([target.apart for target in self.unlike((), (0, 1, 2), [*shown[:2], Shift(0, 2, -128, 30)])], [128])
        self.assertEqual(self.unlike((), (0, 1, 2), []), [])

    def test_an_image_that_nothing_ties_where_a_disk_is_lost(self) -> None:
        """Its data may begin elsewhere. Where none is lost it is foreign, and where all are tied nothing is looked for; nor are copies."""
        lost, full = (ties.Known(ImageGroup((0, 1), 500, 8, 900, "6", parity)) for parity in (1, 2))
        offsets = [Unlike((8, 8, 136), ties.Known(ImageGroup((0, 1, 2), 500, 8, 900, "6", 2)))]
        self.assertEqual([target.moved for target in self.unlike((lost,), (2,), (), offsets)], [(8, 8, 136)])
        self.assertEqual(self.unlike((lost,), (2,), [Shift(0, 2, 128, 50), Shift(1, 2, 128, 50)]), [])
        self.assertEqual(self.unlike((full,), (2,), (), offsets), [])
        self.assertEqual(self.unlike((lost,), (), (), offsets), [])

    def test_images_of_which_some_begin_alike(self) -> None:
        """Few rows tie those, where others hold zeros: the others may be as many as there are. Copies are no such images."""
        few = ties.Known(ImageGroup((0,), 500, 8, 900, "5", 0))
        offsets = [Unlike((8, 8, 136), ties.Known(ImageGroup((0, 1, 2), 500, 8, 900, "5", 1)))]
        self.assertEqual([target.moved for target in self.unlike((few,), (1, 2), (), offsets)], [(8, 8, 136)])
        for other in (dataclasses.replace(few.group, parity=1), dataclasses.replace(few.group, level="10")):
            self.assertEqual(self.unlike((few, ties.Known(other)), (1, 2), (), offsets), [])

    def copies(self, target: Target, *content: int) -> tuple[bool, list[str]]:
        """Whether the search is at its end, and what was asked of copies, where candidates of these questions have a rating."""
        asked: list[str] = []
        it, _ = evident([*self.images, Image("d", 3, 900, like=0), Image("e", 4, 900, like=0)], NoTools({}), Options(("a",)))

        def mirrors(_scope: Any, question: Copied) -> bool:
            asked.append(f"{question.line().split()[1]} {question.members}")
            it.search.tested += [cast(Any, types.SimpleNamespace(score=Score.CHECKED))] * (len(asked) in content)
            return False
        setattr(it.search, "mirrors", mirrors)
        scope = types.SimpleNamespace(evidence=types.SimpleNamespace(tried=(0,), end=900))
        return it.copies(cast(Any, scope), target, 0), asked

    def test_what_is_asked_of_copies(self) -> None:
        """What copies are told of is asked until a candidate is content; of three images that are the same, and another one, six in threes first."""
        side = Target((0, 1, 2), Span(0, 900), "why", copied=True)
        self.assertEqual(self.copies(side, 3), (True, ["near2 3", "near3 3", "near2 4"]))
        done, asked = self.copies(side)
        self.assertEqual((done, asked[-1]), (False, "near4 6"))
        same = Target((0, 1, 3, 4), Span(0, 900), "why", copied=True)
        self.assertEqual(self.copies(same, 2)[1], ["near3 6", "near3 4"])
        few = dataclasses.replace(side, missing=(0, 1))
        self.assertEqual(self.copies(few)[1], ["near2 3", "near3 3", "near2 4", "near3 4", "near4 4"])
        self.assertEqual(self.copies(dataclasses.replace(side, missing=(2, 3)))[1][0], "near2 5")
        apart = Target((0, 1, 2), Span(0, 900), "why", copied=True, apart=128)
        self.assertEqual(self.copies(apart, 2)[1], ["offset2,offset3 3", "far2,far3 3"])


class Enough(unittest.TestCase):
    """Which candidates say enough."""

    def test_content_or_closed(self) -> None:
        """One with a rating does, and one that is encrypted where parity speaks for it."""
        def candidate(score: Score, parity: bool, encrypted: list[str]) -> Any:
            step = types.SimpleNamespace(shape=types.SimpleNamespace(parity=parity))
            return types.SimpleNamespace(score=score, step=step, found=types.SimpleNamespace(encrypted=encrypted))
        found = [candidate(Score.CHECKED, False, []), candidate(Score.KNOWN, True, ["LUKS"]), candidate(Score.KNOWN, False, ["LUKS"]),
                 candidate(Score.KNOWN, True, [])]
        self.assertEqual(list(map(evident_module.enough, found)), [True, True, False, False])


class Parts(unittest.TestCase):
    """The parts of the disks that are searched, and the scope in which all else is."""

    images = [Image(name, number, 900, first=8, heads=(Head("mbr", number, 4), Head("mbr", number, 200))) for number, name in enumerate("abc")]

    def test_places(self) -> None:
        """Places that hold an array are searched, in order; of the others it is said that they are passed over."""
        found, report = evident(self.images, NoTools({}), Options(("a",)))
        places = [Place(100, 400, (0, 1)), Place(500, 300, (0, 1, 2)), Place(8, 90, (0, 1, 2), copied=True)]
        with mock.patch("reraid_try.policy.evident.shared.looked_at", return_value=places):
            self.assertEqual(list(found.parts()), [Part((0, 1), Span(100, 500, True)), Part((0, 1, 2), Span(500, 800, True))])
        self.assertEqual([line.endswith("; skipped") for line in report.lines], [False, False, True])
        with mock.patch("reraid_try.policy.evident.shared.looked_at", return_value=[Place(8, 90, (0, 1, 2), empty=True)]):
            self.assertEqual(list(found.parts()), [Part((0, 1, 2), Span(0, 900))])
        nothing, _ = evident([Image("a", 0, 900)], NoTools({}), Options(("a",)))
        self.assertEqual(list(nothing.parts()), [])

    def test_all_are_tried(self) -> None:
        """Each part is, also behind one of which a candidate says enough."""
        found, _ = evident(self.images, NoTools({}), Options(("a",)))
        parts = [Part((0, 1), Span(100, 500, True)), Part((0, 1, 2), Span(500, 800, True))]
        tried: list[Part] = []

        def of_part(part: Part) -> bool:
            tried.append(part)
            return part is parts[0]
        setattr(found, "of_part", of_part)
        setattr(found, "parts", lambda: iter(parts))
        self.assertEqual((found.run(), tried, found.searched), (True, parts, parts))
        setattr(found, "of_part", lambda _: False)
        self.assertFalse(found.run())

    def test_within(self) -> None:
        """Of a partition what lies in it is seen, of whole disks all."""
        found, _ = evident(self.images, NoTools({}), Options(("a",)))
        self.assertEqual(found.within((2, 0), Span(0, 300)), [self.images[2], self.images[0]])
        seen = found.within((2, 0), Span(100, 300, True))
        self.assertEqual([(it.number, it.sectors, [head.sector for head in it.heads]) for it in seen], [(2, 300, [200]), (0, 300, [200])])

    def test_scope(self) -> None:
        """All else is tried in the first partition that was searched, or over all images."""
        cases: list[tuple[list[Part], tuple[int, ...], int]] = [
            ([Part((0, 2), Span(100, 300, True)), Part((0, 1, 2), Span(300, 800, True))], (0, 2), 100),
            ([Part((0, 2), Span(0, 900))], (0, 1, 2), 0), ([], (0, 1, 2), 0)]
        for parts, images, start in cases:
            found, report = evident(self.images, NoTools({}), Options(("a",)))
            setattr(found.search, "say_late", None)
            found.searched = parts
            with mock.patch("reraid_try.policy.evident.Scope") as scope:
                found.scope()
            self.assertEqual((tuple(it.number for it in scope.call_args[0][2]), scope.call_args[1].get("start", 0)), (images, start))
            self.assertEqual(report.lines, ["continuing in the partition from sector 100 on"] if start else [])

    def test_images_that_are_the_same(self) -> None:
        """They are tried as RAID 10, but in a partition, or where that level is not asked for; what holds nothing is none of it."""
        heap = [*self.images, Image("d", 3, 900, first=8, like=1), Image("e", 4, 900)]
        part = Part((0, 1, 2), Span(0, 900))
        found, _ = evident(heap, NoTools({}), Options(("a",)))
        target, = found.alike(part)
        self.assertEqual((target.images, target.why, target.copied, target.shapes), ((0, 1, 2, 3), "image 3 is the same as image 1", True, ()))
        self.assertEqual(found.alike(Part((0, 1, 2), Span(100, 500, True))), [])
        self.assertEqual(evident(heap, NoTools({}), Options(("a",), levels=("5",)))[0].alike(part), [])
        self.assertEqual(evident(self.images, NoTools({}), Options(("a",)))[0].alike(part), [])

    def test_metadata(self) -> None:
        """What they name is tried, but for offsets of each image's own over some of the images; in a partition its start counts for LVM2."""
        def member(image: int, slot: int, offset: int) -> Member:
            return Member(image, "md 1.2", "a", "raid5", 3, "left-symmetric", 128, slot, offset, 9)
        same, unlike = [member(image, image, 2048) for image in range(3)], [member(image, image, 2048 + image) for image in range(3)]
        heap = [*self.images, Image("d", 3, 900, first=8)]
        for images, members, part, count, place, start in (
                (self.images, same, Part((0, 1, 2), Span(0, 900)), 1, None, 0),
                (self.images, unlike, Part((0, 1, 2), Span(0, 900)), 1, None, 0), (heap, same, Part((0, 1, 2), Span(0, 900)), 1, None, 0),
                (heap, unlike, Part((0, 1, 2, 3), Span(0, 900)), 0, None, 0),
                (heap, same, Part((0, 1, 2), Span(100, 500, True)), 1, Place(100, 400, (0, 1, 2)), 100)):
            found, report = evident(images, NoTools({}), Options(("a",)))
            with mock.patch("reraid_try.policy.evident.metadata.examine", return_value=members) as examine, \
                    mock.patch("reraid_try.policy.evident.metadata.examine_lvm", return_value=[]) as lvm:
                targets = found.by_metadata(part)
            self.assertEqual((len(targets), len(report.lines)), (count, 3))
            self.assertEqual(examine.call_args[0][2:], ({number: images[number].name for number in part.images}, place))
            self.assertEqual(lvm.call_args[0][0], {number: start for number in part.images})


class Sought(unittest.TestCase):
    """The steps of a target."""

    def seek(self, target: Target, *found: Score, ends: bool = False) -> tuple[bool, list[str], Any]:
        """Whether a candidate says enough, what was done, and how the scope was begun, where the steps find candidates of these scores."""
        done: list[str] = []
        it, report = evident([Image(name, number, 900, first=8) for number, name in enumerate("abc")], NoTools({}), Options(("a",)))
        it.search.tested.append(cast(Any, types.SimpleNamespace(score=Score.WHOLE)))
        setattr(it.search, "say_late", None)
        setattr(it.search, "say_evidence", lambda _: done.append("evidence"))

        def copies(_scope: Any, _target: Target, before: int) -> bool:
            done.append(f"copies {before}")
            return ends

        def plainly(_scope: Any, _target: Target, before: int) -> bool:
            done.append(f"plain {before} {it.search.why}")
            return ends

        def relaxed(_scope: Any, _target: Target, before: int) -> None:
            done.append(f"relaxed {before} {it.search.why}")
            step = types.SimpleNamespace(shape=types.SimpleNamespace(parity=True))
            it.search.tested.extend(cast(Any, types.SimpleNamespace(score=score, step=step, found=types.SimpleNamespace(encrypted=[])))
                                    for score in found)
        setattr(it, "copies", copies)
        setattr(it, "plainly", plainly)
        setattr(it, "relaxed", relaxed)

        def with_all(_scope: Any, _target: Target, unsound: Unsound, before: int) -> bool:
            done.append(f"all {unsound.images} {before}")
            return 1 in unsound.images
        setattr(it, "with_all", with_all)
        with mock.patch("reraid_try.policy.evident.Scope") as scope:
            later: list[Later] = []
            told = it.seek(target, later)
            self.assertEqual([one.target for one in later], [target] * bool(target.moved and not ends))
            told = any(it.relax(one) for one in later) or told
        self.assertEqual((report.lines, it.search.why), ([f"trying first: {target.why}"], ""))
        return told, done, scope.call_args

    def test_what_is_done(self) -> None:
        """Copies first where they are asked for, and then the shapes, unless that was enough; candidates of before say nothing."""
        target = Target((2, 0), Span(100, 300, True), "why", asked=(("chunks", "8"),), tied=True)
        told, done, begun = self.seek(target, Score.CHECKED)
        self.assertEqual((told, done), (True, ["evidence", "plain 1 why", "relaxed 1 why"]))
        self.assertEqual(([it.number for it in begun[0][2]], begun[0][0].seconds), ([2, 0], 10))
        self.assertEqual(begun[1], {"start": 100, "asked": {"chunks": "8"}, "tied": True, "shared": "the surveys"})
        self.assertEqual(self.seek(target, Score.KNOWN)[0], False)
        copied = Target((2, 0), Span(0, 900), "why", copied=True)
        self.assertEqual(self.seek(copied)[:2], (False, ["evidence", "copies 1", "plain 1 why", "relaxed 1 why"]))
        self.assertEqual(self.seek(dataclasses.replace(target, moved=(8, 0)), Score.CHECKED)[:2],
                         (True, ["evidence", "plain 1 why", "relaxed 1 why"]))
        self.assertEqual(self.seek(target, ends=True)[:2], (False, ["evidence", "plain 1 why"]))
        self.assertEqual(self.seek(copied, ends=True)[:2], (False, ["evidence", "copies 1"]))
        for images in ((0, 1, 2), (0, 2)):
            every = dataclasses.replace(target, unsound=Unsound(images, Shape("5", 3)))
            then = ["relaxed 1 why"] * (1 not in images)
            self.assertEqual(self.seek(every)[1], ["evidence", "plain 1 why", f"all {images} 1", *then])
            self.assertEqual(self.seek(every, ends=True)[1], ["evidence", "plain 1 why", f"all {images} 1"])

    def with_all(self, images: tuple[int, ...], has: int | None) -> tuple[list[Any], list[Any], list[str], bool]:
        """The steps of a target over images 2 and 0 with all of a group, the scopes that were begun for them, what was said, and whether a
        candidate with all of them has a rating, where the step with so many things relaxed finds it, 0 of which is one that was there before."""
        it, report = evident([Image(name, number, 900, first=8) for number, name in enumerate("abc")], NoTools({}), Options(("a",), seconds=60))
        setattr(it.search, "say_late", None)
        true, less = (cast(Any, types.SimpleNamespace(score=score, word=types.SimpleNamespace(images=those)))
                      for score, those in ((Score.CHECKED, (0, 1, 2)), (Score.WHOLE, (1,))))
        stages: list[Any] = []

        def stage(asked: Stage, scope: Any) -> bool:
            """A step."""
            stages.append((scope.name, asked.count, asked.shapes, scope.program.seconds, asked.only, it.search.why))
            it.search.tested += [true] * (has == asked.count)
            return False
        setattr(it.search, "take_stage", stage)
        it.search.why = "why"
        it.search.tested += [true, less] + [true] * (has == 0)
        unsound = Unsound(images, Shape("5", 3))
        target = Target((2, 0), Span(100, 300, True), "why", asked=(("chunks", "8"),), tied=True, unsound=unsound)
        with mock.patch("reraid_try.policy.evident.Scope") as scope:
            scope.return_value = types.SimpleNamespace(name="new", program=types.SimpleNamespace(seconds=10))
            over = cast(Any, types.SimpleNamespace(name="old", program=types.SimpleNamespace(seconds=10)))
            told = it.with_all(over, target, unsound, 1)
            self.assertEqual(it.search.why, "why")
            return stages, [([one.number for one in call[0][2]], call[1]) for call in scope.call_args_list], report.lines, told

    def test_with_all(self) -> None:
        """Where few rows leave images out, all of the group are tried as well, with rows that may be bad, until a candidate with all of them
        has a rating: in the same scope where the images are the same, and else in one over all of them."""
        for images, name in (((2, 0), "old"), ((0, 1, 2), "new")):
            why = Unsound(images, Shape("5", 3)).line()
            for has, count in ((None, 2), (0, 0), (1, 1), (2, 2)):
                stages, begun, said, told = self.with_all(images, has)
                self.assertIs(told, has is not None)
                self.assertEqual(stages, [(name, number, (Shape("5", 3),), 60, is_of_bad_rows, why) for number in (1, 2)][:count])
                self.assertEqual(begun, [([0, 1, 2], {"start": 100, "asked": {"chunks": "8"}, "tied": True, "shared": "the surveys"})] *
                                 (name == "new" and count > 0))
                self.assertEqual(said, [why] * (count > 0))

    def test_bad_rows(self) -> None:
        """What is relaxed then: rows that may be bad, and what one kind of group needs."""
        stage = with_bad_rows(2, Shape("5", 3))
        asked = (relaxations.bad_rows(9, [0]), relaxations.no_records(), relaxations.misfits(), relaxations.delays())
        self.assertEqual((stage.shapes, stage.count, stage.every), ((Shape("5", 3),), 2, False))
        self.assertEqual([bool(stage.only and stage.only(relaxation)) for relaxation in asked], [True, True, False, False])

    def test_time_of_a_question(self) -> None:
        """A sixth of that of a step, and five seconds at least."""
        for seconds, part in ((60, 10), (31, 5), (36, 6), (9, 5)):
            self.assertEqual(evident([], NoTools({}), Options(("a",), seconds=seconds))[0].options.seconds, part)

    def test_where_parity_may_lie(self) -> None:
        """It is asked of what is tied at levels 5 and 6, over what the images of the target have, at the first shape alone."""
        it, _ = evident([Image(name, number, 900 - number, first=8) for number, name in enumerate("abc")], NoTools({}), Options(("a",)))
        asked: list[Any] = []
        setattr(it, "asked", lambda: types.SimpleNamespace(relations=lambda *words: asked.append(words)))
        five, zero = Shape("5", 3, 1), Shape("0", 2)
        target = Target((0, 2), Span(0, 2000), "why", (five, zero), tied=True)
        each = dataclasses.replace(target, asked=(("mode", "each"),))
        for of, wanted in ((target, [((0, 2), 0, 898, 1, ())]), (dataclasses.replace(target, span=Span(100, 500)), [((0, 2), 100, 500, 1, ())]),
                           (dataclasses.replace(target, images=(0,), span=Span(0, 40 * 16384)), [((0,), 0, 900, 1, ())]),
                           (dataclasses.replace(each, moved=(16, 8)), [((0, 2), 0, 882, 1, (16, 8))]), (each, []),
                           (dataclasses.replace(target, shapes=(zero, five)), [])):
            asked.clear()
            self.assertIsNone(it.places_of(of, of.shapes[0]))
            self.assertEqual(asked, wanted)
            self.assertIsNone(it.places_of(of, of.shapes[1]))
            self.assertEqual(asked, wanted)
        setattr(it, "asked", lambda: types.SimpleNamespace(relations=lambda *_: Relations(1, ())))
        found = it.places_of(dataclasses.replace(target, images=(2, 0)), five)
        assert found
        self.assertEqual((found.images, found.level, found.members), ((2, 0), "5", 3))
        long, _ = evident([Image("a", 0, 1 << 20)] * 2, NoTools({}), Options(("a",)))
        setattr(long, "asked", lambda: types.SimpleNamespace(relations=lambda *words: asked.append(words)))
        long.places_of(Target((0, 1), Span(0, 1 << 20), "why", (Shape("6", 4, 2),), tied=True), Shape("6", 4, 2))
        self.assertEqual(asked[-1][3], 64)

    def test_where_parity_may_lie_on_what_nothing_ties(self) -> None:
        """At each shape that has lost as many disks as its level bears; the rows are asked for once."""
        it, _ = evident([Image(name, number, 900, first=8) for number, name in enumerate("abc")], NoTools({}), Options(("a",)))
        asked: list[Any] = []

        def relations(*words: Any) -> Relations:
            asked.append(words)
            return Relations(1, ())
        setattr(it, "asked", lambda: types.SimpleNamespace(relations=relations))
        shapes = (Shape("0", 3), Shape("5", 4, 1), Shape("6", 5, 2), Shape("6", 4, 1), Shape("5", 3))
        target = Target((0, 1, 2), Span(0, 900), "why", shapes)
        found = [it.places_of(target, shape) for shape in shapes]
        self.assertEqual([places and (places.level, places.members) for places in found], [None, ("5", 4), ("6", 5), None, None])
        self.assertEqual(len(asked), 1)
        it.places_of(dataclasses.replace(target, images=(0, 1)), shapes[1])
        self.assertEqual([words[0] for words in asked], [(0, 1, 2), (0, 1)])


class Unread(unittest.TestCase):
    """Rows that maps call unread."""

    def test_rows(self) -> None:
        """Those of the images of a target, each moved by its offset."""
        maps = [None, Map("b.map", "", ((0, 5120, "+"), (5120, 512, "-"), (5632, 90000, "+"))),
                Map("c.map", "", ((0, 1024, "*"), (1024, 90000, "+")))]
        images = [Image(name, number, 100, map=it) for number, (name, it) in enumerate(zip("abc", maps))]
        found, _ = evident(images, NoTools({}), Options(("a",)))
        for numbers, moved, gaps in (((0, 1, 2), (), [range(10, 11), range(0, 2)]), ((0, 1), (), [range(10, 11)]), ((2, 0), (), [range(0, 2)]),
                                     ((0, 1, 2), (5, 4, 1), [range(6, 7), range(0, 1)])):
            self.assertEqual(list(found.unread(Target(numbers, Span(0, 9), "why", moved=moved))), gaps)


class Evidence(unittest.TestCase):
    """What images say."""

    def targets(self, images: Sequence[Image], runner: Standin, options: Options | None = None) -> tuple[list[Target], list[str]]:
        """The targets of all parts, and what was said."""
        found, report = evident(images, runner, options or Options(tuple(image.name for image in images)))
        setattr(found, "by_metadata", lambda part: [])
        return [target for part in found.parts() for target in found.targets(part)], report.lines

    def test_level_6_with_a_foreign_disk(self) -> None:
        """The images that belong together are searched, at the level and with as many lost as ties say."""
        rnd = random.Random(2)
        made = rows.beside(rows.without(rows.striped(rnd, 6, 6, 600, chunk=16), 1), rows.alone(rnd, 600))
        runner, images = disks(made)
        with mock.patch("reraid_try.policy.evident.unlike.found_shifts", return_value=Distances()), \
                mock.patch("reraid_try.policy.evident.metadata.lvm_starts", return_value={}):
            found, said = self.targets(images, runner)
        self.assertEqual([(target.images, target.shapes, dict(target.asked), target.begin) for target in found],
                         [((0, 1, 2, 3, 4), (Shape("6", 6, 1),), {"chunks": "16"}, 0)])
        self.assertEqual(len(said), 2)

    def test_in_which_order(self) -> None:
        """Metadata; data that begin at unlike sectors; two images that may be copies, few missing; groups; such images, more missing; copies;
        whole images that are the same; what nothing ties. Of copies those too of which an image is left out."""
        it, _ = evident([Image(name, number, 300, first=0) for number, name in enumerate("abc")], Standin({}, Answer(None)), Options(("a",)))

        def targets(why: str) -> Any:
            count = 2 if why == "perhaps" else 1
            return lambda *_: [Target((0, 1, 2), Span(0, 300), why, (Shape("0", 3),))] * count
        with mock.patch.multiple(it, unlike=targets("unlike"), alike=targets("alike"), by_metadata=targets("metadata")), \
                mock.patch.multiple("reraid_try.policy.evident.plain", perhaps_copied=targets("perhaps"), tied=targets("tied"),
                                    copied=targets("copied"),
                                    without_each=lambda them, images: [dataclasses.replace(it, why=f"{it.why} without {images}") for it in them],
                                    untied=targets("untied")):
            self.assertEqual([target.why for target in it.targets(Part((0, 1, 2), Span(0, 300)))],
                             ["metadata", "unlike", "perhaps", "tied", "perhaps", "copied without []", "alike without []", "untied"])

    def test_what_no_level_explains(self) -> None:
        """Landmarks by the thousand are tried alone if nothing else of the images is; what metadata name comes before."""
        it, _ = evident([Image(name, number, 300, first=0) for number, name in enumerate("abc")], Standin({}, Answer(None)), Options(("a",)))
        whole = Target((0, 1, 2), Span(0, 300), "metadata")
        for tied, named, wanted in ((0, 0, ["alone"]), (1, 0, ["tied"]), (0, 1, ["metadata", "alone"])):
            with mock.patch.multiple(it, unlike=lambda *_: [], alike=lambda *_: [], by_metadata=lambda *_, named=named: [whole] * named), \
                    mock.patch.multiple("reraid_try.policy.evident.plain", untied=lambda *_: [],
                                        tied=lambda *_, tied=tied: [dataclasses.replace(whole, why="tied", shapes=(Shape("0", 3),))] * tied,
                                        unexplained=lambda *_: [dataclasses.replace(whole, why="alone")]):
                self.assertEqual([target.why for target in it.targets(Part((0, 1, 2), Span(0, 300)))], wanted)

    def test_encrypted_images_that_nothing_ties(self) -> None:
        """Only metadata give a reason for a step then; in a partition others may."""
        metadata = Target((0, 1, 2), Span(0, 300), "metadata", (Shape("0", 3),))
        images = [Image(name, number, 300, first=0) for number, name in enumerate("abc")]
        for closed, partition, more in ((True, False, False), (False, False, True), (True, True, True)):
            it, _ = evident(images, Standin({}, Answer(None)), Options(("a",)), closed)
            with mock.patch.multiple(it, unlike=lambda *_: [], by_metadata=lambda *_: [metadata]), \
                    mock.patch("reraid_try.policy.evident.plain.untied", return_value=[dataclasses.replace(metadata, why="untied")]):
                found = it.targets(Part((0, 1, 2), Span(0, 300, partition)))
            self.assertEqual([target.why for target in found], ["metadata", "untied"] if more else ["metadata"])

    def test_images_without_their_like(self) -> None:
        """Those that neither are the same as another one nor have one that is, and hold something."""
        images = [Image("a", number, 300, first=None if number == 5 else 0, like={1: 0}.get(number)) for number in range(6)]
        it, _ = evident(images, Standin({}, Answer(None)), Options(("a",)))
        self.assertEqual(it.without_like(), [2, 3, 4])
        with mock.patch.multiple(it, unlike=lambda *_: [], by_metadata=lambda *_: []), \
                mock.patch("reraid_try.policy.evident.plain.tied", side_effect=([], [Target((2, 3), Span(0, 300), "tied")])):
            found = [it.targets(Part((0, 2, 3, 4), Span(0, 300))) for _ in range(2)]
        self.assertEqual([target.images for target in found[0]], [(0, 1, 2, 3, 4), (0, 1, 3, 4), (0, 1, 2, 4), (0, 1, 2, 3), (0, 1, 2, 3, 4)])
        self.assertEqual([target.images for target in found[1]], [(2, 3), (0, 1, 2, 3, 4)])

    def test_how_many_are_alike(self) -> None:
        """As many as most of the images that have their like; one where none has."""
        cases: list[tuple[dict[int, int], int]] = [({}, 1), ({1: 0, 3: 2, 5: 4, 6: 4}, 2), ({1: 0, 2: 0, 5: 4, 6: 4, 8: 7}, 3)]
        for like, count in cases:
            it, _ = evident([Image("a", number, 300, first=0, like=like.get(number)) for number in range(9)], NoTools({}), Options(("a",)))
            self.assertEqual(it.alike_count(range(9)), count)

    def test_an_old_disk(self) -> None:
        """It is kept in mind for what is said of candidates of the others."""
        rnd = random.Random(2)
        made = rows.striped(rnd, 6, 6, 300, chunk=16)
        for row in made[100:]:
            row[4] = rows.sector(rnd)
        runner, images = disks(made)
        found, _ = evident(images, runner, Options(("a",)))
        setattr(found, "by_metadata", lambda _: [])
        target, = found.targets(Part(tuple(range(6)), Span(0, 300)))
        self.assertEqual((target.images, found.search.stale), ((0, 1, 2, 3, 5), {4}))

    def test_states_of_one_disk(self) -> None:
        """Beside a disk that failed and the one that took its place each is left out in turn: after RAID 10 if nothing ties the others."""
        rnd = random.Random(5)
        made = rows.without(rows.striped(rnd, 5, 5, 600, chunk=16), 2)
        for number, row in enumerate(made):
            row.append(row[1] if number < 400 else rows.sector(rnd))
        runner, images = disks(made)
        with mock.patch("reraid_try.policy.evident.unlike.found_shifts", return_value=Distances()), \
                mock.patch("reraid_try.policy.evident.metadata.lvm_starts", return_value={}):
            found, said = self.targets(images, runner)
        shapes = (Shape("0", 4), Shape("5", 5, 1), Shape("6", 6, 2))
        states = [(it.images, it.shapes, it.by_thousands, it.states) for it in found if it.states]
        self.assertEqual(states, [((0, 2, 3, 4), shapes, shapes, (1, 4)), ((0, 1, 2, 3), shapes, shapes, (4, 1))])
        self.assertEqual([bool(it.copied) for it in found if it.states or it.copied][-2:], [False, False])
        self.assertIn("images 1 and 4 hold the same data in many rows and different data in others: perhaps one is an older state of the other, as "
                      "of a disk that was replaced or imaged twice", said)

    def test_a_reshape(self) -> None:
        """Where it stands is said, and kept in mind for the end, once; all five disks are tried."""
        rnd = random.Random(12)
        before, after = rows.striped(rnd, 5, 5, 100), rows.striped(rnd, 4, 5, 100)
        runner, images = disks(before + rows.beside(after, [[bytes(rows.COLUMNS)]] * 100))
        found, report = evident(images, runner, Options(("a",)))
        setattr(found, "by_metadata", lambda _: [])
        for _ in range(2):
            target, = found.targets(Part(tuple(range(5)), Span(0, 200)))
        self.assertEqual((target.images, target.shapes), ((0, 1, 2, 3, 4), (Shape("5", 5),)))
        self.assertIn("parity changes for good between sectors 99 and 100: before, it matches 5 images", report.text)
        self.assertEqual([(it.last, it.sector) for it in found.search.reshapes], [(99, 100)])

    def test_an_image_twice_and_an_empty_one(self) -> None:
        """An image that is there twice counts once, and one of zeros not at all; that two are the same is tried as RAID 10 after that."""
        rnd = random.Random(3)
        runner, images = disks([[*row, row[1], bytes(rows.COLUMNS)] for row in rows.striped(rnd, 4, 5, 300)])
        images[4] = Image(images[4].name, 4, 300, first=0, like=1)
        images[5] = Image(images[5].name, 5, 300)
        found, _ = self.targets(images, runner)
        self.assertEqual([(target.images, target.shapes, target.copied) for target in found],
                         [((0, 1, 2, 3), (Shape("5", 4),), False), ((0, 1, 2, 3, 4), (), True)])

    def test_no_relations(self) -> None:
        """Where no relations were had in their time nothing is tried for their sake."""
        runner, images = disks([[bytes(rows.COLUMNS)] * 3] * 4)
        runner.answer = Answer(None)
        self.assertEqual(self.targets(images, runner), ([], []))

    def test_partitions(self) -> None:
        """Without a table in common the whole disks are one part."""
        _, images = disks([[bytes(rows.COLUMNS)] * 2] * 64)
        table = Table("MBR", True, (Partition(8, 20, "fd"),))
        seen = [Image(it.name, it.number, 64, first=0, table=table if it.number else Table()) for it in images]
        found, _ = evident(seen, NoTools({}), Options(("a",)))
        self.assertEqual(list(found.parts()), [Part((0, 1), Span(0, 64))])


if __name__ == "__main__":
    unittest.main()
