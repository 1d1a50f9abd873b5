"""Set words, plans, the output of reraid, surveys, and what it is asked."""

import dataclasses
import unittest

from reraid_try.calls import formats, plans, sets, surveys
from reraid_try.calls.formats import Held, Ranked
from reraid_try.calls.plans import Bounds, Mark, read_plan
from reraid_try.calls.program import LAST, MAX_LINES, SPAN, Copied, Program
from reraid_try.calls.sets import read_word, simplest
from reraid_try.calls.surveys import KINDS, Request, Surveys
from reraid_try.errors import OutsideError, Refused, said, said_of
from reraid_try.units import counted, listed, percent
from tests.standin import PLAN, Standin, put


class Units(unittest.TestCase):
    def test_numbers_in_words(self) -> None:
        self.assertEqual((counted(1, "mark"), counted(2, "mark"), counted(0, "mark")), ("1 mark", "2 marks", "0 marks"))
        self.assertEqual(listed([2048, 0, 2048]), "0,2048")
        self.assertEqual((percent(1, 1000), percent(0, 10), percent(1, 3), percent(5, 5)), ("less than 1%", "0%", "33%", "100%"))
        self.assertEqual((percent(1, 100), percent(1, 101)), ("1%", "less than 1%"))


class Errors(unittest.TestCase):
    def test_what_the_system_says(self) -> None:
        known = OSError(2, "No such file or directory", "a.img")
        self.assertEqual((said(known), said_of(known)), ("No such file or directory", "a.img: No such file or directory"))
        plain = OSError("cut off")
        self.assertEqual((said(plain), said_of(plain)), ("cut off", "cut off"))


class Sets(unittest.TestCase):
    def test_word_taken_apart(self) -> None:
        word = read_word("6:ls:by-data:128:2048+0+2048:3,0,-,2")
        self.assertEqual((word.level, word.pattern, word.order, word.chunk), ("6", "ls", "by-data", 128))
        self.assertEqual((word.offsets, word.offset, word.slots), ((2048, 0, 2048), 2048, (3, 0, None, 2)))
        self.assertEqual((word.data, word.row, word.lost, word.spare, word.images), (2, 256, 1, 1, (3, 0, 2)))

    def test_parity_that_stays(self) -> None:
        """A pattern may say for how many rows; what is made of such a set has the same."""
        word, plain = read_word("5:la*16:none:128:2048:3,0,-,2"), read_word("5:la:none:128:2048:0,1,2")
        self.assertEqual([(it.pattern, it.rotation, it.delay) for it in (word, plain)], [("la*16", "la", 16), ("la", "la", 1)])
        self.assertEqual((read_word("near2:8:0:0,1").rotation, read_word("near2:8:0:0,1").delay), ("", 1))
        self.assertEqual(word.without(frozenset({0})).text, "5:la*16:none:128:2048:3,-,-,2")
        self.assertEqual([sets.staying("la", delay) for delay in (1, 2)], ["la", "la*2"])
        for text, found in (("6:ls-6*16:after-q:8:0:0,-,1,2,-", "5:ls*16:none:8:0:0,-,1,2"),
                            ("6:ls-6*16:after-q:8:0:0,1,2,3", "6:ls-6*16:after-q:8:0:0,1,2,3"),
                            ("6:rs*16:by-data:8:0:0,-,1,2", "6:rs*16:after-q:8:0:0,-,1,2"),
                            ("6:la*16:by-data:8:0:0,-,1,2", "6:la*16:by-data:8:0:0,-,1,2")):
            self.assertEqual(simplest(read_word(text)).text, found)

    def test_levels_survive_what_they_do(self) -> None:
        spare = [read_word(text).spare for text in ("0:plain:none:8:0:0,1", "5:la:none:8:0:0,1,2", "5:la:none:8:0:0,1,-", "6:la:by-data:8:0:0,1,2,3")]
        self.assertEqual(spare, [0, 1, 0, 2])

    def test_mirrored(self) -> None:
        word = read_word("near2:128:2048:0,1,2")
        self.assertTrue(word.is_mirrored)
        self.assertEqual((word.data, word.row, word.spare, word.pattern), (1.5, 192, 0, ""))
        # Five rows of 128 sectors of three disks have 7.5 chunks, of which the last is half: whole sectors of 7.
        self.assertEqual(word.sectors(2048 + 5 * 128), 7 * 128)
        self.assertEqual(sets.mirrored(sets.Copying("near", 3), 128, 2048, (0, None)).text, "near3:128:2048:0,-")

    def test_sectors_are_of_whole_rows(self) -> None:
        word = read_word("5:ls:none:128:2048:0,1,2")
        self.assertEqual([word.sectors(end) for end in (2047, 2048 + 127, 2048 + 128, 2048 + 383)], [0, 0, 256, 512])

    def test_without_images(self) -> None:
        self.assertEqual(read_word("5:ls:none:8:0:2,0,1").without(frozenset({0})).text, "5:ls:none:8:0:2,-,1")

    def test_over(self) -> None:
        """A set of which some images alone are named has other numbers, and of a list of offsets theirs."""
        for text, images, wanted in (("6:ls:by-data:128:2048:4,-,0,2", (0, 2, 4), "6:ls:by-data:128:2048:2,-,0,1"),
                                     ("5:ls:none:128:2048:1,3,-", (1, 3), "5:ls:none:128:2048:0,1,-"),
                                     ("5:la:none:8:16+0+64+32:3,0,2", (0, 2, 3), "5:la:none:8:16+64+32:2,0,1"),
                                     ("near2:128:2048:5,1,-,2", (1, 2, 5), "near2:128:2048:2,0,-,1")):
            self.assertEqual(read_word(text).over(images).text, wanted)

    def test_folded(self) -> None:
        self.assertEqual(read_word("5:ls:none:8:2048+2048:0,1").folded().text, "5:ls:none:8:2048:0,1")
        self.assertEqual(read_word("5:ls:none:8:2048+0:0,1").folded().text, "5:ls:none:8:2048+0:0,1")
        self.assertEqual(read_word("5:ls:none:8:7:0,1").folded().text, "5:ls:none:8:7:0,1")

    def test_simplest_of_equal_sets(self) -> None:
        # Q on the last slot, which is empty: the RAID 5 of the others, also with one of these lost.
        self.assertEqual(simplest(read_word("6:ls-6:after-q:1024:0:0,-,1,2,-")).text, "5:ls:none:1024:0:0,-,1,2")
        self.assertEqual(simplest(read_word("6:parity-first-6:after-q:8:0:0,1,2,-")).text, "5:parity-first:none:8:0:0,1,2")
        # Fixed parity: without Q a RAID 5, without P too a RAID 0.
        self.assertEqual(simplest(read_word("6:parity-last:by-data:8:0:0,1,2,-")).text, "5:parity-last:none:8:0:0,1,2")
        self.assertEqual(simplest(read_word("6:parity-first:by-data:8:0:-,-,1,2")).text, "0:plain:none:8:0:1,2")
        self.assertEqual(simplest(read_word("5:parity-first:none:8:0:-,1,0")).text, "0:plain:none:8:0:1,0")
        self.assertEqual(simplest(read_word("5:parity-last:none:8:0:1,0,-")).text, "0:plain:none:8:0:1,0")

    def test_two_orders_of_q_that_are_one(self) -> None:
        """Behind Q the data of a symmetric layout stand in their order, so that Q weighs them alike by either."""
        for text, found in [("6:ls:by-data:8:0:0,-,1,2", "6:ls:after-q:8:0:0,-,1,2"),
                            ("6:rs:by-data:8:4+5+6+7:0,3,1,2", "6:rs:after-q:8:4+5+6+7:0,3,1,2"),
                            ("6:la:by-data:8:0:0,-,1,2", "6:la:by-data:8:0:0,-,1,2"), ("6:ls:by-slot:8:0:0,-,1,2", "6:ls:by-slot:8:0:0,-,1,2")]:
            self.assertEqual(simplest(read_word(text)).text, found)

    def test_others_stay(self) -> None:
        for text in ("6:ls-6:after-q:8:0:0,1,2,3", "6:ls:after-q:8:0:0,1,2,-", "6:ls-6:after-q:8:0:-,0,1,2", "5:ls:none:8:0:-,0,1",
                     "5:parity-first:none:8:0:0,-,1", "6:parity-first:by-data:8:0:-,0,1,2", "6:parity-last:by-data:8:0:0,1,-,2",
                     "near2:8:0:0,-", "0:plain:none:8:0:0,1"):
            self.assertEqual(simplest(read_word(text)).text, text)

    def test_fewest_members_come_first(self) -> None:
        words = [read_word(text) for text in ("6:ls:by-data:8:0:0,1,2,-,-", "6:ls:by-data:8:0:0,1,2,-", "5:ls:none:8:0:0,1,2,-")]
        self.assertEqual([word.text[0] + str(len(word.slots)) for word in sorted(words, key=lambda it: it.simplicity)], ["54", "64", "65"])

    def test_parity_that_moves_on_sooner_comes_first(self) -> None:
        """Of two sets of one level and as many members, as of one volume that is shorter than so many rows."""
        words = [read_word(text) for text in ("5:la*16:none:8:0:0,1,2", "5:parity-last:none:8:0:0,1,2", "6:la:by-data:8:0:0,1,-,-")]
        self.assertEqual([word.pattern for word in sorted(words, key=lambda it: it.simplicity)], ["parity-last", "la*16", "la"])


class Plans(unittest.TestCase):
    def test_text_comes_back(self) -> None:
        self.assertEqual(read_plan(PLAN).text(), PLAN)

    def test_parts(self) -> None:
        plan = read_plan(PLAN)
        self.assertEqual((plan.version, plan.lengths, plan.end, plan.numbers("origins")), (1, (100000,) * 3, 100000, [0, 2048]))
        self.assertEqual([(group.kind, group.place, len(group.marks), group.images()) for group in plan.groups],
                         [("xfs", 0, 3, {0, 1}), ("ext", 1, 1, {2})])
        self.assertEqual([group.name() for group in plan.groups], ["landmark group 0 (xfs, 3 landmarks)", "landmark group 1 (ext, 1 landmark)"])

    def test_bounds_of_a_group(self) -> None:
        """They make the text one of version 3, with a line for the mode; a plan without any is written as before."""
        text = PLAN.replace("reraid-plan 1\n", "reraid-plan 3\nmode common\n").replace("group ext\n", "group ext\nbounds 4096 17\n")
        plan = read_plan(text)
        self.assertEqual(([group.bounds for group in plan.groups], plan.version), ([None, Bounds(4096, 17)], plans.COMMON))
        self.assertEqual(plan.text(), text)
        self.assertEqual(plan.bounded(1, None).text(), PLAN)
        self.assertEqual(read_plan(PLAN).bounded(1, Bounds(4096, 17)), plan)
        self.assertEqual(plan.without({1}).text(), read_plan(PLAN).without({1}).text())
        each = dataclasses.replace(plan, version=plans.EACH)
        self.assertEqual(each.text(), text.replace("mode common", "mode each"))
        self.assertEqual((read_plan(each.text()), each.bounded(1, None).text()), (each, PLAN.replace("reraid-plan 1", "reraid-plan 2")))

    def test_delays(self) -> None:
        """For how many rows parity stays has a line behind the patterns, in version 3, where it is not one row alone."""
        text = PLAN.replace("reraid-plan 1\n", "reraid-plan 3\nmode common\n").replace("\nsyndromes", "\ndelays 1,16\nsyndromes")
        plan = read_plan(text)
        self.assertEqual((plan.text(), plan.values["delays"], plan.version), (text, "1,16", plans.COMMON))
        self.assertEqual(read_plan(PLAN).having(delays="1,16"), plan)
        self.assertEqual((read_plan(PLAN).having(delays=1).text(), plan.having(delays=1).text()), (PLAN, PLAN))
        self.assertEqual(read_plan(PLAN).having(delays=16).text(), text.replace("1,16", "16"))
        each = dataclasses.replace(plan, version=plans.EACH)
        self.assertEqual((each.text(), read_plan(each.text())), (text.replace("mode common", "mode each"), each))
        both = plan.bounded(1, Bounds(4096, 17))
        self.assertEqual((both.text(), read_plan(both.text())), (text.replace("group ext\n", "group ext\nbounds 4096 17\n"), both))

    def test_wrong_versions(self) -> None:
        for text in (PLAN.replace("reraid-plan 1\n", "reraid-plan 3\n"), PLAN.replace("reraid-plan 1\n", "reraid-plan 3\nmode other\n"),
                     PLAN.replace("group ext\n", "group ext\nbounds 1\n"), PLAN.replace("group ext\n", "group ext\nbounds a b\n")):
            with self.assertRaises(OutsideError):
                read_plan(text)

    def test_rules(self) -> None:
        every, either = Mark("agf", 0, 9, "every:49152:4:8"), Mark("boot", 0, 9, "either:7:5")
        self.assertEqual((every.nearest, every.step, every.numbers), (8, 49152, [49152, 4, 8]))
        self.assertEqual((either.nearest, either.step), (5, None))

    def test_changed(self) -> None:
        plan = read_plan(PLAN)
        self.assertEqual(plan.having(misfits=8).values["misfits"], "8")
        self.assertEqual([group.kind for group in plan.without({0}).groups], ["ext"])
        self.assertEqual(plan.bare().groups, ())
        self.assertEqual(plan.values["misfits"], "0")

    def test_no_plan(self) -> None:
        for text in ("", "reraid-plan x\n", PLAN.replace("done\n", ""), PLAN.replace("mark ext 2", "mark ext two"), PLAN.replace("end 100000\n", "")):
            with self.assertRaises(OutsideError):
                read_plan(text)


class Formats(unittest.TestCase):
    def test_page(self) -> None:
        delayed = formats.read_page(put("7 5:la*16:none:128:2048:0,1,2\nnext 20 of 60\n"))
        self.assertEqual((delayed.sets[0].text, delayed.sets[0].line()), ("5:la*16:none:128:2048:0,1,2", "7 5:la*16:none:128:2048:0,1,2\n"))
        page = formats.read_page(put("7 5:ls:none:128:2048:0,1,2\n9 near2:8:0:0,1\nnext 20 of 60\n"))
        self.assertEqual(page.sets, (Ranked(7, "5:ls:none:128:2048:0,1,2"), Ranked(9, "near2:8:0:0,1")))
        self.assertEqual((page.following, page.total, page.late, page.estimate), (20, 60, False, 6))

    def test_page_that_was_ended(self) -> None:
        page = formats.read_page(put("7 5:ls:none:128:2048:0,1,2\n9 5:l", None))
        self.assertEqual((len(page.sets), page.following, page.late, page.estimate), (1, None, True, 1))

    def test_total_by_status_and_line(self) -> None:
        self.assertEqual(formats.read_total(put("", 6, "reraid: cursor 18446744073709551615 is past 77\n")), 77)
        self.assertEqual(formats.read_total(put(f"next {LAST} of {LAST}\n")), LAST)
        self.assertIsNone(formats.read_total(put("", 5, "reraid: cursor 1 is past 77\n")))
        self.assertIsNone(formats.read_total(put("", 5, "reraid: the product has more than 18446744073709551615 sets\n")))

    def test_check(self) -> None:
        told = formats.read_check(put("rank -\nunsound 5 of 1000\ngroup 0 xfs origin 2048 fits 3 misfits 4\ngroup 1 gpt none\nfail\n"))
        assert told is not None
        self.assertEqual((told.unsound, told.rows, told.fits), (5, 1000, 3))
        self.assertEqual(told.groups, (Held("xfs", 2048, 3, 4), Held("gpt")))
        self.assertEqual([it.short() for it in told.groups], ["xfs 3-4", "gpt none"])
        self.assertEqual([it.text() for it in told.groups], ["xfs origin 2048 fits 3 misfits 4", "gpt none"])
        self.assertEqual([it.doubtful for it in told.groups], [True, False])
        self.assertEqual(Held("ext", 0, 3, 0).short(), "ext 3")
        self.assertFalse(Held("ext", 0, 3, 3).doubtful)

    def test_check_refused_or_late(self) -> None:
        self.assertIsNone(formats.read_check(put("", 7)))
        self.assertIsNone(formats.read_check(put("unsound 5 of 10\n", None)))

    def test_classes(self) -> None:
        self.assertEqual(formats.read_classes(put("0 a\n1 b\n0 c\nclasses 2 of 3\n")), [0, 1, 0])

    def test_lost(self) -> None:
        self.assertEqual(formats.read_lost(put("lost 5 8\ngood 92 of 100\n")), (8, 100))
        self.assertIsNone(formats.read_lost(put("", 9)))


class Asked(unittest.TestCase):
    def test_operands_in_order(self) -> None:
        request = Request().having(window=5, end=9).having(window=6)
        self.assertEqual(request.words(["a"]), ["reraid", "survey", "end=9", "window=6", "--", "a"])
        self.assertEqual((request.get("end"), request.number("badrows"), request.number("misfits", 3), request.is_each), ("9", 0, 3, False))
        self.assertTrue(request.having(mode="each").is_each)

    def test_filters_are_commands(self) -> None:
        plan = read_plan(PLAN.replace("group ext\n", "group ntfs\n" + "".join(f"mark record 0 {k} at:6\n" for k in range(5)) + "group ext\n"))
        request = Request(out=(1,), records=True)
        self.assertEqual([words[0] for words in request.filters(plan)], ["sed", "awk"])
        self.assertIn("n==2", str(request.filters(plan)[1][1]))
        self.assertEqual(Request(records=True).filters(read_plan(PLAN)), [])
        # Record 0, its copy, and both on parity are no more than four.
        few = read_plan(PLAN.replace("group ext\n", "group ntfs\n" + "".join(f"mark record 0 {k} at:6\n" for k in range(4)) + "group ext\n"))
        self.assertEqual(Request(records=True).filters(few), [])


class Surveyed(unittest.TestCase):
    def setUp(self) -> None:
        self.standin = Standin(("reraid survey", put(PLAN)))
        self.surveys = Surveys(self.standin, ["a", "b", "c"])
        self.request = Request().having(kinds=KINDS, offsets="0,2048", end=100000, origins="0,63")

    def test_later_kinds(self) -> None:
        """Those whose words the program understands."""
        refuses = put("", 1, "reraid: word 3 is not understood")
        standin = Standin(("reraid survey end=1 kinds=xfs5", put("reraid-plan 1\n")), ("reraid survey", refuses))
        self.assertEqual(surveys.known_kinds(standin, "a"), ("xfs5",))
        self.assertEqual([words[3] for words, _ in standin.asked], ["kinds=extinode", "kinds=xfs5", "kinds=btrfstree", "kinds=mft"])

    def test_made_once(self) -> None:
        self.surveys.plan(self.request)
        self.surveys.plan(self.request.having(levels=5, offsets=2048))
        self.assertEqual(self.standin.count("reraid survey"), 1)

    def test_made_anew_where_other_marks_would_be_seen(self) -> None:
        self.surveys.plan(self.request)
        # A mark at 2,048 lies before this offset, and that of the ext behind this end.
        self.surveys.plan(self.request.having(offsets=4096))
        self.surveys.plan(self.request.having(end=7000))
        self.surveys.plan(self.request.having(logical=4096))
        self.assertEqual(self.standin.count("reraid survey"), 4)
        self.surveys.plan(self.request.having(end=30000))
        self.assertEqual(self.standin.count("reraid survey"), 4)
        self.surveys.plan(self.request.having(end=200000))
        self.assertEqual(self.standin.count("reraid survey"), 5)

    def test_made_anew_where_less_was_read(self) -> None:
        """A survey without marks says nothing of what lies before where it began, or behind its end."""
        self.standin = Standin(("reraid survey", put(PLAN[:PLAN.index("group")] + "done\n")))
        surveys = Surveys(self.standin, ["a", "b", "c"])
        for values, count in (({"offsets": 4096, "end": 50000}, 1), ({"offsets": 2048, "end": 50000}, 2), ({"offsets": 4096, "end": 60000}, 3),
                              ({"offsets": 9000, "end": 40000}, 3)):
            surveys.plan(self.request.having(**values))
            self.assertEqual(self.standin.count("reraid survey"), count)

    def test_what_is_asked_stands_in_the_plan(self) -> None:
        plan = self.surveys.plan(self.request.having(levels="5,6", badrows=9, mode="each", end=50000))
        self.assertEqual((plan.values["levels"], plan.values["badrows"], plan.version, plan.end), ("5,6", "9", 2, 50000))
        self.assertEqual((plan.values["origins"], plan.values["window"]), ("0,63,2048", "50000"))
        count = self.standin.count("reraid survey")
        plan = self.surveys.plan(self.request.having(delays="1,16", end=50000))
        self.assertEqual((plan.values["delays"], plan.text().splitlines()[0]), ("1,16", "reraid-plan 3"))
        self.assertEqual(self.standin.count("reraid survey"), count)

    def test_groups_and_records_left_out(self) -> None:
        records = "group ntfs\n" + "".join(f"mark record 0 {k} at:6\n" for k in range(3000, 3005)) + "mark record 0 3005 at:8\ngroup ext\n"
        surveys = Surveys(Standin(("reraid survey", put(PLAN.replace("group ext\n", records)))), ["a"])
        plan = surveys.plan(Request(self.request.operands, (0,), True))
        self.assertEqual([(group.kind, len(group.marks)) for group in plan.groups], [("ntfs", 1), ("ext", 1)])

    def test_refused(self) -> None:
        surveys = Surveys(Standin(("reraid survey", put("", 10, "reraid: image read fault\n"))), ["a"])
        with self.assertRaisesRegex(Refused, r"^reraid: image read fault \(copy it with ddrescue: its mapfile lists what is unreadable\)$"):
            surveys.plan(self.request)
        surveys = Surveys(Standin(("reraid survey", put("", 14))), ["a"])
        with self.assertRaisesRegex(Refused, "^reraid survey ended with status 14$"):
            surveys.plan(self.request)


class Programs(unittest.TestCase):
    def program(self, *rows: tuple[str, object], jobs: int = 2) -> tuple[Program, Standin]:
        standin = Standin(*rows)  # type: ignore[arg-type]
        return Program(standin, ["a", "b"], 5, jobs), standin

    def test_total(self) -> None:
        program, standin = self.program(("reraid list", put("", 6, "reraid: cursor 1 is past 12")))
        self.assertEqual(program.total("plan"), 12)
        self.assertEqual(standin.asked, [(["reraid", "list", f"from={LAST}", "--", "a", "b"], "plan")])
        program, _ = self.program(("reraid list", put("", 2, "reraid: plan line 3 is not understood\n")))
        with self.assertRaisesRegex(Refused, "^reraid: plan line 3 is not understood$"):
            program.total("plan")

    def listed(self, total: int, pages: dict[int, object]) -> tuple[Program, Standin]:
        def answer(words: list[str], _text: str) -> object:
            first = int(words[2].split("=")[1])
            return put("", 6, f"reraid: cursor {LAST} is past {total}") if first == LAST else pages[first]
        return self.program(("reraid list", answer))

    def test_listing(self) -> None:
        program, standin = self.listed(10, {0: put("3 5:a\n4 5:b\nnext 10 of 10\n")})
        listing = program.listing(read_plan(PLAN))
        self.assertEqual((len(listing.sets), listing.total, listing.whole, listing.line()), (2, 10, True, "2 of 10 layouts pass"))
        self.assertIn(f"size={MAX_LINES}", standin.asked[1][0])

    def test_listing_of_nothing(self) -> None:
        program, standin = self.listed(0, {})
        self.assertEqual(program.listing(read_plan(PLAN)).line(), "0 of 0 layouts pass")
        self.assertEqual(standin.count("reraid list"), 1)

    def test_listing_by_spans(self) -> None:
        total = 2 * SPAN + 1
        pages: dict[int, object] = {k * SPAN: put(f"{k} 5:a{k}\nnext {min(total, (k + 1) * SPAN)} of {total}\n") for k in range(3)}
        program, standin = self.listed(total, pages)
        listing = program.listing(read_plan(PLAN))
        self.assertEqual(([it.rank for it in listing.sets], listing.whole), ([0, 1, 2], True))
        self.assertEqual(standin.count("reraid list"), 4)

    def test_listing_that_was_late_or_full(self) -> None:
        program, _ = self.listed(10, {0: put("3 5:a\n", None)})
        listing = program.listing(read_plan(PLAN))
        self.assertEqual((listing.whole, listing.note), (False, "timed out after 5 s, before all were tested"))
        full = "".join(f"{k} 5:a\n" for k in range(MAX_LINES))
        program, _ = self.listed(MAX_LINES + 5, {0: put(full + f"next {MAX_LINES} of {MAX_LINES + 5}\n")})
        self.assertEqual(program.listing(read_plan(PLAN)).note, f"more than {MAX_LINES} pass")

    def test_classes(self) -> None:
        words = [read_word("5:ls:none:8:0:0,1,2"), read_word("5:ls:none:8:0:1,0,2")]
        program, standin = self.program(("reraid classes", put("0 x\n0 y\nclasses 1 of 2\n")))
        self.assertEqual(program.classes(words, 99), [0, 0])
        self.assertEqual(standin.asked[0], (["reraid", "classes", "images=2", "end=99", "--"], "0 5:ls:none:8:0:0,1,2\n1 5:ls:none:8:0:1,0,2\n"))
        program, _ = self.program(("reraid classes", put("", 13)))
        self.assertEqual(program.classes(words, 99), [0, 1])

    def test_mirrors(self) -> None:
        program, _ = self.program()
        self.assertEqual(program.mirror_words(Copied((sets.NEAR_2,), 4, 1), 7, [2048, 0], 99, 50),
                         ["reraid", "mirrors", "members=4", "offsets=0,2048", "end=99", "missing=1", "badrows=7", "chunks=8", "window=50",
                          f"size={MAX_LINES}", "--", "a", "b"])
        self.assertNotIn("chunks=8", program.mirror_words(Copied((sets.NEAR_2,), 3), 0, [0], 99, 50))
        far = Copied(tuple(sets.Copying("far", copies) for copies in (2, 3)), 6, 2, (128, 64))
        self.assertEqual(program.mirror_words(far, 0, [2048], 99, 50)[2:7],
                         ["layouts=far2,far3", "members=6", "offsets=2048", "end=99", "missing=2"])
        self.assertIn("chunks=64,128", program.mirror_words(far, 0, [2048], 99, 50))
        # Six slots of four copies hold the same by twos, so the chunk is told; those of three by threes.
        told = [program.mirror_words(Copied((sets.Copying("near", copies),), 6), 0, [0], 99, 50) for copies in (4, 3)]
        self.assertEqual(["chunks=8" in words for words in told], [False, True])

    def test_layouts_of_copies(self) -> None:
        self.assertEqual([sets.read_copying(text) for text in ("near2", "far4", "offset3", "near1", "far5", "5", "nearly2")],
                         [sets.Copying("near", 2), sets.Copying("far", 4), sets.Copying("offset", 3), None, None, None, None])
        layouts = [sets.Copying(kind, copies) for kind, copies in (("near", 2), ("near", 3), ("near", 4), ("far", 2), ("offset", 3))]
        self.assertEqual([it.together(6) for it in layouts], [2, 3, 2, 1, 1])
        self.assertEqual([sets.Copying("near", copies).is_striped(6) for copies in (2, 3, 4)], [True, True, False])
        word = read_word("offset2:64:2048:0,-,1")
        self.assertEqual((word.is_mirrored, word.copying, word.together), (True, sets.Copying("offset", 2), 1))
        self.assertEqual((word.needs_end, word.pattern), (False, ""))
        self.assertTrue(read_word("far2:64:2048:0,1").needs_end)

    def test_sectors_of_copies(self) -> None:
        """Three members of 11 rows of 8 sectors behind sector 5, and a rest: 16 chunks near, and of whole rows of copies 15, 9 of three copies."""
        found = [read_word(f"{layout}:8:5:0,1,2").sectors(5 + 11 * 8 + 7) for layout in ("near2", "far2", "offset2", "far3", "near3")]
        self.assertEqual(found, [16 * 8, 15 * 8, 15 * 8, 9 * 8, 11 * 8])

    def test_check_and_lost(self) -> None:
        program, standin = self.program(("reraid check", put("unsound 0 of 5\npass\n")), ("reraid salvage", put("good 5 of 5\n")))
        told = program.check("5:x", read_plan(PLAN))
        self.assertEqual((told and told.rows, standin.asked[0][1]), (5, PLAN))
        self.assertEqual(program.lost("5:x", 9, "map 0\n"), (0, 5))
        self.assertEqual(standin.asked[1], (["reraid", "salvage", "set=5:x", "form=lost", "end=9", "--", "a", "b"], "map 0\n"))


if __name__ == "__main__":
    unittest.main()
