"""What a run keeps for the next one over the same images: what is taken over, what is asked again, and which files are refused."""

import dataclasses
import json
import os
from typing import Any
from unittest import mock

from reraid_try import resuming
from reraid_try.calls.commands import Answer
from reraid_try.calls.memory import Head, Memory, Remembering, Seen
from reraid_try.calls.sets import read_word
from reraid_try.checks.looks import Looks, fields_of, verdict_of
from reraid_try.checks.lvm import Piece
from reraid_try.checks.verdicts import Finding, Score, Verdict
from reraid_try.checks.wholes import Wholes
from reraid_try.containers import Container
from reraid_try.errors import OutsideError, Stopped
from reraid_try.opening import Opened
from reraid_try.options import Options
from reraid_try.units import SECTOR
from tests.standin import InFolder, Standin, Told, put

IMAGE = Seen("a.img", (("a.img", 5120, 1_700_000_000_000_000_000),), "1234")
HEAD = Head("0.9.0", "reraid 0.9.0", "abcd", (IMAGE, dataclasses.replace(IMAGE, name="b.img")))
WORD = read_word("5:ls:none:128:2048:0,1,2")


class Kept(InFolder):
    def memory(self, head: Head = HEAD, name: str = "kept") -> Memory:
        """The memory of a run, which the test closes."""
        return Memory(f"{self.folder}/{name}", head, {"began": "today", "words": ["a.img"]})

    def closed(self, *rows: tuple[list[str], str | None, float | None], answer: Answer) -> Standin:
        """A run that asks these and is over; who was asked."""
        standin, memory = Standin(("reraid", answer)), self.memory()
        for words, text, seconds in rows:
            Remembering(standin, memory, {}).run(words, text, seconds)
        memory.close()
        return standin

    def again(self, words: list[str], text: str | None, seconds: float | None) -> tuple[Answer, int]:
        """What the next run gets for a question, and how many commands it needs for that."""
        standin, memory = Standin(("reraid", put("asked again"))), self.memory()
        found = Remembering(standin, memory, {}).run(words, text, seconds)
        memory.close()
        return found, standin.count("reraid")


class Answers(Kept):
    def test_taken_over(self) -> None:
        words = ["reraid", "list", "from=0", "--", "a.img"]
        self.closed((words, "plan", 60), answer=Answer(0, b"next 5 of 5\n", "", 7.5))
        self.assertEqual(self.again(words, "plan", 60), (Answer(0, b"next 5 of 5\n", "", 7.5), 0))

    def test_another_question_is_asked(self) -> None:
        words = ["reraid", "list", "from=0", "--", "a.img"]
        self.closed((words, "plan", 60), answer=put("next 5 of 5\n"))
        for other, text in ((words, "another plan"), (words, None), ([*words[:2], "from=1", *words[3:]], "plan"), ([*words, "b.img"], "plan")):
            self.assertEqual(self.again(other, text, 60), (put("asked again"), 1))

    def test_what_ran_out_of_its_time_is_asked_again_with_more_alone(self) -> None:
        words = ["reraid", "list", "--", "a.img"]
        self.closed((words, "plan", 60), answer=put("3 " + WORD.text + "\n", None))
        self.assertEqual([self.again(words, "plan", seconds)[1] for seconds in (10, 60, 61, None)], [0, 0, 1, 0])
        self.closed((words, "other", 60), answer=put("", None))
        self.assertEqual(self.again(words, "other", None)[1], 1)

    def test_refusals_and_volumes_are_not_kept(self) -> None:
        for status in (1, 5, 10, 12, -9, 127):
            words = ["reraid", "list", f"from={status}", "--", "a.img"]
            self.closed((words, "plan", 60), answer=Answer(status))
            self.assertEqual(self.again(words, "plan", 60)[1], 1)
        rows: list[tuple[list[str], str | None, float | None]] = [(["reraid", "write", "set=x", "--", "a.img"], None, None),
                                                                  (["reraid", "salvage", "set=x", "--", "a.img"], "map", None)]
        self.closed(*rows, answer=put("bytes"))
        for words, text, seconds in rows:
            self.assertEqual(self.again(words, text, seconds)[1], 1)

    def test_losses_are_kept(self) -> None:
        words = ["reraid", "salvage", "set=x", "form=lost", "--", "a.img"]
        self.closed((words, "map", 60), answer=put("good 5 of 5\n"))
        self.assertEqual(self.again(words, "map", 60), (put("good 5 of 5\n"), 0))

    def test_other_commands_go_through(self) -> None:
        standin, memory = Standin(("xfs_repair", put("clean")), ("reraid write", put("volume"))), self.memory()
        self.addCleanup(memory.close)
        runner = Remembering(standin, memory, {})
        for _ in range(2):
            self.assertEqual(runner.run(["xfs_repair", "x"]), put("clean"))
            self.assertEqual(runner.shell([["reraid", "write"], ["dd"]]), put("volume"))
        runner.tell("shown")
        runner.note("noted")
        self.assertEqual((len(standin.asked), standin.told, standin.noted, memory.taken), (4, ["shown"], ["noted"], [0, 0]))

    def test_what_is_taken_over_is_counted_and_noted(self) -> None:
        words = ["reraid", "check", "set=x", "--", "a.img"]
        self.closed((words, "plan", 60), answer=put("pass\n"))
        standin, memory = Standin(), self.memory()
        self.addCleanup(memory.close)
        self.assertEqual((memory.had, memory.runs), ((1, 0), [{"began": "today", "words": ["a.img"]}]))
        Remembering(standin, memory, {}).run(words, "plan", 60)
        self.assertEqual((memory.taken, standin.noted), ([1, 0], [f"# from {self.folder}/kept: reraid check set=x -- a.img"]))

    def test_names_of_opened_containers(self) -> None:
        """An opened image lies in another folder each time: it is known by its container."""
        memory = self.memory()
        Remembering(Standin(("reraid", put("one"))), memory, {"/tmp/1/ewf1": "a.E01"}).run(["reraid", "check", "--", "/tmp/1/ewf1"])
        self.addCleanup(memory.close)
        other = Remembering(Standin(("reraid", put("two"))), memory, {"/tmp/2/ewf1": "a.E01"})
        self.assertEqual(other.run(["reraid", "check", "--", "/tmp/2/ewf1"]), put("one"))

    def test_a_run_that_is_ended_keeps_what_was_answered_before(self) -> None:
        def ends(_words: list[str], _text: str) -> Answer:
            raise Stopped
        memory = self.memory()
        runner = Remembering(Standin(("reraid check", put("pass\n")), ("reraid list", ends)), memory, {})
        runner.run(["reraid", "check", "--", "a.img"])
        with self.assertRaises(Stopped):
            runner.run(["reraid", "list", "--", "a.img"])
        memory.close()
        self.assertEqual([self.again(["reraid", command, "--", "a.img"], None, 60)[1] for command in ("check", "list")], [0, 1])


class Files(Kept):
    def refused(self, head: Head = HEAD) -> str:
        """Why a file is refused; what it holds is left as it is."""
        with open(f"{self.folder}/kept", "rb") as file:
            before = file.read()
        with self.assertRaises(OutsideError) as raised:
            self.memory(head)
        with open(f"{self.folder}/kept", "rb") as file:
            self.assertEqual(file.read(), before)
        return str(raised.exception)

    def test_other_images_and_programs(self) -> None:
        self.memory().close()
        size = dataclasses.replace(IMAGE, files=(("a.img", 5121, IMAGE.files[0][2]),))
        later = dataclasses.replace(IMAGE, files=(("a.img", 5120, 1_700_000_001_000_000_000),))
        parts = dataclasses.replace(IMAGE, files=(*IMAGE.files, ("a.002", 5, 5)))
        rows: list[tuple[str, dict[str, Any]]] = [
            ("the images are a.img b.img, not b.img a.img", {"images": HEAD.images[::-1]}), ("not a.img;", {"images": (IMAGE,)}),
            ("a.img has 5120 bytes, not 5121", {"images": (size, HEAD.images[1])}), ("a.img was changed at ", {"images": (later, HEAD.images[1])}),
            ("a.img has 1 files, not 2", {"images": (parts, HEAD.images[1])}),
            ("a.img holds other sectors", {"images": (dataclasses.replace(IMAGE, sample="4321"), HEAD.images[1])}),
            ("the version of reraid-try is 0.9.0, not 1.0.0", {"version": "1.0.0"}), ("the version of reraid is reraid 0.9.0, not", {"program": "x"}),
            ("the file of the program reraid is another one", {"digest": "dcba"})]
        for told, fields in rows:
            self.assertIn(told, self.refused(dataclasses.replace(HEAD, **fields)))
        self.memory().close()

    def test_files_that_are_none(self) -> None:
        self.memory().close()
        with open(f"{self.folder}/kept", encoding="utf-8") as file:
            good = file.read()
        for text, number in (("my notes\n", 1), ("{}\n", 1), ("[]\n", 1), (good.replace('try": 1', 'try": 2'), 1), (good + "5\n", 3),
                             (good + "{}\n", 3), (good + "\n" + good, 3)):
            self.file("kept", text)
            self.assertIn(f"line {number}: not what --resume keeps", self.refused())

    def test_a_last_line_that_was_not_ended(self) -> None:
        words = ["reraid", "check", "--", "a.img"]
        self.closed((words, None, None), answer=put("pass\n"))
        with open(f"{self.folder}/kept", "rb") as file:
            whole = file.read()
        for cut in (1, 2, 50, len(whole) // 2, len(whole) - 1, len(whole)):
            self.file("kept", whole[:-cut])
            self.memory().close()
            with open(f"{self.folder}/kept", encoding="utf-8") as text:
                lines = [json.loads(line) for line in text]
            self.assertEqual((lines[0]["reraid-try"], lines[-1]), (1, {"run": {"began": "today", "words": ["a.img"]}}))
        self.file("kept", whole[:-1])
        self.assertEqual(self.again(words, None, None)[1], 1)

    def test_one_run_at_a_time(self) -> None:
        first = self.memory()
        with self.assertRaisesRegex(OutsideError, "in use by another run"):
            self.memory()
        first.close()
        self.memory().close()

    def test_what_cannot_be_written(self) -> None:
        with self.assertRaisesRegex(OutsideError, "cannot be written: "):
            self.memory(name="no/such")
        with self.assertRaisesRegex(OutsideError, "is no regular file"):
            Memory("/dev/full", HEAD, {})
        memory = self.memory()
        with mock.patch("os.write", side_effect=OSError(28, "No space left on device")), self.assertRaisesRegex(OutsideError, "No space left"):
            memory.keep_look({}, {})
        memory.close()


class Volumes(Kept):
    found = Verdict([Finding("", "gpt", table=True), Finding("at 2048", "xfs", True, "xfs_repair reports no errors", (Piece(0, 5), Piece(9, 3)), 7)],
                    Wholes(64, 60, 900_000, True, Wholes(2, 1, 5, joined=3)), ["a note"], 4096, 512, 1024, False, True)

    def test_a_verdict_comes_back(self) -> None:
        again = verdict_of(json.loads(json.dumps(fields_of(self.found))))
        self.assertEqual((again, again.text(), again.score), (self.found, self.found.text(), Score.KNOWN))
        self.assertEqual(verdict_of(json.loads(json.dumps(fields_of(Verdict())))), Verdict())

    def looks(self, memory: Memory | None, **values: Any) -> Looks:
        """What keeps volumes, where all but these is usual."""
        usual: dict[str, Any] = {"maps": None, "tools": ("e2fsck", "blkid"), "seconds": 60, "first": 1 << 30}
        return Looks(memory, **{**usual, **values})

    def test_taken_over_where_all_is_the_same(self) -> None:
        memory = self.memory()
        self.looks(memory).keep(WORD, [2048, 0], True, self.found)
        memory.close()
        memory = self.memory()
        self.addCleanup(memory.close)
        self.assertEqual((memory.had, self.looks(memory).known(WORD, [0, 2048], True), memory.taken), ((0, 1), self.found, [0, 1]))
        others: list[dict[str, Any]] = [{"maps": "map 0\n"}, {"tools": ("e2fsck",)}, {"seconds": 61}, {"first": 5}]
        for values in others:
            self.assertIsNone(self.looks(memory, **values).known(WORD, [0, 2048], True))
        for word, origins, files in ((read_word("5:la:none:128:2048:0,1,2"), [0, 2048], True), (WORD, [0], True), (WORD, [0, 2048], False)):
            self.assertIsNone(self.looks(memory).known(word, origins, files))
        self.assertIsNone(self.looks(None).known(WORD, [0, 2048], True))

    def test_other_maps_are_other_questions(self) -> None:
        memory = self.memory()
        self.addCleanup(memory.close)
        self.looks(memory, maps="map 0\n").keep(WORD, [], True, self.found)
        for maps, found in (("map 0\n", self.found), ("map 1\n", None), (None, None)):
            self.assertEqual(self.looks(memory, maps=maps).known(WORD, [], True), found)

    def test_what_lacked_room_is_not_kept(self) -> None:
        memory = self.memory()
        self.addCleanup(memory.close)
        self.looks(memory).keep(WORD, [], True, dataclasses.replace(self.found, lacked_room=True))
        self.assertIsNone(self.looks(memory).known(WORD, [], True))


class Begun(InFolder):
    def begun(self, options: Options, report: Told | None = None) -> Memory:
        """The memory of a run with these options."""
        with mock.patch("reraid_try.casefile.host.said_by", lambda _: "reraid 0.9.0\n"), mock.patch("reraid_try.casefile.host.digest", lambda _: "d"):
            memory = resuming.begin(options, ["a.img"], report or Told())
        assert memory is not None
        return memory

    def test_said(self) -> None:
        options, report = Options((self.file("a.img", bytes(9 * SECTOR)),), resume=f"{self.folder}/kept"), Told()
        memory = self.begun(options, report)
        memory.keep_look({}, {})
        resuming.end(memory, report, ended=True)
        memory.close()
        memory = self.begun(options, report)
        memory.look({})
        resuming.end(memory, report)
        memory.close()
        self.assertRegex(report.text, "kept is new, and will keep all answers.*\n"
                         ".*kept keeps the answers so far. To continue, repeat the command\n"
                         ".*kept has 0 answers of reraid and 1 checked volume, from 1 run over these images, the last begun .*\n"
                         "reused from .*kept: 0 answers of reraid and 1 checked volume$")
        resuming.end(None, report, ended=True)
        self.assertIsNone(resuming.begin(Options(options.images), [], report))

    def test_images_that_changed(self) -> None:
        name = self.file("a.img", bytes(9 * SECTOR))
        options = Options((name,), resume=f"{self.folder}/kept")
        self.begun(options).close()
        changed = os.stat(name).st_mtime_ns
        for data, time, told in ((bytes(10 * SECTOR), changed, "has 4608 bytes, not 5120"),
                                 (bytes(9 * SECTOR), changed + 10**9, "was changed at"),
                                 (b"1".ljust(9 * SECTOR), changed, "holds other sectors"),
                                 (bytes(8 * SECTOR) + b"1".ljust(SECTOR), changed, "holds other sectors")):
            self.file("a.img", data)
            os.utime(name, ns=(time, time))
            with self.assertRaisesRegex(OutsideError, told):
                self.begun(options)
        self.file("a.img", bytes(9 * SECTOR))
        os.utime(name, ns=(changed, changed))
        self.begun(options).close()

    def test_containers_by_their_files(self) -> None:
        parts = tuple(self.file(f"a.00{k}", bytes(5)) for k in (1, 2))
        shown = self.file("disk", bytes(SECTOR))
        options = Options((shown,), opened=(Opened(Container("split raw", parts), shown, (), ""),))
        with mock.patch("reraid_try.casefile.host.said_by", lambda _: ""), mock.patch("reraid_try.casefile.host.digest", lambda _: ""):
            head = resuming.head_of(options)
        self.assertEqual([(it.name, [file[:2] for file in it.files]) for it in head.images], [(parts[0], [(parts[0], 5), (parts[1], 5)])])

    def test_an_image_that_cannot_be_read(self) -> None:
        with self.assertRaisesRegex(OutsideError, "none cannot be read: "):
            resuming.seen("none", "none", ("none",))
