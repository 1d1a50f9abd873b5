"""The page of a run: its strips, and that it shows what was said, as text alone."""

import hashlib
import html.parser
import os
import tempfile
import unittest
from typing import Any

from reraid_try.casefile import drawing, page, parts, strips
from reraid_try.casefile.drawing import Bar, Lane
from reraid_try.casefile.disks import Disks
from reraid_try.casefile.record import Record

# What has no end of its own in HTML.
VOID = {"meta", "br", "path"}


def image(number: int, sectors: int = 256, **more: Any) -> dict[str, Any]:
    """An image as the run says it."""
    return {"name": f"{number}.img", "number": number, "sectors": sectors, "rest": 0, "table": None, "own": False, "first": 0, "last": 9,
            "like": None, "map": None, **more}


class Nesting(html.parser.HTMLParser):
    """Reads a page, and fails where an element ends that is not the last one open."""

    def __init__(self) -> None:
        super().__init__()
        self.open: list[str] = []
        self.words: list[str] = []

    def handle_starttag(self, tag: str, attrs: list[tuple[str, str | None]]) -> None:
        if tag not in VOID:
            self.open.append(tag)

    def handle_startendtag(self, tag: str, attrs: list[tuple[str, str | None]]) -> None:
        pass

    def handle_endtag(self, tag: str) -> None:
        assert self.open and self.open[-1] == tag, (tag, self.open)
        self.open.pop()

    def handle_data(self, data: str) -> None:
        self.words.append(data)


def read(made: str) -> str:
    """The text of a page whose elements are nested well."""
    reader = Nesting()
    reader.feed(made)
    assert not reader.open, reader.open
    return " ".join(" ".join(reader.words).split())


class Records(unittest.TestCase):
    """What was said, in order."""

    def test_images_as_they_were_said_last(self) -> None:
        record = Record()
        for number, name in ((1, "old"), (0, "first"), (1, "new")):
            record.add("image", "", {"number": number, "name": name})
        record.add("image", "one without a number", {})
        self.assertEqual([it["name"] for it in record.images()], ["first", "new"])
        self.assertEqual((record.last("image")["text"], record.last("none")), ("one without a number", {}))


class Strips(unittest.TestCase):
    """Where images hold data."""

    def setUp(self) -> None:
        folder = tempfile.TemporaryDirectory()
        self.addCleanup(folder.cleanup)
        self.name = os.path.join(folder.name, "image")

    def make(self, data: bytes) -> None:
        """Makes the image."""
        with open(self.name, "wb") as file:
            file.write(data)

    def test_one_scale(self) -> None:
        self.assertEqual(strips.cell_of([256, 2560]), 10)
        self.assertEqual(strips.cell_of([1]), 1)

    def test_whole(self) -> None:
        data = bytes(4096) + b"a" * 4096 + bytes(8192) + b"b" * 100
        self.make(data)
        answer = strips.whole(self.name, 3, 33, 16)
        assert answer
        self.assertEqual(answer[0], strips.Strip(3, 16, (50, 0, 100), 0))
        self.assertEqual(answer[1], hashlib.sha256(data).hexdigest())

    def test_sampled(self) -> None:
        self.make(b"a" * 65536 + bytes(65536))
        self.assertEqual(strips.sampled(self.name, 0, 256, 128), strips.Strip(0, 128, (100, 0), strips.LOOKS))

    def test_little_is_not_nothing(self) -> None:
        self.assertEqual(strips.percent(1, 1000), 1)
        self.assertEqual(strips.percent(0, 1000), 0)
        self.assertIsNone(strips.percent(0, 0))

    def test_hashing(self) -> None:
        self.make(b"a" * 1000)
        hashing = strips.Hashing([(0, self.name, 1)], 1)
        self.assertTrue(hashing.wait(60))
        self.assertEqual((hashing.done, hashing.found[0].sha256), (1000, hashlib.sha256(b"a" * 1000).hexdigest()))


class Small(unittest.TestCase):
    """Small parts of the page."""

    def test_sizes(self) -> None:
        """The largest unit of which there is one at least."""
        told = [parts.size(count) for count in (0, 1023, 1024, 1 << 20, (1 << 20) + (1 << 19), 1 << 40)]
        self.assertEqual(told, ["0 bytes", "1023 bytes", "1 KiB", "1 MiB", "1.5 MiB", "1 TiB"])

    def test_last_event(self) -> None:
        """Of several events of a kind the last one counts."""
        record = Record()
        for kind, text in (("a", "1"), ("a", "2"), ("b", "3")):
            record.add(kind, text, {})
        self.assertEqual((record.last("a")["text"], record.last("c")), ("2", {}))

    def test_bars_from_a_height_on(self) -> None:
        """Heights are counted from below, and places in a drawing from above."""
        self.assertEqual(drawing.rectangles([Bar(0, 4, "x", 30, 20), Bar(4, 8, "x", 100)], 1), '<path class="x" d="M0 50h4v30h-4zM4 0h4v100h-4z"/>')


class Drawing(unittest.TestCase):
    """Bars of lanes."""

    def test_joined(self) -> None:
        self.assertEqual(drawing.joined([Bar(0, 1, "data"), Bar(1, 2, "data"), Bar(2, 3, "data", 50), Bar(4, 5, "data", 50)]),
                         [Bar(0, 2, "data"), Bar(2, 3, "data", 50), Bar(4, 5, "data", 50)])

    def test_scale(self) -> None:
        made = drawing.lane(Lane("a<b", "told", (Bar(0, 50, "data"),), (25,), "xfs"), 100, 200)
        self.assertIn("a&lt;b", made)
        self.assertIn('class="data" d="M0 0h250v100h-250z"', made)
        self.assertIn('class="tick xfs" d="M125 0V100"', made)


class Pages(unittest.TestCase):
    """The page of events."""

    def made(self, *events: tuple[str, str, dict[str, Any]]) -> str:
        """The text of the page of these."""
        record = Record()
        for event in events:
            record.add(*event)
        return read(page.page(record))

    def test_nothing(self) -> None:
        said = self.made()
        self.assertIn("No candidate was rated", said)
        self.assertIn("None: there was no search step", said)
        self.assertIn("There is no record of the toolchain", said)

    def test_no_array(self) -> None:
        """What the images are in place of an array, with what to type."""
        said = self.made(("answer", "a mirror", {"kind": "mirror", "said": "this is a mirror", "commands": ["mount -o ro <a> /mnt"]}))
        self.assertIn("this is a mirror.", said)
        self.assertIn("mount -o ro <a> /mnt", said)
        self.assertNotIn("No candidate was rated", said)

    def test_proved_only_with_a_kit(self) -> None:
        run = {"began": "now", "words": ["reraid-try"], "kit": "kit-1"}
        said = self.made(("run", "", run))
        self.assertIn("the program reraid lists exactly the layouts that pass", said)
        self.assertIn("proved and built with kit-1", said)

    def test_names_are_texts(self) -> None:
        said = self.made(("image", "", image(0, name='<script>"&.img')))
        self.assertIn('image 0: <script>"&.img', said)

    def test_hash(self) -> None:
        first = {"image": 0, "sha256": "ab12", "bytes": 1024, "why": ""}
        second = {"image": 1, "sha256": "", "bytes": 1024, "why": "the run was interrupted before"}
        said = self.made(("image", "", image(0)), ("image", "", image(1)), ("hash", "", first), ("hash", "", second))
        self.assertIn("SHA-256 ab12 of 1,024 bytes", said)
        self.assertIn("SHA-256: the run was interrupted before", said)

    def test_why_sectors_count_as_unread(self) -> None:
        """The legend says whether a map says so, or what stands there."""
        def strip(number: int, inferred: bool) -> tuple[str, str, dict[str, Any]]:
            return "strip", "", {"image": number, "cell": 1, "filled": [100] * 256, "looks": 0, "unread": [[3, 4]], "inferred": inferred}
        events = [("image", "", image(number)) for number in range(2)]
        by_map, by_text = "unread: by the ddrescue mapfile", "inferred: a repeated text is there"
        cases: list[tuple[list[bool], tuple[bool, bool]]] = [([False], (True, False)), ([True], (False, True)), ([False, True], (True, True)),
                                                             ([], (False, False))]
        for strips_there, told in cases:
            said = self.made(*events, *(strip(number, inferred) for number, inferred in enumerate(strips_there)))
            self.assertEqual((by_map in said, by_text in said), told)

    def test_no_hash(self) -> None:
        """That none was taken is said of each image."""
        self.assertEqual(self.made(("image", "", image(0)), ("image", "", image(1))).count("SHA-256: not computed"), 2)

    def test_a_case(self) -> None:
        """The case and the examiner, the files of the images with their dates, and the digest of a map."""
        run = {"began": "now", "words": ["reraid-try"], "case": "2026/<7>", "examiner": "A. B."}
        files = [{"name": "a.001", "bytes": 1024, "changed": "2026-01-02T03:04:05+00:00"}, {"name": "/dev/sdb", "bytes": 7, "changed": None}]
        said = self.made(("run", "", run), ("image", "", image(0, map="a.map", map_sha256="cd34")), ("files", "", {"image": 0, "files": files}))
        for wanted in ("case 2026/<7> examiner A. B.", "file a.001: 1,024 bytes, changed last 2026-01-02T03:04:05+00:00",
                       "file /dev/sdb: 7 bytes, a block device", "mapfile: a.map, SHA-256 cd34"):
            self.assertIn(wanted, said)
        self.assertNotIn("examiner", self.made(("run", "", run | {"case": "", "examiner": ""})))

    def test_files_that_touch_what_is_lost(self) -> None:
        files = [f"/{number}" for number in range(page.MAX_FILES + 3)]
        said = self.made(("lost files", "candidate 0: ext4: 9 sectors of it are lost", {"class": 0, "files": files}))
        self.assertIn("Files that touch lost sectors candidate 0: ext4: 9 sectors of it are lost /0 /1 ", said)
        self.assertTrue("/499 and 3 more" in said and "/500" not in said)

    def test_not_tried(self) -> None:
        self.assertIn("levels 0: left out", self.made(("not tried", "levels 0: left out", {})))

    def test_a_candidate(self) -> None:
        candidate = {"class": 0, "set": "5:ls:none:128:2048:0,1,2", "alike": ["5:rs:none:128:2048:0,2,1"], "loosened": ["half the test range"],
                     "score": 3, "unsound": 7, "fits": ["ext 4"], "found": ["ext4: e2fsck reports no errors"], "note": "", "trial": 2}
        step = {"number": 2, "shape": "RAID 5 of 3 disks", "loosened": [], "listed": 1, "total": 9, "note": ""}
        words = {"class": 0, "set": candidate["set"], "words": "RAID 5 of 3 disks", "rows": "", "commands": ["reraid-mount S d 0.img"]}
        regions = [{"first": 0, "rows": 10, "tested": 10, "unsound": 3}, {"first": 10, "rows": 5, "tested": 5, "unsound": 0}]
        lines = "candidate 0: RAID 5 of 3 disks\n  disk order: a b c\n  to mount it read-only, as root:\n    typed"
        said = self.made(("image", "", image(0)), ("trial", "", step), ("candidate", "", candidate), ("words", lines, words),
                         ("parity", "", {"class": 0, "regions": regions}))
        self.assertNotIn("deferred", said)
        for wanted in ("++ candidate 0: RAID 5 of 3 disks disk order: a b c To mount it read-only, as root:", "reraid-mount S d 0.img",
                       "7 rows inconsistent, ext 4", "candidates: 0",
                       "5:rs:none:128:2048:0,2,1", "3 of 15 tested rows are inconsistent, in 2 parts"):
            self.assertIn(wanted, said)

    def test_outcomes(self) -> None:
        """A step whose sets were put off says so, and only that one; of many candidates those that follow one another are one. Of how many sets
        they are stands where others were counted."""
        steps = [("trial", "", {"number": number, "shape": "levels 5", "loosened": [], "listed": 9, "total": 9, "note": ""}) for number in (1, 2, 3)]
        found = [("candidate", "", {"class": number, "set": "s", "loosened": [], "score": 1, "trial": 3}) for number in (0, 1, 2, 4, 6, 7)]
        steps[2][2]["total"] = None
        said = self.made(steps[0], ("put off", "", {"sets": 9}), *steps[1:], *found)
        self.assertEqual((said.count("9 of 9"), said.count("None")), (2, 0))
        self.assertEqual(said.count("deferred; no new candidate"), 1)
        self.assertIn("candidates: 0 to 2, 4, 6, 7", said)

    def test_relations(self) -> None:
        told = {"step": 10, "rows": [{"first": 0, "last": 40, "zero": [], "tied": [[0, 1]]}, {"first": 50, "last": 90, "zero": [1], "tied": []}],
                "together": [{"images": [0, 1], "rows": 5}, {"images": [1, 2], "rows": 1}], "alone": [], "free": 5, "total": 10}
        record = Record()
        for number in range(3):
            record.add("image", "", image(number, 100))
        record.add("relations", "", told)
        made = Disks(record)
        for number, wanted in enumerate(("parity matches in 5 rows, data without a match in 5", "parity matches in 5 rows, data without a match in 0",
                                         "parity matches in 0 rows, data without a match in 10")):
            lane = made.tied(number)
            assert lane
            self.assertEqual(lane.told, wanted)
        text = read(page.page(record))
        self.assertIn("images 0, 1 match in 5 rows", text)
        self.assertTrue("images 1, 2 match in 1 row" in text and "1 rows" not in text)


if __name__ == "__main__":
    unittest.main()
