"""The table of the candidates, and which of many are printed."""

import unittest

from reraid_try.checks.candidates import Inside
from reraid_try.checks.verdicts import Score, Verdict
from reraid_try.checks.wholes import Wholes
from reraid_try.evidence.images import Image
from reraid_try.policy import relaxations
from reraid_try.report import table
from tests.standin import Told
from tests.test_candidates import SET, candidate, whole


class Table(unittest.TestCase):
    def test_its_lines(self) -> None:
        """A head, a line for each candidate, and that none is chosen; where there is none, that."""
        images = [Image(f"i{number}", number, 8000) for number in range(3)]
        for as_json in (False, True):
            report = Told(as_json)
            table.show(report, [candidate(verdict=whole())], images)
            events = [it["event"] for it in report.record.events]
            self.assertEqual(events[:4 - as_json], ["head", "candidate", "end", "words"][as_json:])
            self.assertEqual(report.record.last("end")["text"], table.LAST)
            if not as_json:
                self.assertEqual(report.lines[0], "Candidates: rating, number, layout")
                self.assertEqual(report.lines[1].split("\n"), [f"++  0   {SET}", f"{table.INDENT}xfs: said; 1 of 1 files intact",
                                                               f"{table.INDENT}relaxed: nothing"])
        unsound = Told()
        table.show(unsound, [candidate(verdict=whole(), unsound=7, chosen=(relaxations.misfits(),))], images)
        self.assertEqual(unsound.lines[1].split("\n")[2], "        relaxed: 8 mismatches; 7 inconsistent rows")
        sound = Told()
        table.show(sound, [candidate(verdict=whole(), unsound=0)], images)
        self.assertEqual(sound.lines[1].split("\n")[2], "        relaxed: nothing")
        none = Told()
        table.show(none, [], images)
        self.assertEqual(none.lines, ["no candidates"])

    def test_fields(self) -> None:
        """What programs are told: of a volume that begins inside another one also which and how far."""
        for inside, told in ((Inside(1, 2), [1, 2]), (None, None)):
            fields = table.fields(4, candidate(verdict=whole(), unsound=7, inside=inside, chosen=(relaxations.misfits(),)))
            self.assertEqual({name: fields[name] for name in ("class", "set", "inside", "unsound", "loosened", "sign", "score")},
                             {"class": 4, "set": SET, "inside": told, "unsound": 7, "loosened": ["8 mismatches"], "sign": "++", "score": 3})


class Faulty(unittest.TestCase):
    def test_how_many_are_printed(self) -> None:
        """As many as 24 of which something is known, and of more those with a score alone, where there are such; what is left out is said."""
        def told(known: int, scored: int = 0, others: int = 0) -> tuple[int, list[str]]:
            broken = whole(False, 0)
            found = [candidate(verdict=whole())] * scored + [candidate(verdict=broken)] * (known - scored) + [candidate()] * others
            shown, said = table.shown(False, found)
            return len(shown), said
        nothing, fault = "nothing recognized in the volume", "a checker reports errors (--json lists them all)"
        self.assertEqual(told(24), (24, []))
        self.assertEqual(told(25), (24, [f"1 more: {fault}"]))
        self.assertEqual(told(25, 2, 3), (2, [f"23 more: {fault}", f"3 more: {nothing}"]))
        self.assertEqual(told(25, 25), (25, []))
        self.assertEqual(told(2, 2, 1), (2, [f"1 more: {nothing}"]))

    def test_which_are_printed(self) -> None:
        """Of more than 24 those of which something is known and no checker found fault, all of 24; what has faults by the order of all."""
        broken, known = whole(False, 0), whole(None, 10)
        self.assertEqual([candidate(verdict=it).score for it in (broken, known)], [Score.NOTHING, Score.KNOWN])
        self.assertEqual(len(table.shown(False, [candidate(verdict=known)] * 2 + [candidate(verdict=broken)] * 22)[0]), 24)
        self.assertEqual(len(table.shown(False, [candidate(verdict=known)] * 2 + [candidate(verdict=broken)] * 23)[0]), 2)
        faults = [candidate(verdict=Verdict(broken.findings, Wholes(9, 0, longest))) for longest in (*range(1, 25), 0)]
        self.assertEqual([number for number, _ in table.shown(False, faults)[0]], list(range(24)))

    def test_how_many_there_are(self) -> None:
        """Those that are not printed count too."""
        report = Told()
        found = [candidate(f"5:ls:none:8:{8 * number}:0,1,2", verdict=whole(False, 0)) for number in range(26)]
        table.show(report, found, [Image(f"i{number}", number, 8000) for number in range(3)])
        self.assertEqual([it["candidates"] for it in report.record.of("end")], [26])

    def test_those_with_the_longest_whole_file_first(self) -> None:
        many, long = (candidate(verdict=Verdict([], Wholes(9, count, longest))) for count, longest in ((9, 5), (1, 10)))
        self.assertEqual(sorted([(0, many), (1, long), (2, many)], key=table.soundness), [(1, long), (0, many), (2, many)])


if __name__ == "__main__":
    unittest.main()
