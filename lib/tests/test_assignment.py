"""The assignment problem against all orders, and the numbering of data chunks against the pictures of the documents."""

import itertools
import os
import random
import re
import unittest
from collections.abc import Sequence

from reraid_try.evidence import assignment, numbering

LAYOUTS = os.path.join(os.path.dirname(__file__), "..", "..", "docs", "LAYOUTS.md")


def by_force(weights: Sequence[Sequence[int]]) -> int:
    """The greatest sum, by all orders."""
    orders = itertools.permutations(range(len(weights[0])), len(weights))
    return max(sum(row[column] for row, column in zip(weights, order)) for order in orders)


class Assignments(unittest.TestCase):
    def test_by_hand(self) -> None:
        """The best of each row by itself is not allowed where two rows want one column."""
        self.assertEqual(assignment.best([[9, 8, 0], [9, 0, 0]]), (17, (1, 0)))
        self.assertEqual(assignment.best([[5, 1], [4, 3]]), (8, (0, 1)))
        self.assertEqual(assignment.best([[-5, -1], [-4, -3]]), (-5, (1, 0)))
        self.assertEqual(assignment.best([[0, 0, 7]]), (7, (2,)))
        self.assertEqual(assignment.best([]), (0, ()))

    def test_against_all_orders(self) -> None:
        """Square and with more columns than rows, with equal weights and with large ones."""
        for seed in range(120):
            rnd = random.Random(seed)
            rows, most = rnd.randrange(1, 6), rnd.choice((1, 3, 1000))
            weights = [[rnd.randrange(most + 1) for _ in range(rows + rnd.randrange(2))] for _ in range(1)]
            weights += [[rnd.randrange(most + 1) for _ in weights[0]] for _ in range(rows - 1)]
            total, order = assignment.best(weights)
            self.assertEqual(total, by_force(weights))
            self.assertEqual(len(set(order)), rows)
            self.assertEqual(total, sum(row[column] for row, column in zip(weights, order)))

    def test_many(self) -> None:
        """Of 24 rows of which each has one column that is best."""
        order = random.Random(1).sample(range(24), 24)
        weights = [[100 if column == order[row] else column % 7 for column in range(24)] for row in range(24)]
        self.assertEqual(assignment.best(weights), (2400, tuple(order)))

    def test_refused(self) -> None:
        for weights in ([[1], [2]], [[1, 2], [3]]):
            with self.assertRaises(ValueError):
                assignment.best(weights)


def pictures() -> dict[tuple[str, str], list[str]]:
    """The rows of the pictures of levels 0, 5 and 6, by level and pattern."""
    with open(LAYOUTS, encoding="utf-8") as file:
        lines = file.read().split("\n## Delayed parity")[0].splitlines()
    found, level, names = dict[tuple[str, str], list[str]](), "", [""]
    inside = False
    for line in lines:
        if match := re.fullmatch(r"## Level (\d)", line):
            level, names = match[1], ["plain"]
        elif match := re.match(r"(?:### |`)([a-z0-6-]+)`?(?:[:,].*)?$", line):
            names = [match[1]]
        elif line == "```":
            inside = not inside
        elif inside and level and line.strip():
            found.setdefault((level, names[0]), []).append(line)
    return found


class Numbering(unittest.TestCase):
    def test_pictures(self) -> None:
        """Each pattern has a picture, and all its rows are as there, and so are those that follow."""
        found = pictures()
        self.assertEqual({(level, pattern) for level, patterns in numbering.PATTERNS.items() for pattern in patterns} - set(found), set())
        for (level, pattern), rows in found.items():
            cells = [row.split() for row in rows]
            members = len(cells[0])
            self.assertEqual(numbering.period(level, pattern, members), len(rows), (level, pattern))
            for row in range(2 * len(rows)):
                there = cells[row % len(rows)]
                wanted = tuple(there.index(str(chunk)) for chunk in range(numbering.data_chunks(level, members)))
                self.assertEqual(numbering.data_slots(level, pattern, members, row), wanted, (level, pattern, row))

    def test_more_members(self) -> None:
        """By hand: row 1 of five members."""
        for level, pattern, wanted in (("5", "ls", (4, 0, 1, 2)), ("5", "ra", (0, 2, 3, 4)), ("6", "ls", (0, 1, 2)), ("6", "n-continue", (4, 0, 1)),
                                       ("6", "rs", (3, 4, 0)), ("6", "la-6", (0, 1, 3)), ("0", "plain", (0, 1, 2, 3, 4))):
            self.assertEqual(numbering.data_slots(level, pattern, 5, 1), wanted, (level, pattern))


if __name__ == "__main__":
    unittest.main()
