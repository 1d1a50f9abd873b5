#!/usr/bin/env python3
"""Prints of the lines of bench/measuring/try.py what docs/RESULTS.md says of them: a table of each level with each volume, one of each trait, and
sentences on them and on each two traits.

Usage: bench/measuring/try.py > lines; bench/measuring/try_tables.py < lines
"""

import collections
import re
import sys

KINDS = ["ext4", "btrfs", "xfs", "ntfs", "lvm2", "gpt", "mbr"]
TRAITS = ["stray on parity", "superblock at the end", "lengths differ", "earlier file system", "disk image inside", "used earlier", "offsets differ",
          "offset 0", "odd offset", "unreadable areas", "foreign image"]
SHORT = {"nothing relaxed": "", "file records of number 0 left out": "records 0", "offsets 2048,4096, each image its own": "own offsets"}


class Row:
    """A line: the array's words, how many sets the defaults list, whether the true one is there, the candidates, what was relaxed, and the
    seconds of the processors."""

    def __init__(self, fields):
        self.words = fields[0].split(", ")
        count, there = fields[1].split(", ")
        self.listed, self.there = int(count), there == "listed"
        self.found, _, how = fields[2].partition(": ")
        self.how = [short(it) for it in how.split("; ") if short(it)]
        self.seconds = float(fields[5])

    def cell(self):
        """The candidates, and what was relaxed."""
        return self.found + (f": {'; '.join(self.how)}" if self.how else "")


def short(text):
    """What was relaxed, in fewer words."""
    text = re.sub(r"group \d+ \((\w+), (\d+) marks?\)", r"\1 (\2)", text)
    return SHORT.get(text, text)


def sort(text):
    """What was relaxed, without its numbers."""
    return "groups" if text.startswith("without ") or text.endswith(" alone") else "badrows" if text.startswith("badrows") else text


def table(head, rows):
    """The lines of a table."""
    lines = "\n".join(f"| {' | '.join(cells)} |" for cells in [head, ["---"] * len(head), *rows])
    return lines.replace("| --- ", "|---").replace("--- |", "---|").replace("|  |", "| |")


def of_levels(rows):
    """Each level, with and without a lost disk, and each volume."""
    found = {}
    for row in rows:
        kind = next(it for it in KINDS if it in row.words)
        found.setdefault(", ".join(it for it in row.words if it != kind), {})[kind] = row
    return table(["array", *KINDS], [[name, *(kinds[it].cell() for it in KINDS)] for name, kinds in found.items()])


def of_traits(rows, others):
    """Each trait alone, and beside it that of a RAID 6: the candidates, and what was relaxed where that differs."""
    beside, lines = {row.words[-1]: row for row in others}, []
    for row in rows:
        other = beside.get(row.words[-1])
        lines.append([", ".join(row.words[2:]), row.cell(), "" if other is None else other.found if other.how == row.how else other.cell()])
    return table(["volume, trait", "candidates: relaxed", "RAID 6, 1 lost"], lines)


def said(name, rows):
    """Of these arrays how many there are, the most candidates, the seconds, what was relaxed how often, and what the defaults list."""
    seconds = sorted(row.seconds for row in rows)
    most = max((int(row.found) for row in rows if row.found.isdigit()), default=0)
    relaxed = [{sort(it) for it in row.how} for row in rows]
    often = ", ".join(f"{it} ({times})" for it, times in collections.Counter(it for some in relaxed for it in some).most_common())
    there = "; ".join(f"{', '.join(row.words)} ({row.listed})" for row in rows if row.there) or "none"
    wrong = max((row.listed for row in rows if not row.there), default=0)
    return (f"{name}: {len(rows)} arrays, at most {most} candidates, in {seconds[0]} to {seconds[-2:][0]} seconds, the slowest in {seconds[-1]}. "
            f"Relaxed: {often or 'nothing'}; two and more in {sum(len(some) > 1 for some in relaxed)}. The defaults list the true set of {there}; "
            f"of the others up to {wrong} sets.")


def main():
    fields = [[cell.strip() for cell in line.strip().strip("|").split("|")] for line in sys.stdin if line.startswith("| level ")]
    rows = [Row(it) for it in fields]
    plain = [row for row in rows if not set(row.words) & set(TRAITS) and any(it in row.words for it in KINDS)]
    pairs = [row for row in rows if len(set(row.words) & set(TRAITS)) == 2]
    rest = [row for row in rows if row not in plain and row not in pairs]
    traits, others = [[row for row in rest if (row.words[0] == "level 6") == six] for six in (False, True)]
    print(of_levels(plain), of_traits(traits, others), sep="\n\n", end="\n\n")
    for name, some in [("Levels", plain), ("Traits", traits), ("Traits at level 6", others), ("Each two traits", pairs)]:
        if some:
            print(said(name, some))


if __name__ == "__main__":
    main()
