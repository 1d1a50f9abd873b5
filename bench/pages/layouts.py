#!/usr/bin/env python3
"""Count the files that read the parts of a layout: its level, its pattern, its delay or its order of Q.

    bench/pages/layouts.py            print how many files of each crate read them
    bench/pages/layouts.py --files    print each file
    bench/pages/layouts.py --compare  print the sum; end with status 1 if it is above the limit

The files are code, definitions and proofs outside tests. The crates at the bottom that define layouts and their names are left out. What is
counted is a field of that name (`head.level`), whatever value it is read of; crates with another field of one of these names are left out too.
"""

import collections
import pathlib
import re
import sys

TOP = pathlib.Path(__file__).resolve().parents[2]
# Where layouts and their names are defined.
BOTTOM = frozenset(("raid_params", "raid_terms", "raid_layouts", "value_text"))
# Crates with a field of one of these names that is no part of a layout: the level of a tree block.
OTHERS = frozenset(("btrfstree", "survey_engine"))
TESTS = re.compile(r"(_rows|_faults)$|^bench_")
PART = re.compile(r"\.(?:level|pattern|delay|syndrome)\b(?!\()")
COMMENT = re.compile(r"^\s*(?:--|//).*$", re.M)
# Counts may fall, and must not rise. The final limit is 15: the product of the sets and the printing of names.
MAX_FILES = 116


def reads_parts(text: str) -> bool:
    """Whether a source reads a part of a layout, comments left out."""
    return bool(PART.search(COMMENT.sub("", text)))


def readers(crates: pathlib.Path) -> list[pathlib.Path]:
    """The files below a folder of crates that read parts of layouts, by name."""
    found = []
    for path in sorted(crates.glob("*/**/*")):
        crate, folder = path.relative_to(crates).parts[:2]
        if path.suffix not in (".rt", ".antt") or folder not in ("src", "specs", "proofs"):
            continue
        if crate in BOTTOM | OTHERS or TESTS.search(crate):
            continue
        if reads_parts(path.read_text(encoding="utf-8")):
            found.append(path.relative_to(crates))
    return found


def main(words: list[str]) -> int:
    found = readers(TOP / "crates")
    if "--files" in words:
        print(*found, sep="\n")
    elif "--compare" not in words:
        for crate, count in collections.Counter(path.parts[0] for path in found).most_common():
            print(f"{crate:20} {count:4}")
    print(f"{len(found)} files read parts of layouts, at most {MAX_FILES} may")
    return 1 if "--compare" in words and len(found) > MAX_FILES else 0


if __name__ == "__main__":
    sys.exit(main(sys.argv[1:]))
