#!/usr/bin/env python3
"""Compares VERSION with each place where the number is written: the manual pages, the first section of CHANGELOG.md, and the texts of the program,
where `"reraid N.N.N` stands in a source file or a definition of a crate.

Usage: versions.py
Prints each place where another number stands; status 1 where there is one.
"""

import pathlib
import re
import sys

TOP = pathlib.Path(__file__).resolve().parent.parent.parent
NUMBER = r"\d+\.\d+\.\d+"


def places() -> list[tuple[pathlib.Path, str]]:
    """Each file in which the number of the version stands, with the number there; an empty one where there is none."""
    found = []
    for path, pattern in [(path, rf'^\.TH \S+ 1 "[^"]*" "reraid ({NUMBER})"') for path in sorted((TOP / "docs").glob("*.1"))] + [
            (TOP / "CHANGELOG.md", rf"^## ({NUMBER})$")]:
        match = re.search(pattern, path.read_text(encoding="utf-8"), re.MULTILINE)
        found.append((path, match[1] if match else ""))
    for path in [*sorted((TOP / "crates").glob("*/src/**/*.rt")), *sorted((TOP / "crates").glob("*/specs/**/*.antt"))]:
        found += [(path, number) for number in re.findall(rf'"reraid(?:-nbd)? ({NUMBER})', path.read_text(encoding="utf-8"))]
    return found


def main() -> int:
    version = (TOP / "VERSION").read_text(encoding="ascii").strip()
    wrong = [(path, number) for path, number in places() if number != version]
    for path, number in wrong:
        print(f"{path.relative_to(TOP)}: {number or 'no version'}, and VERSION has {version}")
    return 1 if wrong else 0


if __name__ == "__main__":
    sys.exit(main())
