#!/usr/bin/env python3
"""Compares the texts of `--help` and `--version` in docs/FORMATS.md with their definitions in crates/program_texts/specs/Texts.antt.

Usage: texts.py
Prints the name of each text that the page does not have; status 1 if there is one.
"""

import pathlib
import re
import sys

TOP = pathlib.Path(__file__).resolve().parent.parent.parent
DEFINITIONS = TOP / "crates" / "program_texts" / "specs" / "Texts.antt"
PAGE = TOP / "docs" / "FORMATS.md"


def texts() -> dict[str, str]:
    """Each text by the name of its definition."""
    found: dict[str, str] = {}
    name = ""
    for line in DEFINITIONS.read_text(encoding="utf-8").splitlines():
        declared = re.match(r"unfoldable pub (\w+) : ", line)
        name = declared[1] if declared else name
        for part in re.findall(r'codes "([^"]*)"', line):
            found[name] = found.get(name, "") + part.replace("\\n", "\n")
    return found


def as_block(text: str) -> str:
    """A text as the page prints it: each line that is not empty behind four spaces; one line alone between backquotes."""
    lines = text.splitlines()
    return f"`{lines[0]}`" if len(lines) == 1 else "\n".join("    " + line if line else "" for line in lines)


def main() -> int:
    page = PAGE.read_text(encoding="utf-8")
    missing = [name for name, text in texts().items() if as_block(text) not in page]
    for name in missing:
        print(f"{PAGE.relative_to(TOP)}: the text {name} is another")
    return 1 if missing else 0


if __name__ == "__main__":
    sys.exit(main())
