#!/usr/bin/env python3
"""Check that the links of the pages lead to files and headings, and that each page that a file names exists.

Usage: links.py
Prints each link that leads nowhere, and each name of a missing page; status 1 if there is one. Links to other sites are not followed.
"""

import pathlib
import re
import sys
from collections.abc import Iterator

TOP = pathlib.Path(__file__).resolve().parents[2]
PAGES = ("*.md", "docs/*.md")
# Files that name pages as docs/NAME.md; tests name pages of their own.
NAMING = (*PAGES, "docs/*.1", "Makefile", "bin/*", "bench/**/*.sh", "bench/**/*.py", "hostile/**/*.sh", "hostile/**/*.py", "lib/**/*.py",
          "crates/*/src/**/*.rt", "crates/*/specs/*.antt")
LINK = re.compile(r"\]\(([^)\s]+)\)")
NAMED = re.compile(r"\bdocs/(?!NAME\.)([A-Z][A-Z-]*\.md)\b")
OTHER_SITE = re.compile(r"[a-z]+:")


def prose_lines(text: str) -> Iterator[str]:
    """Yield the lines of a page outside its fenced code."""
    fenced = False
    for line in text.splitlines():
        if line.startswith("```"):
            fenced = not fenced
        elif not fenced:
            yield line


def anchor(heading: str) -> str:
    """Return the anchor of a heading.

    >>> anchor("1. Image every disk, and `put` it [away](x.md)")
    '1-image-every-disk-and-put-it-away'
    """
    plain = re.sub(r"\[([^\]]*)\]\([^)]*\)", r"\1", heading).lower()
    return re.sub(r"[^\w\- ]", "", plain).strip().replace(" ", "-")


def anchors(text: str) -> set[str]:
    """Return the anchors of a page's headings; equal headings have -1, -2 and so on after the first."""
    found: set[str] = set()
    for line in prose_lines(text):
        if match := re.match(r"#+ (.*)", line):
            first = name = anchor(match[1])
            number = 0
            while name in found:
                number += 1
                name = f"{first}-{number}"
            found.add(name)
    return found


def broken(page: pathlib.Path) -> list[str]:
    """Return the links of a page that lead nowhere."""
    found = []
    for target in LINK.findall("\n".join(prose_lines(page.read_text()))):
        name, _, heading = target.partition("#")
        path = page.parent / name if name else page
        if OTHER_SITE.match(target):
            continue
        if not path.exists():
            found.append(f"{target}: no such file")
        elif heading and path.suffix == ".md" and heading not in anchors(path.read_text()):
            found.append(f"{target}: no such heading")
    return found


def missing(path: pathlib.Path, top: pathlib.Path) -> list[str]:
    """Return the pages that a file names as docs/NAME.md and that do not exist."""
    return sorted({f"docs/{name}: no such page" for name in NAMED.findall(path.read_text()) if not (top / "docs" / name).exists()})


def faults(top: pathlib.Path) -> list[str]:
    """Return all that is wrong below a folder, each with the file in which it is."""
    pages = [path for pattern in PAGES for path in sorted(top.glob(pattern))]
    naming = [path for pattern in NAMING for path in sorted(top.glob(pattern)) if not path.name.startswith("test_")]
    found = [(path, what) for path in pages for what in broken(path)] + [(path, what) for path in naming for what in missing(path, top)]
    return [f"{path.relative_to(top)}: {what}" for path, what in found]


def main() -> int:
    """Print what is wrong; return the exit status."""
    found = faults(TOP)
    print("\n".join(found) or "all links lead to a file or heading")
    return 1 if found else 0


if __name__ == "__main__":
    sys.exit(main())
