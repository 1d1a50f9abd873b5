#!/usr/bin/env python3
"""Prints the edits that must fail, crates/*/must-fail/*.edit, each with the function or constant in which it puts a wrong body in place of the
right one, and what is wrong with that: an edit says so in a line `wrong:` and, if bodies like it once passed, in a line `refused by:` which
clause refuses it now.

    bench/pages/edits.py             prints those of all crates
    bench/pages/edits.py CRATE..     prints those of these crates
    bench/pages/edits.py --passed    prints those of which bodies like them once passed, with the clause
    bench/pages/edits.py --compare   says which have no line `wrong:`, or no place in their source any more, and which docs/WRONG-BODIES.md
                                     speaks of that are gone; ends with 1 where there is one
"""

import pathlib
import re
import sys

TOP = pathlib.Path(__file__).resolve().parents[2]
PAGE = TOP / "docs/WRONG-BODIES.md"
FUNCTION = re.compile(r"(?:fn|(?<!')static|const)\s+(\w+)")
CITED = re.compile(r"`(\w+)/(\w+)`")


class Edit:
    """A file of must-fail: what its lines say, and the function or constant in which its first changed text stands."""

    def __init__(self, path):
        self.crate, self.name = path.parent.parent.name, path.stem
        lines = path.read_text().splitlines()
        said = {word: line[len(word) + 2:] for line in reversed(lines) for word in ("wrong", "refused by", "file", "old")
                if line.startswith(word + ": ")}
        self.wrong, self.refused_by = said.get("wrong"), said.get("refused by")
        text = (path.parent.parent / said["file"]).read_text()
        at = text.find(said["old"])
        before = FUNCTION.findall(text[:at + len(said["old"])]) if at >= 0 else []
        self.function = before[-1] if before else None


def by_crate(edits):
    """The list of each crate, in the order of the alphabet."""
    text, crate = "", None
    for edit in edits:
        if edit.crate != crate:
            crate = edit.crate
            text += f"\n## `{crate}`\n\n"
        text += f"- `{edit.name}`, `{edit.function}`: {edit.wrong}\n"
    return text.lstrip("\n")


def passed_once(edits):
    """The list of those of which bodies like them once passed."""
    return "".join(f"- `{edit.crate}/{edit.name}`: {edit.refused_by}\n" for edit in edits if edit.refused_by)


def faults_of(edits):
    """What is wrong with the edits, or with what the page says of them."""
    there = {(edit.crate, edit.name) for edit in edits}
    faults = [f"{edit.crate}/{edit.name}: {what}" for edit in edits
              for what, bad in (("its old text is gone", edit.function is None), ("has no line `wrong:`", edit.wrong is None)) if bad]
    cited = {found.groups() for found in CITED.finditer(PAGE.read_text())}
    return faults + [f"{'/'.join(key)} is spoken of and gone" for key in sorted(cited - there)]


def main(words):
    edits = [Edit(path) for path in sorted(TOP.glob("crates/*/must-fail/*.edit"))]
    if words == ["--compare"]:
        faults = faults_of(edits)
        print("\n".join(faults) or f"{len(edits)} edits are as they should be")
        return bool(faults)
    if words == ["--passed"]:
        print(passed_once(edits), end="")
        return False
    if unknown := set(words) - {edit.crate for edit in edits}:
        return "\n".join([f"no crate with edits: {name}" for name in sorted(unknown)] + [__doc__])
    print(by_crate([edit for edit in edits if not words or edit.crate in words]), end="")
    return False


if __name__ == "__main__":
    sys.exit(main(sys.argv[1:]))
