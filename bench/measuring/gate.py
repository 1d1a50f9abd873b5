#!/usr/bin/env python3
"""Runs the gate, and prints the minutes of the clock that it took, the minutes of the processors by proofs, tests, edits and what
these begin with (a crate of several edits is proved once more for them), a table of the crates by them, and the edits that took
longest. It looks at the prover's processes each half second, so what runs shorter is not seen.

What earlier runs proved is kept by the kit and not proved again: for the times from nothing move what is kept away first. Nothing
else should run.

Usage: bench/measuring/gate.py [COMMAND..], rt ci if left out
"""

import collections
import os
import pathlib
import subprocess
import sys
import time

TICKS = os.sysconf("SC_CLK_TCK")
KINDS = ("proof", "tests", "again", "edits")
SLOWEST = 20


def kind_of(words, folder):
    """What a process of these words in this folder is for: the copies that edits change stand in folders of their own, and their
    beginning in one that is named seed."""
    if "rt-edit" in folder:
        return "again" if any(word.endswith("/seed") for word in words) else "edits"
    return "tests" if "--test" in words else "proof"


def edit_of(name, words):
    """The edit that a check of a changed copy of a crate tries: the folder that it begins with is named by the edit's place among
    those of the crate; a crate of one edit is checked with none."""
    files = sorted(pathlib.Path("crates", name, "must-fail").glob("*.edit"))
    place = os.path.basename(words[words.index("--incremental") + 1]) if "--incremental" in words else "0"
    return f"{name}/{files[int(place)].stem}" if place.isdigit() and int(place) < len(files) else name


def processes():
    """The prover's processes: each by its number and start, with its crate, what it is for, the edit that it tries, and its seconds of
    the processor."""
    for entry in pathlib.Path("/proc").iterdir():
        if not entry.name.isdigit():
            continue
        try:
            words = (entry / "cmdline").read_bytes().decode().split("\0")
            if os.path.basename(words[0]) != "rattle" or "--crate-name" not in words:
                continue
            fields = (entry / "stat").read_text().rsplit(")", 1)[1].split()
            kind = kind_of(words, os.readlink(entry / "cwd"))
        except OSError:
            continue
        name = words[words.index("--crate-name") + 1]
        edit = edit_of(name, words) if kind == "edits" else ""
        yield (entry.name, fields[19]), (name, kind, edit), sum(int(field) for field in fields[11:15]) / TICKS


def main():
    seen, begin = {}, time.monotonic()
    with subprocess.Popen(sys.argv[1:] or ["rt", "ci"]) as run:
        while run.poll() is None:
            for number, crate, seconds in processes():
                seen[number] = (crate, seconds)
            time.sleep(0.5)
    clock = time.monotonic() - begin
    sums, edits = collections.defaultdict(collections.Counter), collections.Counter()
    for (name, kind, edit), seconds in seen.values():
        sums[name][kind] += seconds
        if edit:
            edits[edit] += seconds
    print(f"\n{clock / 60:.1f} minutes of the clock; of the processors: "
          + ", ".join(f"{kind} {sum(crate[kind] for crate in sums.values()) / 60:.1f}" for kind in KINDS))
    print("\n| crate | proof, s | tests, s | again for edits, s | edits, s |\n|---|---|---|---|---|")
    for name, crate in sorted(sums.items(), key=lambda item: -sum(item[1].values())):
        print(f"| `{name}` | {' | '.join(f'{crate[kind]:.0f}' for kind in KINDS)} |")
    print("\n| edit | s |\n|---|---|")
    for edit, seconds in edits.most_common(SLOWEST):
        print(f"| `{edit}` | {seconds:.0f} |")
    return run.returncode


if __name__ == "__main__":
    sys.exit(main())
