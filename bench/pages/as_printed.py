#!/usr/bin/env python3
"""Runs the commands of a page as they are printed, in an empty folder, and compares what they print with the page.

Usage: as_printed.py [--root] [--long] PAGE..
A command is a line that begins with four spaces and "$ ", with the lines after it that begin with "> ". The lines up to the
next command, or to the end of the block, are what it prints, standard error included. All commands of a page run in
one bash, from the top of the repository; the first of them change to an empty folder. A command after "# " needs root, and is run with
--root alone. With --long the commands that took longest are said, and for how many seconds. Status 1 where something differs.
"""

import os
import pathlib
import subprocess
import sys
import tempfile

TOP = pathlib.Path(__file__).resolve().parents[2]
MARK = "=== as printed"
# How many commands are said to take longest, of those that take so many seconds.
MOST_LONG, LONG = 12, 1


def commands(page, prompts):
    """The commands of a page after these prompts, each with the number of its line, and what it is to print."""
    found, here = [], None
    for number, line in enumerate(page.read_text().splitlines(), 1):
        text = line[4:] if line.startswith("    ") else None
        if text is None:
            here = None
        elif text[:2] in prompts:
            here = (number, [text[2:]], [])
            found.append(here)
        elif text.startswith("# "):
            here = None
        elif here and text.startswith("> ") and not here[2]:
            here[1].append(text[2:])
        elif here:
            here[2].append(text)
    return found


def timed(found):
    """What each command printed, in one bash, and its seconds. Its temporary folders are gone afterwards."""
    mark = f'echo "{MARK} ${{EPOCHREALTIME/,/.}}" >&3\n'
    script = mark + "".join("\n".join(command) + f"\n{mark}" for _, command, _ in found)
    with tempfile.TemporaryDirectory() as folder:
        done = subprocess.run(["bash", "-c", "exec 3>&1 2>&1\n" + script], cwd=TOP, env=os.environ | {"TMPDIR": folder},
                              text=True, errors="replace", stdin=subprocess.DEVNULL, stdout=subprocess.PIPE, check=False)
    ends, printed = [], []
    for part in done.stdout.split(MARK)[1:]:
        end, _, text = part.partition("\n")
        ends.append(float(end))
        printed.append(text.strip("\n"))
    return [(text, end - begin) for text, begin, end in zip(printed, ends, ends[1:])]


def run(found):
    """What each command printed, in one bash."""
    return [text for text, _ in timed(found)]


def main(words):
    prompts = ["$ ", "# "] if "--root" in words else ["$ "]
    names = [word for word in words if word not in ("--root", "--long")]
    differ = 0
    for name in names:
        found = commands(pathlib.Path(name), prompts)
        printed = timed(found)
        for (number, command, wanted), got in zip(found, [text for text, _ in printed] + [None] * len(found)):
            if got is None or got.splitlines() != wanted:
                differ += 1
                print(f"{name}:{number}: {command[0]}\n--- the page has\n" + "\n".join(wanted) + f"\n--- and it prints\n{got}")
        if "--long" in words:
            took = sorted(((seconds, number, command[0]) for (number, command, _), (_, seconds) in zip(found, printed) if seconds >= LONG), reverse=True)
            for seconds, number, command in took[:MOST_LONG]:
                print(f"{name}:{number}: {seconds:.0f} s: {command}")
        print(f"{name}: {len(found)} commands, {sum(seconds for _, seconds in printed):.0f} s")
    return differ > 0


if __name__ == "__main__":
    sys.exit(main(sys.argv[1:]) if len(sys.argv) > 1 else __doc__)
