#!/usr/bin/env python3
"""Times the proof of each crate from nothing, with nothing kept and one job, and prints two tables: the crates, and the slowest
functions. A crate with tests is timed with them. A function's time is that between its line and the one before, so the first of a
crate has what comes before it too, and is left out where it is not slow by itself.

What the crates stand on must be built: run `rt all check` first. Each check is one processor's work, and nothing else should run.

Usage: bench/measuring/times.py [--least SECONDS] [CRATE..]
"""

import argparse
import os
import pathlib
import re
import resource
import subprocess
import sys
import time

TOP = pathlib.Path(__file__).resolve().parents[2]
CHECKED = re.compile(r"checked (\S+), (\d+) of (\d+)")
TEST = re.compile(r"^\s*#\[test\]", re.M)


def kit():
    """The folder of the kit whose `rt` is on the PATH."""
    page = subprocess.run(["rt", "doc"], capture_output=True, text=True, check=True).stdout.strip()
    return pathlib.Path(page).parent


def crates():
    """The crates of the repository in their order, each with what it stands on."""
    found = {}
    for line in (TOP / "crates.txt").read_text().splitlines():
        if line and not line.startswith("#"):
            name, _, below = line.partition(":")
            found[name.split()[0]] = below.split()
    return found


def all_below(name, known):
    """The repository's libraries below a crate."""
    below = {dep for dep in known[name] if dep in known}
    return below.union(*(all_below(dep, known) for dep in below))


def command(name, known, at):
    """The check of a crate, from nothing."""
    folder = TOP / "crates" / name
    root = "src/main.rt" if (folder / "src/main.rt").exists() else "src/lib.rt"
    words = [str(at / "bin/rattle"), "check", "--crate-name", name, root, "--jobs", "1", "--progress"]
    for dep in ["std", *known[name]]:
        built = TOP / "crates" / dep / "out/rlib" if dep in known else at / "rlibs"
        words += ["--extern", f"{dep}={built / dep}.rlib"]
    words += ["-L", f"dependency={at / 'rlibs'}"]
    for dep in sorted(all_below(name, known)):
        words += ["-L", f"dependency={TOP / 'crates' / dep / 'out/rlib'}"]
    words += ["--antt-project", str(at / "rattle/logic/antt-project.json"), "--logic-built", str(at / "logic_built")]
    if any(TEST.search(file.read_text()) for file in folder.glob("src/*.rt")):
        words += ["--test"]
    return words


def check(name, known, at):
    """How many functions a crate has, the seconds of the processor and of the clock that its check took, whether it was proved,
    and the seconds of each function but the first."""
    before = resource.getrusage(resource.RUSAGE_CHILDREN)
    begin = time.monotonic()
    functions, last, number, ended = [], None, 0, ""
    with subprocess.Popen(command(name, known, at), cwd=TOP / "crates" / name, stdout=subprocess.PIPE,
                          stderr=subprocess.STDOUT, text=True) as run:
        for line in run.stdout:
            ended = line.strip() or ended
            if found := CHECKED.match(line):
                now = time.monotonic()
                number = int(found[3])
                if last is not None:
                    functions.append((now - last, found[1]))
                last = now
    after = resource.getrusage(resource.RUSAGE_CHILDREN)
    processor = after.ru_utime + after.ru_stime - before.ru_utime - before.ru_stime
    return number, processor, time.monotonic() - begin, ended.startswith("logic=proved"), functions


def print_machine():
    """Says what was measured on."""
    system = os.uname()
    print(system.sysname, system.release, system.machine)
    models = re.findall(r"^model name\s*: (.*)$", pathlib.Path("/proc/cpuinfo").read_text(), re.M)
    print(models[0] if models else "processor not known")
    print(subprocess.run(["rt", "version"], capture_output=True, text=True, check=True).stdout.strip())


def main():
    words = argparse.ArgumentParser(description="Times the proof of each crate from nothing.")
    words.add_argument("--least", type=float, default=10, help="the seconds from which on a function is told (10)")
    words.add_argument("crates", nargs="*", help="the crates to time (all of them)")
    asked = words.parse_args()
    known, at, slow, failed = crates(), kit(), [], []
    print_machine()
    print("\n| crate | functions | processor, s | clock, s |\n|---|---|---|---|")
    for name in asked.crates or known:
        number, processor, clock, proved, functions = check(name, known, at)
        print(f"| `{name}` | {number} | {processor:.0f} | {clock:.0f} |", flush=True)
        slow += [one for one in functions if one[0] >= asked.least]
        failed += [] if proved else [name]
    print("\n| function | clock, s |\n|---|---|")
    for seconds, name in sorted(slow, reverse=True):
        print(f"| `{name}` | {seconds:.0f} |")
    for name in failed:
        print(f"{name}: was not proved, or what it stands on is not built", file=sys.stderr)
    return bool(failed)


if __name__ == "__main__":
    sys.exit(main())
