#!/usr/bin/env python3
"""Runs the program and the reference over many cases, and compares status, standard output and standard error.

Usage: run.py PROGRAM [--seed WORD] [--cases N] [--commands LIST] [--first N] [--processes N] [--keep FOLDER]
The seed is printed; with it and --first N --cases 1 --commands COMMAND a case comes again. A case that differs is kept in a folder
of its own, with its words, plan and images, below the folder of --keep. The status is 0 where nothing differs.

In one case of sixteen a read of an image fails in mid-run, in another one a request for memory is refused, for which a C compiler is
needed. Then status and line have to be those of a failed image or of want of memory; what was put is nothing, or, where a read failed
and the command puts as it reads, whole sectors or lines from the beginning of the answer. A run that did not come to the failure has
to give its own answer, and one that was refused memory may. Where there is no compiler such a case runs without the failure.
"""

import argparse
import multiprocessing
import os
import pathlib
import random
import shutil
import subprocess
import sys
import tempfile
import time

import cases
import reference
from texts import SECTOR


SECONDS = 120
READ_FAULT = (10, b"reraid: image read fault\n")
NO_MEMORY = (20, b"reraid: out of memory\n")
# The file that is there once a read was failed.
FAILED = "failed read"
# What of their answer the commands put that put as they read: so many bytes, or lines.
PUT_AS_READ = {"write": SECTOR, "rebuild": SECTOR, "mirrorwrite": SECTOR, "salvage": SECTOR, "relations": None}


def made_libraries(folder):
    """The libraries that fail reads and refuse memory, compiled into a folder; none where there is no compiler."""
    here = pathlib.Path(__file__).resolve().parent
    if not shutil.which("cc"):
        print("left out: reads that fail, memory that is refused (there is no cc)", flush=True)
        return None
    libraries = {}
    for name, source in (("reads", here / "fail_reads.c"), ("memory", here.parent / "refuse_memory.c")):
        libraries[name] = os.path.join(folder, name + ".so")
        subprocess.run(["cc", "-O2", "-Wall", "-shared", "-fPIC", "-o", libraries[name], source], check=True)
    return libraries


def draw_failure(case, rng):
    """Has a read of an image or a request for memory fail in an eighth of the cases that have no failure of their own."""
    way, number = rng.randrange(16), rng.choice([1, 2, 3, 4, 5, 6, 8, 10, 14, 20, 30, 50])
    if case.failing is None and way == 0:
        case.failing = number
    elif case.failing is None and way == 1:
        case.refused = number


def surroundings(case, folder, libraries):
    """What of the environment makes the failure of a case."""
    if libraries and case.failing:
        return {"LD_PRELOAD": libraries["reads"], "FAIL": str(case.failing), "FAILED": os.path.join(folder, FAILED)}
    if libraries and case.refused:
        return {"LD_PRELOAD": libraries["memory"], "REFUSE": str(case.refused)}
    return {}


def run_program(program, case, folder, libraries=None):
    """What the program answers over real files in this folder; no status, where it has not ended in time."""
    for name, data in case.files.items():
        with open(os.path.join(folder, name), "wb") as file:
            file.write(data)
    failing = surroundings(case, folder, libraries)
    try:
        run = subprocess.run([program, *(word.encode("utf-8", "surrogateescape") for word in case.words)], input=case.text, cwd=folder,
                             env=os.environ | failing, capture_output=True, timeout=SECONDS, check=False)
    except subprocess.TimeoutExpired:
        return None, b"", f"no end in {SECONDS} seconds\n".encode()
    return run.returncode, run.stdout, run.stderr


def is_front(command, wanted, out):
    """What was put before a read failed: whole sectors or lines from the beginning, or nothing, by the command."""
    if command not in PUT_AS_READ:
        return out == b""
    size = PUT_AS_READ[command]
    return wanted.startswith(out) and (len(out) % size == 0 if size else out[-1:] in (b"", b"\n"))


def agree(command, wanted, given, failed, refused=None):
    """The answer is the one that is wanted; where a read was failed or memory refused, what is to come of that."""
    status, out, line = given
    if failed:
        return (status, line) == READ_FAULT and is_front(command, wanted[1], out)
    return given == wanted or bool(refused) and (status, line, out) == (*NO_MEMORY, b"")


def keep(case, wanted, given, folder):
    """Writes a case and both answers into a new folder."""
    os.makedirs(folder, exist_ok=True)
    for name, data in {**case.files, "stdin": case.text, "wanted.stdout": wanted[1], "given.stdout": given[1]}.items():
        with open(os.path.join(folder, name), "wb") as file:
            file.write(data)
    with open(os.path.join(folder, "words"), "w", encoding="utf-8", errors="surrogateescape") as file:
        file.write("\n".join(case.words) + "\n")
    if case.failing or case.refused:
        with open(os.path.join(folder, "failing"), "w", encoding="utf-8") as file:
            file.write(f"read {case.failing}, request for memory {case.refused}\n")
    with open(os.path.join(folder, "answers"), "w", encoding="utf-8") as file:
        file.write(f"wanted {wanted[0]} {wanted[2]}\ngiven  {given[0]} {given[2]}\n")


def compare(job):
    """Runs one case, and tells the status that was given and whether the answers agree."""
    program, seed, command, place, kept, libraries = job
    case = cases.make(command, random.Random(f"{seed}/{command}/{place}"))
    draw_failure(case, random.Random(f"{seed}/{command}/{place}/failure"))
    wanted = reference.answer(case.words, case.text, case.files)
    with tempfile.TemporaryDirectory(prefix="reraid-", dir="/dev/shm" if os.path.isdir("/dev/shm") else None) as folder:
        os.mkdir(os.path.join(folder, "folder"))
        given = run_program(program, case, folder, libraries)
        failed = os.path.exists(os.path.join(folder, FAILED))
    agrees = agree(case.words[0] if case.words else command, wanted, given, failed, case.refused if libraries else None)
    if not agrees:
        keep(case, wanted, given, os.path.join(kept, f"{command}-{place}"))
    return command, place, given[0], agrees


def read_arguments():
    parser = argparse.ArgumentParser(description=__doc__, formatter_class=argparse.RawDescriptionHelpFormatter)
    parser.add_argument("program", type=os.path.abspath)
    parser.add_argument("--seed", default=None)
    parser.add_argument("--cases", type=int, default=20000)
    parser.add_argument("--commands", default=",".join(cases.MAKERS))
    parser.add_argument("--first", type=int, default=0)
    parser.add_argument("--processes", type=int, default=2)
    parser.add_argument("--keep", default="differences")
    return parser.parse_args()


def main():
    given = read_arguments()
    seed = given.seed if given.seed is not None else str(random.SystemRandom().randrange(10 ** 9))
    print(f"seed {seed}", flush=True)
    differing = 0
    with tempfile.TemporaryDirectory(prefix="reraid-") as made, multiprocessing.Pool(given.processes) as pool:
        libraries = made_libraries(made)
        for command in given.commands.split(","):
            began, statuses, wrong = time.monotonic(), {}, []
            jobs = ((given.program, seed, command, place, given.keep, libraries) for place in range(given.first, given.first + given.cases))
            for _, place, status, agrees in pool.imap_unordered(compare, jobs, 16):
                statuses[status] = statuses.get(status, 0) + 1
                if not agrees:
                    wrong.append(place)
                    if len(wrong) <= 10:
                        print(f"{command} {place} differs: see {os.path.join(given.keep, f'{command}-{place}')}", flush=True)
            counts = " ".join(f"{status}:{count}" for status, count in sorted(statuses.items(), key=str))
            print(f"{command}: {given.cases} cases, {len(wrong)} differ, {time.monotonic() - began:.0f} s, statuses {counts}", flush=True)
            differing += len(wrong)
    print(f"{'all agree' if not differing else f'{differing} differ'}, seed {seed}")
    return 1 if differing else 0


if __name__ == "__main__":
    sys.exit(main())
