#!/usr/bin/env python3
"""Runs reraid-try on arrays that it makes: each level with each kind of volume, and traits of real disks, alone and by twos. Prints a
table: the array, how many sets the defaults of reraid list and whether the true one is among them, what reraid-try had relaxed where the true
set came, whether that volume was found clean and its files whole, the seconds, and those of the processors. The last line counts them.

Usage: bench/measuring/try.py [--few] [--from N] [--jobs N] [--keep DIR] [WORD..]
With --from N it begins with array N, counted from 0; with --jobs N so many arrays are searched side by side. With words only the arrays in
whose names all of them stand; with --few one array of each kind of volume. Needs the program on the PATH or at crates/reraid/out, and the
Debian packages e2fsprogs, xfsprogs, btrfs-progs, ntfs-3g and lvm2.
"""

import argparse
import concurrent.futures
import json
import os
import pathlib
import shutil
import subprocess
import sys
import tempfile
import time

TOP = pathlib.Path(__file__).resolve().parents[2]
sys.path.insert(0, str(TOP / "bench/making"))
from try_arrays import DELAYED, Array, alike, make, plain_volume, tree  # noqa: E402

KINDS = ["ext4", "btrfs", "xfs", "ntfs", "lvm2", "gpt", "mbr"]
MOST_SECONDS = 60

# Each level with and without a disk lost, with each kind of volume.
LEVELS = [("0", 3, ()), ("5", 4, ()), ("5", 4, (1,)), ("6", 5, ()), ("6", 5, (2,)), ("near2", 4, ())]
ARRAYS = [Array(level, members, lost, kind) for level, members, lost in LEVELS for kind in KINDS]

# Each trait of real disks alone, on a RAID 5 of four disks, with a kind of volume that can have it.
ALONE = {
    "stray on parity": "xfs",
    "superblock at the end": "xfs",
    "lengths differ": "xfs",
    "earlier file system": "xfs",
    "disk image inside": "gpt",
    "used earlier": "xfs",
    "offsets differ": "xfs",
    "offset 0": "gpt",
    "odd offset": "xfs",
    "unreadable areas": "xfs",
    "foreign image": "xfs",
}
ARRAYS += [Array("5", 4, (), kind, (trait,)) for trait, kind in ALONE.items()]
ARRAYS += [Array("5", 4, (), kind) for kind in ("elsewhere", "gpt 4K", "ext4 4K")]

# Each two traits that can stand together: on the kinds of volume in turn that both can have.
APART = [{"offsets differ", "foreign image"}, {"offset 0", "odd offset"}, {"offset 0", "offsets differ"}, {"odd offset", "offsets differ"},
         {"used earlier", "offset 0"}]
NEEDS = {"stray on parity": "xfs", "disk image inside": "gpt"}
TRAITS = list(ALONE)
for k, one in enumerate(TRAITS):
    for m, other in enumerate(TRAITS[k + 1:]):
        needed = {NEEDS[it] for it in (one, other) if it in NEEDS}
        needed = {"gpt"} if len(needed) == 2 else needed
        if {one, other} not in APART:
            ARRAYS.append(Array("5", 4, (), needed.pop() if needed else ["xfs", "ntfs", "gpt", "lvm2"][(k + m) % 4], (one, other)))
EVERY = [Array("6", 5, (1,), "xfs", (trait,)) for trait in ("superblock at the end", "stray on parity", "used earlier", "odd offset")]
ARRAYS += EVERY

# Parity that stays for several rows, as Smart Array controllers have it; it tells nothing here, and few landmarks lie on the disks that are left.
ARRAYS.append(Array("5", 5, (1,), "ext4 256M", (DELAYED,), 256))


def defaults(order, env):
    """How many sets a survey and a listing with nothing asked for give, and these sets."""
    survey = subprocess.run(["reraid", "survey", "--", *order], env=env, capture_output=True, text=True, check=False)
    try:
        listing = subprocess.run(["reraid", "list", "size=20000", "--", *order], env=env, input=survey.stdout, capture_output=True, text=True,
                                 timeout=MOST_SECONDS, check=False)
    except subprocess.TimeoutExpired:
        return []
    return [line.split()[1] for line in listing.stdout.splitlines() if not line.startswith("next")]


def tried(order, env, log):
    """What reraid-try finds: its candidates by their sets, the seconds, those of the processors, and all that it printed."""
    began = time.monotonic()
    words = ["timeout", str(10 * MOST_SECONDS), "reraid-try", "--json", "--time", "20", "--log", log, *order]
    with subprocess.Popen(words, env=env, stdout=subprocess.PIPE, text=True) as running:
        said = running.stdout.read()
        _, status, used = os.wait4(running.pid, 0)
        running.returncode = os.waitstatus_to_exitcode(status)
    found = [json.loads(line) for line in said.splitlines()]
    return [it for it in found if it["event"] == "candidate"], time.monotonic() - began, used.ru_utime + used.ru_stime, said


def judge(array, cache, base, env):
    """One array: makes it, searches it, and gives its line in the table, whether the true set is found, the seconds and those of the processors."""
    with tempfile.TemporaryDirectory(dir=base) as folder:
        order, true = make(array, cache, folder)
        listed = [] if array.level == "near2" else defaults(order, env)
        name = array.name().replace(", ", "-").replace(" ", "-")
        found, took, used, said = tried(order, env, f"{base}/{name}.log")
        with open(f"{base}/{name}.json", "w", encoding="utf-8") as file:
            file.write(said)
    same = [it for it in found if alike(true, true) in [alike(word, word) for word in [it["set"], *it["alike"]]]]
    there = "listed" if true in listed else "missing"
    if not same:
        return f"| {array.name()} | {len(listed)}, {there} | MISSING of {len(found)} | | {took:.1f} | {used:.1f} |", False, took, used
    it = max(same, key=lambda it: it["score"])
    sound = ["not clean", "nothing against it", "clean", "clean, and its files whole"][it["score"]]
    line = f"| {array.name()} | {len(listed)}, {there} | {len(found)}: {'; '.join(it['loosened']) or 'nothing relaxed'} | {sound} |"
    return f"{line} {took:.1f} | {used:.1f} |", True, took, used


def main():
    asking = argparse.ArgumentParser(description=__doc__, formatter_class=argparse.RawDescriptionHelpFormatter)
    asking.add_argument("--few", action="store_true")
    asking.add_argument("--from", dest="first", type=int, default=0, metavar="N")
    asking.add_argument("--jobs", type=int, default=1, metavar="N")
    asking.add_argument("--keep", metavar="DIR")
    asking.add_argument("words", nargs="*")
    options = asking.parse_args()
    env = os.environ | {"PATH": os.pathsep.join([str(TOP / "crates/reraid/out"), str(TOP / "bin"), os.environ["PATH"], "/usr/sbin", "/sbin"])}
    os.environ["PATH"] = env["PATH"]
    base = options.keep or tempfile.mkdtemp(prefix="reraid-arrays.")
    os.makedirs(base, exist_ok=True)
    try:
        cache = f"{base}/volumes"
        tree(f"{cache}/tree")
        chosen = [array for array in ARRAYS[options.first:] if all(word in array.name() for word in options.words)]
        if options.few:
            chosen = [array for array in chosen if array.level == "5" and not array.lost and not array.traits]
        for kind in dict.fromkeys(array.kind for array in chosen):
            plain_volume(kind, cache)
        print("| array | the defaults list, the true set | reraid-try: candidates, what was relaxed | the true volume | seconds | of processors |")
        print("|---|---|---|---|---|---|")
        good = quick = most = 0
        with concurrent.futures.ThreadPoolExecutor(options.jobs) as pool:
            for line, well, took, used in pool.map(lambda array: judge(array, cache, base, env), chosen):
                good, quick, most = good + well, quick + (well and took < MOST_SECONDS), max(most, used)
                print(line, flush=True)
        print(f"{good} of {len(chosen)} arrays: the true set is among the candidates; of {quick} in less than {MOST_SECONDS} seconds, and of all with "
              f"at most {most:.0f} seconds of the processors")
        return 0 if quick == len(chosen) else 1
    finally:
        if not options.keep:
            shutil.rmtree(base)


if __name__ == "__main__":
    sys.exit(main())
