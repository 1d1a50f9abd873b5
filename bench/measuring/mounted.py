#!/usr/bin/env python3
"""Runs reraid-try with volumes mounted by reraid-nbd, and a copy of it that has no server beside it: both find the same of each candidate,
and more than one of the former was a mount. Then interrupts runs, each a tenth of a second later, and looks whether one leaves a mount, a
folder or a process. The last line counts them.

Usage: bench/measuring/mounted.py PROGRAM [RUNS]. PROGRAM is a reraid-nbd, which is put on the PATH. It needs FUSE, nbdfuse of Debian's libnbd-bin, and
what bench/measuring/try.py needs.
"""

import json
import os
import pathlib
import shutil
import signal
import subprocess
import sys
import tempfile
import time

TOP = pathlib.Path(__file__).resolve().parents[2]
sys.path.insert(0, str(TOP / "bench/making"))
import try_arrays  # noqa: E402
from try_arrays import Array  # noqa: E402

ARRAYS = [Array("5", 4, (), "gpt"), Array("5", 4, (), "lvm2"), Array("6", 5, (1,), "xfs"), Array("0", 3, (), "btrfs")]


def command(room, order, *words):
    """A run of reraid-try whose volumes are in a folder."""
    return ["nice", "-n", "5", "reraid-try", "--json", "--time", "20", "--room", room, *words, *order]


def candidates(env, room, order, log):
    """The candidates of a run by their sets, with what was found in each, and how many volumes were mounted."""
    said = subprocess.run(command(room, order, "--log", log), env=env, stdout=subprocess.PIPE, text=True, check=False).stdout
    found = [json.loads(line) for line in said.splitlines()]
    with open(log, encoding="utf-8") as file:
        mounts = sum("nbdfuse" in line for line in file)
    return {it["set"]: (it["found"], it["files"], it["files_whole"]) for it in found if it["event"] == "candidate"}, mounts


def left(room):
    """What a run has left behind: mounts, folders, and processes that name the room or the images beside it."""
    with open("/proc/mounts", encoding="utf-8") as file:
        mounts = [line for line in file if room in line]
    running = subprocess.run(["pgrep", "-f", os.path.dirname(room) + "/"], stdout=subprocess.PIPE, text=True, check=False).stdout.split()
    return mounts + os.listdir(room) + running


def interrupted(env, room, order, seconds):
    """A run that is interrupted so long after its first line: its status, and what it leaves."""
    with subprocess.Popen(command(room, order), env=env, stdout=subprocess.PIPE, start_new_session=True) as running:
        running.stdout.readline()
        time.sleep(seconds)
        running.send_signal(signal.SIGINT)
        running.stdout.read()
        status = running.wait()
    time.sleep(0.2)
    return status, left(room)


def main(words):
    if not words:
        sys.exit(__doc__)
    program, runs = os.path.abspath(words[0]), int(words[1]) if len(words) > 1 else 40
    good = total = 0
    with tempfile.TemporaryDirectory(prefix="reraid-mounted.") as base:
        room, bin_folder, cache = f"{base}/room", f"{base}/bin", f"{base}/volumes"
        for folder in (room, bin_folder, cache):
            os.mkdir(folder)
        os.symlink(program, f"{bin_folder}/reraid-nbd")
        try_arrays.tree(f"{cache}/tree")
        shutil.copytree(TOP / "lib", f"{base}/alone/lib")
        os.mkdir(f"{base}/alone/bin")
        shutil.copy(TOP / "bin/reraid-try", f"{base}/alone/bin")
        os.environ["PATH"] = os.pathsep.join([str(TOP / "crates/reraid/out"), f"{base}/alone/bin", os.environ["PATH"], "/usr/sbin", "/sbin"])
        without, mounting = dict(os.environ), os.environ | {"PATH": os.pathsep.join([bin_folder, str(TOP / "bin"), os.environ["PATH"]])}
        for number, array in enumerate(ARRAYS):
            os.mkdir(f"{base}/{number}")
            order, _ = try_arrays.make(array, cache, f"{base}/{number}")
            began = time.monotonic()
            written, none = candidates(without, room, order, f"{base}/log")
            between = time.monotonic()
            seen, mounts = candidates(mounting, room, order, f"{base}/log")
            well = seen == written and none == 0 and mounts >= len(seen) > 0 and not left(room)
            total, good = total + 1, good + well
            print(f"{array.name()}: {len(seen)} candidates, {mounts} mounts, {time.monotonic() - between:.1f} s, in files {between - began:.1f} s: "
                  f"{'the same' if well else f'NOT THE SAME {seen} {written}'}", flush=True)
        for run in range(runs):
            status, rest = interrupted(mounting, room, order, 0.1 * run)
            well = status in (0, 130) and not rest
            total, good = total + 1, good + well
            if not well:
                print(f"interrupted after {0.1 * run:.1f} s: status {status}, left {rest}", flush=True)
    print(f"{good} of {total} runs are as stated")
    return 0 if good == total else 1


if __name__ == "__main__":
    sys.exit(main(sys.argv[1:]))
