#!/usr/bin/env python3
"""Runs reraid-try where the plain search finds nothing: an array that begins behind what is read first, one with a damaged image, one with
two, one whose landmarks mostly contradict it, arrays of which two images have bad areas that no map tells of, one with an image that was read in part,
and one beside a disk with marks of its own. Of two damaged images and of wrong landmarks it compares the diagnosis with what was done to the images. The last line
counts them, each line says how long it took.

Usage: bench/measuring/near.py [--keep DIR] [CASE..], of far, one_damaged, two_damaged, wrong_group, areas_in_six, areas_at_the_start, areas_in_four,
areas_one_lost, areas_in_ntfs, imaged_in_part and foreign_disk. It needs what bench/measuring/try.py needs, and 5 GiB for files.
"""

import argparse
import json
import os
import pathlib
import random
import re
import shutil
import signal
import subprocess
import sys
import tempfile
import time

TOP = pathlib.Path(__file__).resolve().parents[2]
sys.path.insert(0, str(TOP / "bench/making"))
import try_arrays  # noqa: E402
from try_arrays import SECTOR, Array  # noqa: E402

DATA = 2048
NOISE = random.Random()


def search(order, *words):
    """The events of a run, each with its fields."""
    done = subprocess.run(["reraid-try", "--json", "--time", "20", *words, *order], stdout=subprocess.PIPE, text=True, check=False)
    return [json.loads(line) for line in done.stdout.splitlines()]


def nearest(order, wanted):
    """What `wanted` says of the nearest sets that a run prints on its way, or at its end; it is ended where that is true."""
    with subprocess.Popen(["reraid-try", "--json", "--time", "20", *order], stdout=subprocess.PIPE, text=True) as running:
        well = any(it["event"] == "near" and wanted(it) for it in map(json.loads, running.stdout))
        running.send_signal(signal.SIGINT)
        running.communicate()
    return well


def best(events):
    """The candidates with files that are whole, or the sums of all data right."""
    return [it["set"] for it in events if it["event"] == "candidate" and it["score"] == 3]


def listed(events):
    """All candidates."""
    return [it["set"] for it in events if it["event"] == "candidate"]


def damaged(name, place, step):
    """Overwrites a sector of every so many with noise, from the data's start on; it says which rows these are."""
    rows = list(range(place, os.path.getsize(name) // SECTOR - DATA, step))
    for row in rows:
        try_arrays.put(name, DATA + row, NOISE.randbytes(SECTOR))
    return rows


def far(folder, cache):
    """The data begin behind what is read first."""
    order, true = try_arrays.make(Array("5", 4, (), "xfs"), cache, folder, 65536)
    events = search(order, "--first", "24M")
    return any(it["event"] == "all" for it in events) and true in best(events)


def one_damaged(folder, cache):
    """One image has more bad rows than are allowed: left out, its member is found by parity."""
    order, true = try_arrays.make(Array("5", 4, (), "xfs"), cache, folder)
    head, slots = true.rsplit(":", 1)
    slots = slots.split(",")
    damaged(order[int(slots[2])], 0, 5)
    return ":".join([head, ",".join(slots[:2] + ["-"] + slots[3:])]) in best(search(order))


def two_damaged(folder, cache):
    """Two images have: the nearest sets have the true one, with as many unsound rows as were damaged, the first and the last."""
    order, true = try_arrays.make(Array("5", 4, (), "xfs"), cache, folder)
    rows = damaged(order[0], 3, 7) + damaged(order[2], 4, 7)
    wanted = true, len(rows), min(rows), max(rows)
    return nearest(order, lambda it: (it["set"], it["unsound"], it["first"], it["last"]) == wanted)


def wrong_group(folder, cache):
    """The first superblock is gone, and twelve copies of another stand elsewhere: the diagnosis has the true set, with twelve misfits."""
    array = Array("5", 4, (), "xfs")
    volume = f"{folder}/changed"
    shutil.copy(try_arrays.plain_volume(array.kind, cache), volume)
    _, later = list(try_arrays.sectors_that(volume, lambda it: it[:4] == b"XFSB"))[1]
    try_arrays.put(volume, 0, bytes(SECTOR))
    for k in range(12):
        try_arrays.put(volume, 150000 + 1001 * k, later)
    order, true = try_arrays.make(array, cache, folder, DATA, volume)
    near = [it for it in search(order) if it["event"] == "near"]
    return true in [it["set"] for it in near if it["unsound"] == 0 and re.search(r"misfits 12$", it["groups"][0])]


def large(array, cache, folder):
    """The images of an array that is mostly filled, and its true set."""
    volume = f"{folder}/volume"
    try_arrays.run("cp", "--sparse=always", try_arrays.large_volume(array.kind, cache), volume)
    return try_arrays.make(array, cache, folder, DATA, volume)


def bad_area(name, first, count, byte=None):
    """Overwrites so many MiB of an image from one on, counted from the data's start, with one byte or with noise."""
    area = NOISE.randbytes(count << 20) if byte is None else bytes([byte]) * (count << 20)
    try_arrays.put(name, DATA + (first << 20) // SECTOR, area)


def left_out(true, images):
    """The true set without these images."""
    head, slots = true.rsplit(":", 1)
    return ":".join([head, ",".join("-" if slot in map(str, images) else slot for slot in slots.split(","))])


def areas_in_six(folder, cache):
    """Two of six images have bad areas, which no map tells: the set without them is among the best."""
    order, true = large(Array("6", 6, (), "btrfs"), cache, folder)
    bad_area(order[0], 40, 4, 0)
    bad_area(order[3], 70, 4)
    return left_out(true, (0, 3)) in best(search(order))


def areas_at_the_start(folder, cache):
    """The first MiB of two of six images are bad, and others: the set without them is among the best."""
    order, true = large(Array("6", 6, (), "ext4"), cache, folder)
    bad_area(order[1], 0, 3, 0)
    bad_area(order[1], 90, 2, 255)
    bad_area(order[4], 2, 4)
    return left_out(true, (1, 4)) in best(search(order))


def areas_in_four(folder, cache):
    """Two of four images have bad areas: the true set is among the best."""
    order, true = large(Array("5", 4, (), "xfs"), cache, folder)
    bad_area(order[0], 40, 4, 0)
    bad_area(order[2], 70, 4)
    return true in best(search(order))


def small_areas(name, areas):
    """Overwrites so many sectors of an image from each of these rows on with noise, or the first of them with zeros."""
    for place, (row, count) in enumerate(areas):
        try_arrays.put(name, DATA + row, NOISE.randbytes(count * SECTOR) if place else bytes(count * SECTOR))


def areas_one_lost(folder, cache):
    """Of six disks one is lost and two images have bad areas: the set without that whose start is bad is among the best."""
    order, true = large(Array("6", 6, (2,), "ext4"), cache, folder)
    small_areas(order[0], [(0, 300), (100000, 500), (200000, 200)])
    small_areas(order[3], [(30000, 400), (150000, 300)])
    return left_out(true, (0,)) in best(search(order))


def areas_in_ntfs(folder, cache):
    """Two of five images have bad areas, and file records are wrongly numbered: the set without them is among the best, and the true one is listed.
    That has no rating, since fewer files are whole in it."""
    order, true = large(Array("6", 5, (), "ntfs"), cache, folder)
    small_areas(order[0], [(9000, 300), (100000, 500), (200000, 200)])
    small_areas(order[2], [(30000, 400), (150000, 300)])
    events = search(order)
    return left_out(true, (0, 2)) in best(events) and true in listed(events)


def map_of(name, *bad):
    """Writes the map of an image in which these runs of sectors were not read: the first one and how many."""
    lines, at = ["0x0 +"], 0
    for first, count in bad:
        lines += [f"{at * SECTOR} {(first - at) * SECTOR} +", f"{first * SECTOR} {count * SECTOR} -"]
        at = first + count
    end = os.path.getsize(name) // SECTOR
    lines += [f"{at * SECTOR} {(end - at) * SECTOR} +"] if at < end else []
    pathlib.Path(f"{name}.map").write_text("\n".join(lines) + "\n")


def imaged_in_part(folder, cache):
    """One of five images was read up to seven tenths, as its map says, and made as long as the others since; two others have maps of small areas. The
    set without that image, or the true one, is among the best."""
    order, true = large(Array("5", 5, (), "ext4"), cache, folder)
    for name, first in ((order[0], 50000), (order[3], 90000)):
        try_arrays.put(name, first, bytes(96 * SECTOR))
        map_of(name, (first, 96))
    whole, part = os.path.getsize(order[2]), os.path.getsize(order[2]) // SECTOR * 7 // 10
    os.truncate(order[2], part * SECTOR)
    map_of(order[2])
    os.truncate(order[2], whole)
    return not {left_out(true, (2,)), true}.isdisjoint(best(search(order)))


def foreign_disk(folder, cache):
    """A disk with a table and an NTFS of its own, which has most of the marks and begins elsewhere: the true set is among the best."""
    order, true = try_arrays.make(Array("5", 4, (), "xfs"), cache, folder, 34816)
    name = f"{folder}/z.img"
    try_arrays.moved(try_arrays.plain_volume("ntfs", cache), name, DATA, 48)
    os.truncate(name, os.path.getsize(order[0]))
    try_arrays.gpt(name, SECTOR, DATA)
    return true in best(search([*order, name]))


CASES = (far, one_damaged, two_damaged, wrong_group, areas_in_six, areas_at_the_start, areas_in_four, areas_one_lost, areas_in_ntfs, imaged_in_part, foreign_disk)


def main():
    asking = argparse.ArgumentParser(description=__doc__, formatter_class=argparse.RawDescriptionHelpFormatter)
    asking.add_argument("--keep", metavar="DIR")
    asking.add_argument("cases", nargs="*")
    options = asking.parse_args()
    os.environ["PATH"] = os.pathsep.join([str(TOP / "crates/reraid/out"), str(TOP / "bin"), os.environ["PATH"], "/usr/sbin", "/sbin"])
    base = options.keep or tempfile.mkdtemp(prefix="reraid-near.")
    cache = f"{base}/volumes"
    os.makedirs(cache, exist_ok=True)
    try:
        try_arrays.tree(f"{cache}/tree")
        cases = [case for case in CASES if not options.cases or case.__name__ in options.cases]
        good = 0
        for case in cases:
            NOISE.seed(case.__name__)
            began = time.monotonic()
            with tempfile.TemporaryDirectory(dir=base) as folder:
                well = case(folder, cache)
            good += well
            print(f"{'as stated' if well else 'NOT AS STATED'}, {time.monotonic() - began:.0f} s: {case.__doc__}", flush=True)
        print(f"{good} of {len(cases)} are as stated")
        return 0 if good == len(cases) else 1
    finally:
        if not options.keep:
            shutil.rmtree(base)


if __name__ == "__main__":
    sys.exit(main())
