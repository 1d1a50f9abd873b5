#!/bin/sh
# Times `salvage` beside `write` of the same set, by the processor, least of eight runs in turns: four members of level 5 of random bytes,
# with nothing damaged, and with one sector in a hundred, one in ten and all of one member bad, at random; and `write` without that member.
# Usage: bench/measuring/salvage.sh [MEGABYTES] [FOLDER]
set -eu
bench=$(cd "$(dirname "$0")" && pwd)
. "$bench/folder.sh"

head -c "$((megabytes * 3))M" /dev/urandom >volume
python3 "$bench/../making/disks.py" 5 128 volume a b c d
: >maps0
python3 - b <<'END'
import os
import random
import sys

random.seed(5)
sectors = os.path.getsize(sys.argv[1]) // 512
for every in 100, 10, 1:
    bad = set(random.sample(range(2048, sectors), (sectors - 2048) // every))
    with open(f"maps{every}", "w", encoding="ascii") as maps:
        maps.write("map 1\n0x0 ? 1\n")
        first = 0
        for sector in range(1, sectors + 1):
            if sector == sectors or (sector in bad) != (first in bad):
                maps.write(f"{first * 512:#x} {(sector - first) * 512:#x} {'-' if first in bad else '+'}\n")
                first = sector
END
for every in 0 100 10 1; do
    "$program" salvage set=5:ls:none:128:2048:0,1,2,3 -- a b c d <maps$every | cmp -n "$((megabytes * 3145728))" - volume \
        || { echo "the volume differs" >&2; exit 1; }
done
uname -srm
sed -n 's/^model name[^:]*: //p' /proc/cpuinfo | head -n 1
echo "4 members of $megabytes MiB, chunks of 64 KiB, from the page cache"
python3 - "$program" <<'END'
import resource
import subprocess
import sys


def spent(source, *words):
    """The seconds of the processor of a run."""
    before = resource.getrusage(resource.RUSAGE_CHILDREN)
    with open(source, encoding="ascii") as text:
        subprocess.run([sys.argv[1], *words, "--", "a", "b", "c", "d"], stdin=text, stdout=subprocess.DEVNULL, check=True)
    after = resource.getrusage(resource.RUSAGE_CHILDREN)
    return after.ru_utime + after.ru_stime - before.ru_utime - before.ru_stime


SET = "set=5:ls:none:128:2048:"
RUNS = {"write": ("maps0", "write", SET + "0,1,2,3"), "write without the member": ("maps0", "write", SET + "0,-,2,3")}
for every, said in (0, "nothing damaged"), (100, "one sector in a hundred bad"), (10, "one in ten bad"), (1, "all of one member bad"):
    for form in "data", "lost":
        RUNS[f"{said}, form={form}"] = (f"maps{every}", "salvage", SET + "0,1,2,3", f"form={form}")
least = {}
for _ in range(8):
    for name, (source, *words) in RUNS.items():
        least[name] = min(least.get(name, 1e9), spent(source, *words))
for name, seconds in least.items():
    print(f"{name}: {seconds:.3f} s, 1:{seconds / least['write']:.1f}")
END
