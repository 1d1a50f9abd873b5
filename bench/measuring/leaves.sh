#!/bin/sh
# Times walks over slot lists of which every prefix is admitted, and prints the nanoseconds a leaf. A figure is the best of nine
# runs, start of the program included. Where the machine is busy, the processor's time tells more: it is the second figure.
# Usage: bench/measuring/leaves.sh
set -eu
cd "$(dirname "$0")/../../crates/bench_walk"
rt run -- 3 3 0 6 >/dev/null 2>&1 || { echo "bench_walk was not built: see rt run there" >&2; exit 1; }
program=out/bench_walk

uname -srm
sed -n 's/^model name[^:]*: //p' /proc/cpuinfo | head -n 1
rt version
printf '%-34s %10s %12s %12s\n' 'lists' leaves 'ns a leaf' 'cpu ns'
# images, members, the most empty places, ranks
for lists in "10 10 0 3628800" "12 12 0 4000000" "12 12 1 4000000" "12 11 0 4000000" "24 24 0 4000000"; do
    set -- $lists
    python3 - "$program" "$@" <<'PYTHON'
import resource, subprocess, sys, time
program, images, members, empty, ranks = sys.argv[1:]
wall, used = [], []
for _ in range(9):
    before, begin = resource.getrusage(resource.RUSAGE_CHILDREN), time.monotonic()
    out = subprocess.run([program, images, members, empty, ranks], capture_output=True, check=True, text=True).stdout
    after = resource.getrusage(resource.RUSAGE_CHILDREN)
    wall.append(time.monotonic() - begin)
    used.append(after.ru_utime - before.ru_utime)
leaves = int(out.split()[0])
name = f"{members} of {images} images" + (f", {empty} may be missing" if empty != "0" else "")
print(f"{name:34} {leaves:10d} {min(wall) / leaves * 1e9:12.1f} {min(used) / leaves * 1e9:12.1f}")
PYTHON
done
