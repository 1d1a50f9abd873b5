#!/bin/sh
# Times the classes of 1,024 sets of 24 members of level 6, in rows enough for every layout to repeat, best of five runs: sets
# that all differ, sets that are all alike, such with a delay, and sets of all patterns and orders of Q with two members lost.
# Of the last it also reads the most memory of a run. It needs Debian's package time.
# Usage: bench/measuring/classes.sh [0 FOLDER]
set -eu
. "$(dirname "$0")/folder.sh"

# sets KIND: 1,024 lines of a listing
sets() {
    python3 - "$1" <<'END'
import random
import sys

PATTERNS = "la ra ls rs parity-first parity-last n-restart n-continue la-6 ra-6 ls-6 rs-6 parity-first-6".split()
ORDERS = ["after-q", "by-data", "by-slot"]
rng = random.Random(24)
order = [str(image) for image in range(24)]
for rank in range(1024):
    pattern, syndrome, slots = "ls*16" if sys.argv[1] == "delayed" else "ls", ORDERS[rank % 2], list(order)
    if sys.argv[1] not in ("alike", "delayed"):
        rng.shuffle(slots)
    if sys.argv[1] == "lost":
        pattern, syndrome = rng.choice(PATTERNS), rng.choice(ORDERS)
        slots = [slot if int(slot) < 22 else "-" for slot in (slots if rank % 4 else order)]
    print(f"{rank} 6:{pattern}:{syndrome}:1:0:{','.join(slots)}")
END
}

uname -srm
sed -n 's/^model name[^:]*: //p' /proc/cpuinfo | head -n 1
for kind in apart alike delayed lost; do
    sets "$kind" >"$kind"
    awk -v n="$kind" -v t="$(best 5 "$kind" "$program" classes images=24 end=100000 --)" \
        -v l="$("$program" classes images=24 end=100000 -- <"$kind" | tail -n 1)" 'BEGIN {
        printf "1,024 sets of 24 members, %-7s: %.3f s (%s)\n", n, t / 1e9, l
    }'
done
/usr/bin/time -f "%M KiB at most" "$program" classes images=24 end=100000 -- <lost >classes
