#!/bin/sh
# Builds reraid without proving it, prints the first listing over three small image files, and says what it means. While the kit builds, a line
# now and then says for how long. What the kit itself says is shown only where it fails.
set -eu
cd "$(dirname "$0")/../../crates/reraid"
command -v rt >/dev/null || { echo "demo: there is no rt on the PATH: it is the command of the Rattle kit" >&2; exit 1; }
out=$(mktemp) log=$(mktemp)
pid=
trap 'rm -f "$out" "$log"' EXIT
trap '[ -z "$pid" ] || kill "$pid" 2>/dev/null; exit 130' INT TERM HUP

echo "builds reraid, without proving it: two to five minutes the first time, and seconds later"
rt try --data a=data/a --data b=data/b --data c=data/c -- list size=10 -- a b c <stdin >"$out" 2>"$log" &
pid=$!
seconds=0
while kill -0 "$pid" 2>/dev/null; do
    sleep 1
    seconds=$((seconds + 1))
    [ $((seconds % 20)) -ne 0 ] || echo "  builds for $seconds s"
done
wait "$pid" || { cat "$out" "$log" >&2; echo "demo: the kit could not build or run reraid" >&2; exit 1; }

echo "three images of two sectors, a, b and c, searched for a RAID 5 (the plan is crates/reraid/stdin):"
echo "  \$ reraid list size=10 -- a b c < plan"
grep -E '^([0-9]+ [0-9]:|next )' "$out" | sed 's/^/  /'
cat <<'END'
Each line is a set that passes: the level, the layout, the order of Q (none), the chunk and the offset in sectors, and the image in each slot.
All six orders of the disks are equally good here: each row of the three images sums up to zero in any order, and no file system on them says more.
On real disks the landmarks of file systems leave few orders, mostly one. README shows such a search: reraid-try *.img
END
