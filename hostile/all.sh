#!/bin/bash
# Runs all of this folder over the built programs, one script after another, each with its log in a folder, and prints the last line of each, and of
# one that was not as stated the lines that say what failed, ten at most.
# Status 1 where one was not as stated. What a script needs stands at its top; as root, nbd.sh needs it.
# Usage: hostile/all.sh [CASES [LOGS]]: so many cases of each command beside the reference, 2000 if not given; a folder for the logs. With fewer than
# 100 cases bad sectors are tried in two patterns alone, and a server by few clients: so the whole takes minutes, and shows that all can be run.
set -u
here=$(cd "$(dirname "$0")" && pwd)
top=$here/..
cases=${1:-2000}
program=$top/crates/reraid/out/reraid server=$top/crates/reraid_nbd/out/reraid_nbd
for name in "$program" "$server"; do
    [ -x "$name" ] || { echo "all.sh: there is no $name: see make build" >&2; exit 2; }
done
logs=${2:-$(mktemp -d)} failed=0
patterns=() clients=()
[ "$cases" -ge 100 ] || { patterns=(1 la,n-restart) && clients=(reads=20 dialogues=20); }
mkdir -p "$logs"

# run NAME COMMAND..: its last line, after how long it took
run() {
    local name=$1 from=$SECONDS status
    shift
    "$@" >"$logs/$name" 2>&1
    status=$?
    [ $status = 0 ] || failed=$((failed + 1))
    echo "$([ $status = 0 ] && echo ok || echo FAILED) $name, $((SECONDS - from)) s: $(tail -n 1 "$logs/$name")"
    [ $status = 0 ] || grep -E -m 10 '^(FAILED|Traceback)| differs: see | DIFFERS' "$logs/$name" | cut -c 1-300 | sed 's/^/    /'
}

run surroundings "$here/surroundings.sh" "$program"
run fail_alloc "$here/fail_alloc.sh" "$program"
run rows python3 "$here/differential/rows.py"
run differential python3 "$here/differential/run.py" "$program" --cases "$cases" --keep "$logs/differences"
run damaged python3 "$top/hostile/damaged.py" "${patterns[@]}"
run long_images "$here/long_images.py" "$program"
run md_copies "$here/md_copies.py" "$program"
run traps "$here/traps.py" "$program"
run nbd "$here/nbd.sh" "$program" "$server" "${clients[@]}"
run sockets "$here/sockets.sh" "$program" "$server"
run progress "$here/progress.sh" "$program" "$server"
run copies "$here/copies.sh" "$program" "$server"
run containers "$here/containers.py"
run newcomer "$here/newcomer.sh" "$program" "$server"
run casefile "$here/casefile.py"
run package "$here/package.py" --all
run chroot "$here/chroot.sh"
echo "logs are in $logs"
exit $((failed > 0))
