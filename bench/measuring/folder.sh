# For the scripts beside it: the size that is asked for, the proved program, a folder that is gone at the end, entered, and
# the time of the best of some runs.
# Usage of such a script: SCRIPT [MEGABYTES] [FOLDER]
megabytes=${1:-256}
program=$(cd "$(dirname "$0")/../../crates/reraid/out" && pwd)/reraid
[ -x "$program" ] || { echo "there is no $program: see make build" >&2; exit 1; }
folder=$(mktemp -d "${2:-${TMPDIR:-/tmp}}/reraid-bench.XXXXXX")
trap 'rm -rf "$folder"' EXIT
cd "$folder"

# best RUNS INPUT COMMAND..: the least nanoseconds of so many runs over that input
best() {
    runs=$1
    input=$2
    shift 2
    least=
    while [ "$runs" -gt 0 ]; do
        begin=$(date +%s%N)
        "$@" <"$input" >/dev/null
        took=$(($(date +%s%N) - begin))
        if [ -z "$least" ] || [ "$took" -lt "$least" ]; then least=$took; fi
        runs=$((runs - 1))
    done
    echo "$least"
}
