#!/bin/sh
# Times each kernel of lane_kernels beside the plain loop of its formula, over lists of 4,096 bytes, and prints for each
# the nanoseconds a list and the gigabytes a second. A figure is the best of nine runs, start of the program included.
# The plain loop is compiled by the same compiler, which may put it on vectors by itself.
# Usage: bench/measuring/kernels.sh [ROUNDS]
set -eu
rounds=${1:-200000}
cd "$(dirname "$0")/../../crates/bench_kernels"
rt run -- xor_into lanes 1 >/dev/null 2>&1 || { echo "bench_kernels was not built: see rt run there" >&2; exit 1; }
program=out/bench_kernels

# best KERNEL WAY: the least nanoseconds of nine runs
best() {
    least=
    for _ in 1 2 3 4 5 6 7 8 9; do
        begin=$(date +%s%N)
        "$program" "$1" "$2" "$rounds" >/dev/null
        took=$(($(date +%s%N) - begin))
        if [ -z "$least" ] || [ "$took" -lt "$least" ]; then least=$took; fi
    done
    echo "$least"
}

uname -srm
sed -n 's/^model name[^:]*: //p' /proc/cpuinfo | head -n 1
rt version
printf '%-14s %14s %14s %11s %11s %6s\n' kernel 'lanes ns/list' 'plain ns/list' 'lanes GB/s' 'plain GB/s' ratio
for kernel in xor_into double_xor scale_xor scale weigh first_nonzero; do
    if [ "$("$program" "$kernel" lanes 1000)" != "$("$program" "$kernel" plain 1000)" ]; then
        echo "$kernel: the two ways leave different bytes" >&2
        exit 1
    fi
    lanes=$(best "$kernel" lanes)
    plain=$(best "$kernel" plain)
    awk -v k="$kernel" -v l="$lanes" -v p="$plain" -v r="$rounds" 'BEGIN {
        printf "%-14s %14.1f %14.1f %11.2f %11.2f %6.1f\n", k, l / r, p / r, 4096 * r / l, 4096 * r / p, p / l
    }'
done
