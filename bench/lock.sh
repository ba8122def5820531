#!/bin/sh
# Measures the lock: entries a second of our code and of plain C, both built by the kit's compiler and run the same way, in one run.
# usage: bench/lock.sh [ROUNDS...]   a round is 4,000 entries; the default is 25 to 250 and 2500 rounds, 10^5 to 10^7 entries
set -eu
cd "$(dirname "$0")/.."
. bench/lib.sh
[ $# -gt 0 ] || set -- 25 50 100 250 2500
build lock_bench
build_c bench/lock.c target/bench/lock
printf '%10s %12s %12s %8s %16s\n' entries "ours s" "C s" ratio "ours entries/s"
for rounds in "$@"; do
    head -c "$rounds" /dev/zero >target/bench/rounds
    race crates/lock_bench/out/lock_bench target/bench/lock target/bench/rounds |
        awk -v e=$((rounds * 4000 + 3)) '{ printf "%10d %12.4f %12.4f %8.2f %16.0f\n", e, $1, $2, $1 / $2, e / $1 }'
done
