#!/bin/sh
# Measures the waveform: a scenario file in, the waveform of its trace out, through our program and through plain C, both built by the
# kit's compiler and run the same way, in one run. Both must print the same bytes.
# usage: bench/wave.sh [ENTRIES...]   the default is 10^5 to 10^6 entries
set -eu
cd "$(dirname "$0")/.."
. bench/lib.sh
. bench/scenario.sh
[ $# -gt 0 ] || set -- 100000 200000 500000 1000000

# the last time is that of the last entry
whole() {
    [ "$(grep '^#' target/bench/ours | tail -n 1)" = "#$1" ]
}

measure_all wave "$@"
