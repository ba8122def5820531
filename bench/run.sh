#!/bin/sh
# Measures the command run: a scenario file in, its trace out, through our program and through plain C, both built by the kit's
# compiler and run the same way, in one run. Both must print the same bytes.
# usage: bench/run.sh [ENTRIES...]   the default is 10^5 to 10^6 entries
set -eu
cd "$(dirname "$0")/.."
. bench/lib.sh
. bench/scenario.sh
[ $# -gt 0 ] || set -- 100000 200000 500000 1000000

# a line for each entry, and the header
whole() {
    [ "$(wc -l <target/bench/ours)" -eq $(($1 + 1)) ]
}

measure_all run "$@"
