#!/bin/sh
# Shows that memory does not grow with the input: scenarios of so many bytes, a run line an entry, go through a pipe into our programs of run and
# wave and into those in plain C, and the most memory that each held is printed. The input is made as it is read and stored nowhere.
# That is VmHWM of /proc, taken when all but the end was read.
# usage: bench/memory.sh [BYTES...]   the default is 10^6 and 10^8 bytes
set -eu
cd "$(dirname "$0")/.."
. bench/lib.sh
. bench/scenario.sh
[ $# -gt 0 ] || set -- 1000000 100000000
sizes=$*
[ -r /proc/self/status ] || fail "no /proc, which tells the memory"
set -- "$kit/lib/ld-linux-x86-64.so.2" --library-path "$kit/lib"
room=target/bench/memory
rm -rf "$room"
mkdir -p "$room"
mkfifo "$room/in" "$room/out"
opening=$(scenario short 3 | wc -c)
line=$(($(scenario short 4 | wc -c) - opening))

# rows_in NAME: the number of rows, by the last line that was printed: the trace counts rows from 0, and the waveform ends at the last time
rows_in() {
    case $1 in
    run) awk -F, '{ print $1 + 1 }' "$room/last" ;;
    wave) sed 's/^#//' "$room/last" ;;
    esac
}

# peak NAME ENTRIES COMMAND..: in KB
peak() {
    name=$1 entries=$2
    shift 2
    tail -n 1 <"$room/out" >"$room/last" &
    last=$!
    "$@" <"$room/in" >"$room/out" &
    program=$!
    exec 3>"$room/in"
    scenario short "$entries" >&3
    # The end is held back, so that the program is there when it is asked. What the pipe still holds is read meanwhile.
    sleep 1
    awk '$1 == "VmHWM:" { print $2 }' "/proc/$program/status" >"$room/peak"
    exec 3>&-
    wait "$program" || fail "$name ended with a failure"
    wait "$last"
    [ "$(rows_in "$name")" = "$entries" ] || fail "not a row for each entry of $name"
    cat "$room/peak"
}

echo "the most memory held:"
printf '%8s %12s %10s %10s %10s\n' program bytes entries "ours KB" "C KB"
for name in run wave; do
    build "program_$name"
    build_c "bench/$name.c" "target/bench/$name"
    for bytes in $sizes; do
        entries=$((3 + (bytes - opening) / line))
        ours=$(peak "$name" "$entries" "$@" "crates/program_$name/out/program_$name")
        theirs=$(peak "$name" "$entries" "$@" "target/bench/$name")
        printf '%8s %12d %10d %10d %10d\n' "$name" $((opening + (entries - 3) * line)) "$entries" "$ours" "$theirs"
    done
done
