#!/bin/sh
# Reads the waveform of every example with GTKWave's own programs: vcd2fst stores it in their format, fst2vcd writes it again, and both signals
# at every time must be those of the trace's rows. What `./trestlecat unwave` reads in the waveform must be the same.
# usage: tests/viewers.sh [install]   with install what is missing is installed by apt-get first, which needs its rights
set -u
cd "$(dirname "$0")/.." || exit 2
. tests/lib.sh

missing() {
    for tool in vcd2fst fst2vcd python3; do
        command -v "$tool" >/dev/null || echo "$tool"
    done
}

case $* in
'') ;;
install) [ -z "$(missing)" ] || ! command -v apt-get >/dev/null || apt-get install -y gtkwave python3 || exit 2 ;;
*)
    echo "usage: tests/viewers.sh [install]" >&2
    exit 2
    ;;
esac
[ -z "$(missing)" ] || {
    echo "viewers: not found:" $(missing) "- install them with 'apt-get install gtkwave python3', or by 'tests/viewers.sh install'" >&2
    exit 2
}
room=$(mktemp -d)
trap 'rm -rf "$room"' EXIT
passed=0 failed=0

# try SCENARIO: the signals of its trace, of its waveform through the viewer's format, and of its waveform as unwave reads it
try() {
    ./trestlecat run "$1" | signals >"$room/rows"
    ./trestlecat wave "$1" >"$room/ours.vcd" 2>"$room/err"
    vcd2fst "$room/ours.vcd" "$room/stored.fst" >"$room/err" 2>&1 && fst2vcd "$room/stored.fst" >"$room/again.vcd" 2>"$room/err" || return 1
    tests/signals.py <"$room/again.vcd" >"$room/viewed" && cmp "$room/viewed" "$room/rows" || return 1
    ./trestlecat unwave "$room/ours.vcd" >"$room/read" && cmp "$room/read" "$room/rows"
}

for scenario in examples/*.csv; do
    if try "$scenario"; then
        passed=$((passed + 1))
    else
        echo "$scenario: the signals that come back should be those of its rows; the last message is: $(tail -n 1 "$room/err")"
        failed=$((failed + 1))
    fi
done
echo "$passed passed, $failed failed"
[ "$failed" -eq 0 ] && [ "$passed" -gt 0 ]
