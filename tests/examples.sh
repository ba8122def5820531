#!/bin/sh
# Runs every example through the command. The trace must be its .out file, the waveform its .vcd file, the trace in words its .words file, why its
# threads wait its .why file and the trace of a drain its .drain file, byte for byte; the signals that are read in the waveform must be those of the
# trace; and the status 1 exactly if the trace ends refused, whose last line wave says on standard error, first.
set -u
cd "$(dirname "$0")/.." || exit 2
. tests/lib.sh
room=$(mktemp -d)
trap 'rm -rf "$room"' EXIT
passed=0 failed=0
built

# expect STATUS FILE COMMAND SCENARIO: what the command prints is the file
expect() {
    ./trestlecat "$3" "$4" >"$room/out" 2>"$room/err"
    got=$?
    if [ "$got" -eq "$1" ] && cmp "$room/out" "$2"; then
        passed=$((passed + 1))
    else
        echo "$3 $4: the status is $got and should be $1; what it prints should be $2"
        failed=$((failed + 1))
    fi
}

# says LINE COMMAND SCENARIO: that is the first line that it said on standard error, or nothing
says() {
    if [ "$1" = "$(head -n 1 "$room/err")" ]; then
        passed=$((passed + 1))
    else
        echo "$2 $3: on standard error it says '$(cat "$room/err")' and should begin with '$1'"
        failed=$((failed + 1))
    fi
}

for scenario in examples/*.csv; do
    name=${scenario%.csv}
    case $(tail -n 1 "$name.out") in
    refused,*) status=1 ;;
    *) status=0 ;;
    esac
    expect "$status" "$name.out" run "$scenario"
    expect "$status" "$name.vcd" wave "$scenario"
    says "$(tail -n 1 "$name.out" | grep '^refused,')" wave "$scenario"
    expect "$status" "$name.words" explain "$scenario"
    expect "$status" "$name.why" why "$scenario"
    [ ! -f "$name.drain" ] || expect "$status" "$name.drain" drain "$scenario"
    signals <"$name.out" >"$room/signals"
    expect 0 "$room/signals" unwave "$name.vcd"
done
echo "$passed passed, $failed failed"
[ "$failed" -eq 0 ] && [ "$passed" -gt 0 ]
