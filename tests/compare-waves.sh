#!/bin/sh
# Compares the programs of `wave` and `unwave` with the second programs, byte for byte: wave on every scenario file that oracle/scenarios.rs makes,
# against oracle/lock.rs and oracle/vcd.rs in a row, the line of a refusal too; unwave on damaged waveforms that oracle/vcd.rs makes, and on files at its limits.
# usage: tests/compare-waves.sh [-f FAMILY] [-e EVERY] [-w WORKERS] [-s SEED] [-n FILES]
#   -f FAMILY    takes one family of scenario files only, as `scenarios.rs` names them (all)
#   -e EVERY     takes every EVERY-th file of each family only (1, which is 100,645 files)
#   -w WORKERS   so many files at a time (2)
#   -s SEED      other damaged waveforms for another number (1)
#   -n FILES     so many damaged waveforms (20000)
# Its status is 0 where nothing differs. Files on which the two differ, up to twenty of each kind, are kept in target/compare-waves.
set -eu
cd "$(dirname "$0")/.."
. tests/lib.sh
. tools/kit.sh
family=all every=1 workers=2 seed=1 files=20000
while getopts f:e:w:s:n: option; do
    case $option in
    f) family=$OPTARG ;;
    e) every=$OPTARG ;;
    w) workers=$OPTARG ;;
    s) seed=$OPTARG ;;
    n) files=$OPTARG ;;
    *) exit 2 ;;
    esac
done
fail() {
    echo "compare-waves: $1" >&2
    exit 2
}
command -v rustc >/dev/null || fail "rustc is needed to build the programs in oracle/"
wave=$(program program_wave) || exit 2
unwave=$(program program_unwave) || exit 2
folder=target/compare-waves
rm -rf "$folder"
mkdir -p "$folder"
for name in lock scenarios vcd; do rustc -O --edition 2021 "oracle/$name.rs" -o "$folder/$name"; done
# The second program for wave. It is started with the word run, as the one of tests/compare.sh. The line of a refusal goes behind the waveform.
cat >"$folder/second" <<END
#!/bin/sh
trace=\$(mktemp)
$folder/lock run >"\$trace"
$folder/vcd wave <"\$trace"
tail -n 1 "\$trace" | grep '^refused,'
rm "\$trace"
END
# Ours says it on standard error, after the waveform. What it tells of the refused line besides has no second.
cat >"$folder/ours" <<'END'
#!/bin/sh
"$@" 2>&1 | sed '/^read,/d'
END
chmod +x "$folder/second" "$folder/ours"
set -- "$kit/lib/ld-linux-x86-64.so.2" --library-path "$kit/lib"
differ=0
echo "wave, where rows are the lines of the waveform but one:"
"$folder/scenarios" compare "$workers" "$every" "$family" "$folder" "$folder/second" "$folder/ours" "$@" "$wave" || differ=1
echo "unwave:"
"$folder/vcd" compare "$workers" "$seed" "$files" "$folder" "$@" "$unwave" || differ=1
exit "$differ"
