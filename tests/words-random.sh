#!/bin/sh
# Takes scenario files that oracle/scenarios.rs makes, good and damaged ones, and their traces, which the second program prints, and tells them in words
# with every awk that is here. For each file:
#   the words must come line by line as the trace does, what they say has beaten an exchange must have done so, and what they say of a thread
#   that waits at the end must be what the second program answers (tests/words/agree.awk); tools/rows.awk compares each row with what it
#   followed, and tools/explain.awk each answer
#   the refusal that tests/words/told.awk tells must be the trace's, and its words must be one line
#   why it is not tidy must be one line
#   and all awks must print the same
# usage: tests/words-random.sh [FAMILY=EVERY...]
#   FAMILY=EVERY   every EVERY-th file of a family, as `scenarios.rs` names them
# Its status is 0 where all is so. Files where it is not, up to twenty of each family, are kept in target/words. It needs rustc.
set -eu
cd "$(dirname "$0")/.."
export LC_ALL=C
[ $# -gt 0 ] || set -- marked=1 edges=2 damaged=97 pairs=499 plays=499 triples=599 short=199 long=299
command -v rustc >/dev/null || {
    echo "words-random: rustc is needed to build oracle/lock.rs and oracle/scenarios.rs" >&2
    exit 2
}
folder=target/words
rm -rf "$folder"
mkdir -p "$folder"
for name in lock scenarios; do rustc -O --edition 2021 "oracle/$name.rs" -o "$folder/$name"; done
# It reads a scenario and prints its trace where the words are right, so that a comparison with the trace tells.
cat >"$folder/words" <<'END_OF_WORDS'
#!/bin/sh
room=$(mktemp -d)
trap 'rm -rf "$room"' EXIT
cat >"$room/scenario"
target/words/lock run <"$room/scenario" >"$room/trace"
target/words/lock why <"$room/scenario" >"$room/why"
{ cat "$room/trace" && echo && cat "$room/why"; } >"$room/both"
od -An -v -tu1 "$room/scenario" | awk -f tests/words/told.awk >"$room/told"
fail() {
    echo "$1"
    exit
}
[ "$(head -n 1 "$room/told")" = "$(grep '^refused,' "$room/trace")" ] || fail "another refusal"
for awk in awk mawk gawk "gawk --posix" original-awk "busybox awk"; do
    command -v "${awk%% *}" >/dev/null || continue
    $awk -f tools/rows.awk -f tools/explain.awk "$room/scenario" "$room/both" >"$room/words" || fail "no words"
    $awk -f tools/rows.awk -f tools/untidy.awk "$room/scenario" "$room/trace" >"$room/untidy" || [ $? -eq 3 ] || fail "no line about tidy"
    [ ! -s "$room/told" ] || file=a.csv $awk -f tools/refused.awk <"$room/told" >"$room/refused" || fail "no line about the refusal"
    cat "$room/words" "$room/untidy" >"$room/now"
    [ ! -s "$room/told" ] || cat "$room/refused" >>"$room/now"
    [ -f "$room/first" ] || mv "$room/now" "$room/first"
    [ ! -f "$room/now" ] || cmp -s "$room/now" "$room/first" || fail "another awk"
done
awk -f tests/words/agree.awk "$room/trace" "$room/why" "$room/words" >&2 || fail "other words"
[ "$(grep -c '^trestlecat: refused 17: [a-z].*: [a-z]' "$room/untidy")" = "$(wc -l <"$room/untidy")" ] || fail "17"
[ ! -s "$room/told" ] || [ "$(grep -c '^trestlecat: refused [0-9]* at line [0-9]*, .*: [a-z]' "$room/refused")" = 1 ] || fail "its words"
cat "$room/trace"
END_OF_WORDS
chmod +x "$folder/words"
differ=0
printf '%-10s %9s %10s %8s %9s\n' family files rows refused different
for chosen in "$@"; do
    family=${chosen%=*}
    "$folder/scenarios" compare 2 "${chosen#*=}" "$family" "$folder" "$folder/lock" "$folder/words" >"$folder/report" || differ=1
    awk -v f="$family" '$1 == f { printf "%-10s %9s %10s %8s %9s\n", f, $2, $3, $4, $7 }' "$folder/report"
done
exit "$differ"
