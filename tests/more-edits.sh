#!/bin/sh
# Tries the must-fail edits that the gate leaves out for the time that they take, those in crates/*/must-fail-more, by `rt must-fail` in a copy of the
# crates: over what was checked before, which takes seconds for each where the gate's check takes up to a minute; and what nothing has changed of
# is not tried again.
# usage: tests/more-edits.sh [-a] [-j JOBS] [CRATE...]   the default is every crate that has such edits
#   -a        the edits that the gate tries too
#   -j JOBS   so many at a time (as many as there are processors and memory)
# What rt says of each is printed and left in target/more-edits. Its last line is 'N passed, M failed'.
set -eu
cd "$(dirname "$0")/.."
. tests/lib.sh
folders=must-fail-more
while getopts aj: option; do
    case $option in
    a) folders='must-fail must-fail-more' ;;
    j) export RT_JOBS="$OPTARG" ;;
    *) exit 2 ;;
    esac
done
shift $((OPTIND - 1))
tests/edits.sh
[ $# -gt 0 ] || set -- $(for f in $folders; do for d in crates/*/"$f"; do [ ! -d "$d" ] || basename "$(dirname "$d")"; done; done | sort -u)
room=$(mktemp -d)
trap 'rm -rf "$room"' EXIT
trap 'exit 2' HUP INT TERM
mkdir -p target
copied "$room"
due=0
for crate in "$@"; do
    mkdir "$room/edits"
    for folder in $folders; do
        for edit in "crates/$crate/$folder"/*.edit; do
            [ -f "$edit" ] || continue
            cp "$edit" "$room/edits"
            due=$((due + 1))
        done
    done
    rm -rf "$room/crates/$crate/must-fail"
    mv "$room/edits" "$room/crates/$crate/must-fail"
done
[ "$due" -gt 0 ] || { echo "more-edits: no edits to try: -a takes those of the gate too" >&2; exit 1; }
# A crate that is not proved as it is would refuse every edit. What this keeps the edits begin with.
for crate in "$@"; do
    (cd "crates/$crate" && rt check) >target/more-edits 2>&1 || { tail -n 3 target/more-edits >&2; echo "more-edits: $crate is not proved: run rt check in crates/$crate" >&2; exit 1; }
done
(cd "$room" && rt must-fail "$@" 2>&1) | LC_ALL=C tee target/more-edits || true
passed=$(grep -c '^rt: must-fail .*: refused, as it must be' target/more-edits) || true
echo "$passed passed, $((due - passed)) failed"
[ "$passed" -eq "$due" ]
