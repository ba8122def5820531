#!/bin/sh
# Tries the edits in tests/across: each makes a function wrong in its body and its contract alike, so that its own crate is still
# proved. The crate that the edit names has a statement which cites that contract, and must refuse it. usage: tests/across.sh [EDIT...]
# A must-fail edit of the kit rechecks the crate that it edits, and no other; hence this. It takes some minutes, and is no part of the gate.
set -eu
cd "$(dirname "$0")/.."
. tests/lib.sh
[ $# -gt 0 ] || set -- tests/across/*.edit
room=$(mktemp -d)
trap 'rm -rf "$room"' EXIT
trap 'exit 2' HUP INT TERM
passed=0 failed=0

# proved CRATE: it is, and each library below it. What a check here has kept, in another copy too, need not be proved again.
proved() {
    (cd "$room/tree/crates/$1" && rt check)
}

# all_proved CRATE..
all_proved() {
    for crate; do proved "$crate" || return; done
}

# refused CRATE: the libraries below it are proved, and it is not
refused() {
    status=0
    proved "$1" >"$room/above" 2>&1 || status=$?
    [ "$status" -eq 1 ] && grep -q '^logic=not-proved' "$room/above" && ! grep -q '^rt: the library .* did not build' "$room/above"
}

for edit in "$@"; do
    label=$(basename "$edit" .edit)
    above=$(sed -n 's/^refused: //p' "$edit")
    below=$(sed -n 's|^file: crates/\([^/]*\)/.*|\1|p' "$edit" | sort -u)
    rm -rf "$room/tree" "$room/above"
    copied "$room/tree"
    cp "$edit" "$room/tree/edit"
    if (cd "$room/tree" && apply edit) >"$room/below" 2>&1 && all_proved $below >>"$room/below" 2>&1 && refused "$above"; then
        echo "$label: proved in $below, refused by $above"
        passed=$((passed + 1))
    else
        echo "$label: NOT as it should be (proved in $below, refused by $above)"
        cat "$room/below" "$room/above" 2>/dev/null | grep ': error\|not-proved\|did not build\|not once' | head -5
        failed=$((failed + 1))
    fi
done
echo "$passed passed, $failed failed"
[ "$failed" -eq 0 ]
