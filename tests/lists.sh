#!/bin/sh
# Makes the replayed lists again with the programs in oracle/ and compares them with those in the crates, byte for byte. The gate does
# not run it, since it needs rustc. What each list touches, as its program tells it, is left in target/lists/NAME.touched.
# usage: tests/lists.sh [-w]   with -w a list that differs is written to its crate
# Its status is 0 where nothing differs.
set -eu
cd "$(dirname "$0")/.."
case $* in
'') write= ;;
-w) write=yes ;;
*)
    echo "usage: tests/lists.sh [-w]" >&2
    exit 2
    ;;
esac
command -v rustc >/dev/null || {
    echo "lists: rustc is needed to build the programs in oracle/" >&2
    exit 2
}
mkdir -p target/lists
differ=0

# build FILE NAME: the program that makes the list of the crate NAME
build() {
    rustc -O --edition 2021 "oracle/$1" -o "target/lists/$2.oracle"
}

# compare NAME: the list that was made with the one of the crate NAME
compare() {
    if cmp "target/lists/$1" "crates/$1/stdin"; then
        echo "$1: the same list, $(wc -c <"target/lists/$1") bytes"
        return
    fi
    differ=1
    [ -z "$write" ] || cp "target/lists/$1" "crates/$1/stdin"
}

for name in atomic_list cell_list; do
    build "$name.rs" "$name"
    "target/lists/$name.oracle" >"target/lists/$name" 2>"target/lists/$name.touched"
    compare "$name"
done
build lock.rs lock_list
target/lists/lock_list.oracle direct target/lists/lock_list 2>target/lists/lock_list.touched
compare lock_list
build scenarios.rs scenario_list
target/lists/scenario_list.oracle list target/lists/files target/lists/lock_list.oracle >target/lists/scenario_list
compare scenario_list
build vcd.rs vcd_list
target/lists/vcd_list.oracle list >target/lists/vcd_list 2>target/lists/vcd_list.touched
compare vcd_list
exit "$differ"
