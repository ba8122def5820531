#!/bin/sh
# What no contract says: that an entry makes its one access by the atomic or the cell, and uses neither flag nor count nor cell beside it.
# The functions of the table and of `lock_access` are listed with their calls, and with how often each names the flag, the count or the cell, and
# compared with the table of the rules (docs/RULES.md, section 5). A value goes from the lock into the access, by itself or through a local
# of its own name; whatever else is made of it is what the access answered. No other file of `lock`, and none of the crates that it calls
# beside `lock_access`, may make such a call.
# usage: tests/one-access.sh [ROOT]
set -eu
root=${1:-$(dirname "$0")/..}
room=$(mktemp -d)
trap 'rm -rf "$room"' EXIT

# calls FILE: a line for each function, those of an `impl` too, with its calls; then how often it names one of the three, if it does. The operations
# of `atomic_access` are those that `atomic_u64` and `atomic_bool` have at their width, so a call of one is an access too.
calls() {
    awk '
    !body && /^ *(pub(\([a-z ]+\))? )?((const|unsafe) )*fn / {
        name = $0
        sub(/.*fn /, "", name)
        sub(/[(<].*/, "", name)
        match($0, /^ */)
        margin = RLENGTH
        head = 1
        clauses = 0
    }
    head && /^ *(requires|ensures)/ { clauses = 1 }
    head && (clauses ? /^ *\{$/ : /\{$/) { head = 0; body = 1; made = ""; reads = 0; next }
    body && /^ *\}$/ && match($0, /^ */) && RLENGTH == margin { print name ":" made (reads ? " " reads : ""); body = 0; next }
    body {
        line = $0
        sub(/\/\/.*/, "", line)
        reads += gsub(/(^|[^a-z_])(exc|rc|cell)([^a-z_]|$)/, "&", line)
        while (match(line, /(lock_access|atomic_access|atomic_u64|atomic_bool|value)::[a-z_]+(::<[^(]*>)?\(/)) {
            made = made " " substr(line, RSTART, RLENGTH - 1)
            line = substr(line, RSTART + RLENGTH)
        }
    }' "$1"
}

# differs ROOT: what is not as it should be, in lines
differs() {
    cat >"$room/right" <<'END'
act:
at_idle:
at_reading:
at_take:
at_writing:
load_rc: lock_access::load_count 1
try_rc: lock_access::exchange_count 2
load_exc: lock_access::load_flag 1
give_back: lock_access::lower_count 2
lend: lock_access::borrow_cell 1
release: lock_access::lower_count 2
drop_read:
try_exc: lock_access::raise_flag 2
wait_rc: lock_access::load_count 1
take: lock_access::take_cell 2
take_last: lock_access::take_cell 2
put: lock_access::put_cell 2
store: lock_access::clear_flag 2
drop_write:
next:
does:
load_count: atomic_u64::load 1
exchange_count: atomic_u64::compare_exchange 1
lower_count: atomic_u64::fetch_sub 1
load_flag: atomic_bool::load 1
raise_flag: atomic_bool::compare_exchange 1
clear_flag: atomic_bool::store 1
borrow_cell: value::borrow 1
take_cell: value::take 1
put_cell: value::put 1
perm:
cell_perm:
told:
cell_told: 3
END
    {
        calls "$1/crates/lock/src/table.rt"
        calls "$1/crates/lock_access/src/lib.rt"
    } >"$room/found"
    diff "$room/right" "$room/found" || true
    # `kept` tells what is in a cell, for the test of soundness, and is no access
    for crate in lock lock_words lock_scripts lock_sound lock_tidy; do
        for file in "$1"/crates/$crate/src/*.rt; do
            [ "$file" = "$1/crates/lock/src/table.rt" ] || calls "$file" | sed 's/ value::kept//' | grep '::' || true
        done
    done
}

# wrong FILE OLD NEW: a wrong program is seen to be one
wrong() {
    rm -rf "$room/copy"
    for crate in lock_access lock lock_words lock_scripts lock_sound lock_tidy; do
        mkdir -p "$room/copy/crates/$crate"
        cp -r "$root/crates/$crate/src" "$room/copy/crates/$crate"
    done
    sed "s/$2/$3/" "$root/crates/$1" >"$room/copy/crates/$1"
    [ -n "$(differs "$room/copy")" ] || { echo "not seen: in $1 '$3' instead of '$2'"; exit 1; }
}

found=$(differs "$root")
if [ -n "$found" ]; then
    echo "one-access: these are not the accesses of the table ('<' is right, '>' was found):" >&2
    echo "$found" >&2
    exit 1
fi
wrong lock/src/table.rt 'lock_access::borrow_cell(lock\.cell)' 'OnCell { got: value_of(lock.cell), left: lock.cell }'
wrong lock/src/table.rt 'let x = lock_access::load_flag(lock.exc);' 'let x = lock_access::load_flag(lock.exc); lock_access::load_count(lock.rc);'
wrong lock/src/table.rt 'if x\.old {' 'if lock.exc {'
wrong lock/src/table.rt 'let old = lock_access::load_count(lock\.rc)\.old;' 'let old = lock.rc;'
wrong lock_access/src/lib.rt 'cell_told(value::borrow(CELL, cell_perm(CELL, cell)))' 'value::borrow(CELL, cell_perm(CELL, cell)); OnCell { got: value_of(cell), left: cell }'
wrong lock_access/src/lib.rt 'atomic_u64::fetch_sub(' 'atomic_u64::swap('
wrong lock/src/entry.rt 'lock\.finished ||' 'lock_access::load_flag(lock.exc).old ||'
wrong lock_words/src/lib.rt 'mover == Some(i)' 'value::take(CELL, perm); mover == Some(i)'
wrong lock_access/src/lib.rt 'told(atomic_u64::load(COUNT, perm(COUNT, rc)), Count(0))' 'told(atomic_u64::load(COUNT, atomic_access::load(COUNT, perm(COUNT, rc)).perm), Count(0))'
wrong lock_access/src/lib.rt 'told(atomic_u64::load(COUNT, perm(COUNT, rc)), Count(0))' 'told(atomic_access::load::<Count>(COUNT, perm(COUNT, rc)), Count(0))'
wrong lock_words/src/lib.rt 'mover == Some(i)' 'atomic_access::load::<Count>(COUNT, perm); mover == Some(i)/; s/pub fn begun/pub const fn begun'
wrong lock_words/src/names.rt 'number: u64::from(why),' 'number: value::take(CELL, perm).answer,'
echo "one-access: the 12 accesses of the table, each made once; 12 wrong programs seen"
