#!/bin/sh
# Every public function of a library, and every method of a public trait: no `requires`, an equation for what it returns, and for each `&mut`
# parameter, `self` among them, an equation for what it holds at exit. Every conversion by `From`: an equation for what it gives.
# A clause is read where it stands in one line, and so is `from_gives = { λ why number. .. }`; another layout counts as none.
# usage: tests/contracts.sh [ROOT]
set -eu
root=${1:-$(dirname "$0")/..}

# without FILE..: the functions that lack one, a line each, and last how many functions there are
without() {
    awk '
    function lacks(what) { print FILENAME ": " name ": " what }
    # whether the clause, or a part of it, is an equation of what, whose other side names neither it nor anything at exit
    function equates(line, what,    start, at, other) {
        start = "< " what " ≡ "
        gsub(/[({] */, "&< ", line)
        gsub(/ (×|in) /, "&< ", line)
        at = index(line, start)
        if (!at) return 0
        other = substr(line, at + length(start))
        sub(/ × .*/, "", other)
        gsub(/< /, "", other)
        return other !~ /[.]new/ && !index(" " other " ", " " what " ")
    }
    # an equation of the result, of what it refers to where it is a reference
    function result_said(line) { return equates(line, "result") || equates(line, "result.now") }
    function at_exit(p,    i) {
        for (i = 1; i <= clauses; i++)
            if (equates(clause[i], p ".new")) return 1
        return 0
    }
    # whether a conversion gives one answer: `λ why number. number ≡ ..`, whose other side does not name the number
    function gives(line,    part, n) {
        sub(/^[^λ]*λ */, "", line)
        n = index(line, ".")
        if (!n || split(substr(line, 1, n - 1), part, " ") != 2) return 0
        line = substr(line, n + 1)
        sub(/ *} *;.*/, "", line)
        n = index(line, " " part[2] " ≡ ")
        return n == 1 && !index(" " substr(line, length(part[2]) + 5) " ", " " part[2] " ")
    }
    /^pub trait / { trait = 1 }
    /^impl(<[^>]*>)? From</ { converts = 1; given = 0; name = $0; sub(/ *\{$/, "", name) }
    converts && /^ *ghost from_gives / { given = gives($0) }
    /^}/ {
        if (converts) {
            conversions++
            if (!given) lacks("no equation for what it gives")
        }
        trait = converts = 0
    }
    /^ *pub fn / || (trait && /^ *fn /) { inside = 1; head = ""; said = 0; asks = 0; clauses = 0; begun = 0; name = $0; sub(/.*fn /, "", name); sub(/\(.*/, "", name) }
    inside && /^ *requires/ { asks = 1; begun = 1 }
    inside && /^ *ensures/ { begun = 1; if (result_said($0)) said = 1; clause[++clauses] = $0 }
    inside && !begun { head = head " " $0 }
    inside && (trait ? /(;|\{)$/ : /\{$/) {
        inside = 0
        if (trait) methods++
        else all++
        if (asks) lacks("a requires")
        if (head ~ /->/ && !said) lacks("no equation for what it returns")
        while (match(head, /[a-z0-9_]+: &(\047[a-z]+ )?mut|&(\047[a-z]+ )?mut self/)) {
            p = substr(head, RSTART, RLENGTH)
            head = substr(head, RSTART + RLENGTH)
            if (!sub(/:.*/, "", p)) p = "self"
            if (!at_exit(p)) lacks("no equation for " p " at exit")
        }
    }
    END { print all + 0, methods + 0, conversions + 0 }' "$@"
}

room=$(mktemp -d)
trap 'rm -rf "$room"' EXIT
set --
for file in "$root"/crates/*/src/*.rt; do
    [ "$(basename "$file")" = main.rt ] || set -- "$@" "$file"
done
without "$@" >"$room/all"
# What standard input gives is in nobody's hand: of the one function that reads it two equations are missing, and no other.
read=/crates/program_intake/src/lib.rt:\ read_chunk:
grep -v -e "$read no equation for what it returns" -e "$read no equation for chunk at exit" "$room/all" >"$room/found"
if [ "$(wc -l <"$room/found")" -ne 1 ]; then
    echo "contracts: these public functions do not name one answer for every input:" >&2
    sed '$d' "$room/found" >&2
    exit 1
fi

# functions that are wrong on purpose are found, one for each thing that is asked
cat >"$room/wrong.rt" <<'END'
pub fn asks(x: u64) -> u64
    requires { x < 10 }
    ensures { result ≡ x }
{
pub fn bounds(x: u64) -> u64
    ensures { result ≤ x }
{
pub fn bare(x: u64) -> u64 {
pub fn itself(x: u64) -> u64
    ensures { result ≡ result }
{
pub fn leaves(
    x: u64,
    list: &mut [u64],
) -> u64
    ensures value { result ≡ x }
    ensures list_after { length list.new ≡ length list.old }
{
pub fn alike(a: &mut [u64], b: &mut [u64])
    ensures a_after { a.new ≡ a.old }
    ensures b_after { b.new ≡ a.new }
{
pub fn of_self(&mut self, x: u64) -> u64
    ensures value { result ≡ x }
{
pub trait Wrong: Copy {
    fn asks(self) -> u64
        ensures { result ≤ 43 };
}
impl From<Wrong> for u64 {
    ghost from_gives = { λ why n. n ≤ 43 };
}
impl From<Bare> for u64 {
    fn from(why: Bare) -> u64 {
    }
}
impl From<Itself> for u64 {
    ghost from_gives = { λ why n. n ≡ n };
}
END
[ "$(without "$room/wrong.rt" | wc -l)" -eq 12 ] || { echo "contracts: a wrong contract is not seen" >&2; exit 1; }
set -- $(cat "$room/found")
echo "contracts: $1 public functions, $2 methods of public traits and $3 conversions, each with an equation for its result and for every lent list, but for the one that reads standard input; 11 wrong ones seen"
