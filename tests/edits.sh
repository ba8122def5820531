#!/bin/sh
# The must-fail edits: wrong answers, each with what it makes wrong in its first line. Those in crates/NAME/must-fail are tried by the gate, those
# in must-fail-more by tests/more-edits.sh, those in tests/across by tests/across.sh.
# usage: tests/edits.sh            shows that every edit still applies: each old text stands once in its file
#        tests/edits.sh -l [NAME]  prints them, all or those of the crate NAME, with where they are tried
set -eu
cd "$(dirname "$0")/.."

# list FILE...: a line for each edit
list() {
    awk '
    FNR == 1 {
        n = split(FILENAME, part, "/")
        label = part[n]
        sub(/\.edit$/, "", label)
        where = FILENAME ~ /must-fail-more/ ? "beside" : FILENAME ~ /^crates/ ? "gate" : "across"
        crate = where == "across" ? "" : part[2] "/"
        says = $0
        sub(/^#* */, "", says)
        printf "%-6s %s: %s\n", where, crate label, says
    }' "$@"
}

# applied FILE...: what does not apply, a line each; then how many edits there are in the gate, beside it and across crates
applied() {
    awk '
    function bad(why) { print FILENAME ": " why; wrong = 1 }
    # the text of a file, as the pairs before have left it
    function text(name,    line) {
        if (name in whole) return whole[name]
        if (!(name in stored)) {
            stored[name] = ""
            while ((getline line < name) > 0) stored[name] = stored[name] line "\n"
            close(name)
        }
        return stored[name]
    }
    function ended() {
        if (edits && !pairs) print last ": it has no old: and new: pair"
        if (pairs && !changes && !wrong) print last ": it changes nothing"
    }
    FNR == 1 {
        ended()
        split("", whole)
        edits++
        pairs = changes = wrong = 0
        file = old = ""
        last = FILENAME
        root = FILENAME
        # the files of an edit across crates are named from here
        if (!sub(/must-fail.*/, "", root)) { root = ""; across++ }
        else if (FILENAME ~ /must-fail-more/) beside++
        else gate++
    }
    /^file: / { file = root substr($0, 7) }
    /^old: / { old = substr($0, 6) }
    /^new:/ && !wrong {
        new = substr($0, 5)
        sub(/^ /, "", new)
        inside = root == "" || (file !~ /\/\.\.\// && substr(file, length(root) + 1) ~ /^(src|specs|proofs)\//)
        before = inside ? text(file) : ""
        at = index(before, old)
        if (!inside) bad("not in src/, specs/ or proofs/ of its crate: " file)
        else if (before == "") bad("no file " file)
        else if (old == "" || !at) bad("not in " file ": " old)
        else {
            rest = substr(before, at + length(old))
            if (index(rest, old)) bad("more than once in " file ": " old)
            if (old != new) changes = 1
            whole[file] = substr(before, 1, at - 1) new rest
        }
        old = ""
        pairs++
    }
    END { ended(); print gate + 0, beside + 0, across + 0 }' "$@"
}

case ${1-} in
'') ;;
-l)
    case ${2-} in
    '') list crates/*/must-fail*/*.edit tests/across/*.edit ;;
    *)
        name=$2
        set -- "crates/$name"/must-fail*/*.edit
        [ -f "$1" ] || { echo "edits: there are none of a crate $name: 'ls crates' has the names" >&2; exit 1; }
        list "$@"
        ;;
    esac
    exit
    ;;
*)
    echo "usage: tests/edits.sh [-l [NAME]]" >&2
    exit 2
    ;;
esac
set -- crates/*/must-fail*/*.edit tests/across/*.edit
all=$#
found=$(LC_ALL=C applied "$@")
counts=$(printf '%s\n' "$found" | tail -n 1)
if [ "$counts" != "$found" ]; then
    echo "edits: these do not apply any more:" >&2
    printf '%s\n' "$found" | sed '$d' >&2
    exit 1
fi
set -- $counts
# a file of no lines is seen by nobody
[ $(($1 + $2 + $3)) -eq "$all" ] || { echo "edits: of $all files some are empty: $(find crates tests -name '*.edit' -size 0)" >&2; exit 1; }
echo "edits: $1 in the gate, $2 beside it, $3 across crates; each applies"
