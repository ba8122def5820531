#!/bin/sh
# Tests what is told in words, whole lines, with every awk that is here:
#   tests/words/refused.txt   each cause of a refusal: the file and the line that must come; where that names a command, the command must mend the file
#   examples, tests/words/rows-*.csv    each trace (.out), with why threads wait behind it (.why), in words (.words)
#   tests/words/untidy-*.csv            why the state at the end of the trace (.out) is not tidy (.says)
# usage: tests/words.sh [-s]
#   -s   without the programs: what a program tells of a refusal comes from tests/words/told.awk alone, and ./trestlecat is not started
set -u
cd "$(dirname "$0")/.." || exit 2
export LC_ALL=C
root=$PWD
programs=yes
[ "${1-}" != -s ] || programs=
room=$(mktemp -d)
mkdir "$room/mend"
trap 'rm -rf "$room"' EXIT
passed=0 failed=0 awks='' lacking=''
. tests/lib.sh
[ -z "$programs" ] || built
for awk in awk mawk gawk gawk-posix original-awk busybox; do
    if command -v "${awk%-posix}" >/dev/null; then awks="$awks $awk"; else lacking="$lacking $awk"; fi
done

# with AWK WORD..: busybox is many programs, and gawk is two, one as strict as POSIX
with() {
    case $1 in
    busybox) shift && busybox awk "$@" ;;
    gawk-posix) shift && gawk --posix "$@" ;;
    *) "$@" ;;
    esac
}

# same WHAT EXPECTED GOT
same() {
    if [ "$2" = "$3" ]; then
        passed=$((passed + 1))
    else
        printf '%s:\n  it says     %s\n  and should  %s\n' "$1" "$3" "$2"
        failed=$((failed + 1))
    fi
}

# told FILE: the two lines of its refusal, or nothing
told() {
    od -An -v -tu1 "$1" | awk -f tests/words/told.awk
}

# mends WHAT SENTENCE: the command in the sentence is tried, and that of the sentence which comes then. The file that they make is not refused; but
# where WHAT says 'another mistake', it may be, with another sentence.
mends() {
    says=$2 was=
    while [ "$says" != "$was" ]; do
        case $says in
        *'this mends it: '*) ;;
        *) break ;;
        esac
        [ -n "$was" ] || cp "$room/scenario.csv" "$room/mend"
        (cd "$room/mend" && eval "${says##*this mends it: }" && mv mended-scenario.csv scenario.csv)
        was=$says
        says=$(told "$room/mend/scenario.csv" | file=scenario.csv awk -f tools/refused.awk)
    done
    [ -n "$was" ] || return
    case $1 in
    *'another mistake'*) [ "$says" != "$was" ] && [ -s "$room/mend/scenario.csv" ] ;;
    *) [ -z "$says" ] ;;
    esac && passed=$((passed + 1)) && return
    echo "$1: its command does not mend the file${says:+; then $says}"
    failed=$((failed + 1))
}

# program WHAT COMMAND SENTENCE: what the command says of the file on standard error
program() {
    [ -n "$programs" ] || return
    (cd "$room" && "$root/trestlecat" "$2" scenario.csv) >"$room/out" 2>"$room/err"
    same "$1 ($2)" "$3" "$(cat "$room/err")"
}

# refuses WHAT SENTENCE: of the file scenario.csv, whose refusal is told
refuses() {
    for awk in $awks; do
        same "$1 ($awk)" "$2" "$(file=scenario.csv && export file && with "$awk" -f tools/refused.awk <"$room/told")"
    done
}

# scenario WHAT TEXT SENTENCE: the text is one for printf
scenario() {
    # shellcheck disable=SC2059 # the escapes in it are meant
    printf "$2" >"$room/scenario.csv"
    told "$room/scenario.csv" >"$room/told"
    refuses "$1" "$3"
    mends "$1" "$3"
    program "$1" run "$3"
}

# waveform WHAT NUMBER SENTENCE: the file is there
waveform() {
    printf 'refused,%s,0\r\n' "$2" >"$room/told"
    refuses "$1" "$3"
    program "$1" unwave "$3"
}

# Four lines each: the cause, the file, the sentence, and an empty one.
while IFS= read -r what && IFS= read -r text && IFS= read -r sentence; do
    scenario "${what#\# }" "$text" "$sentence"
    IFS= read -r _ || break
done <tests/words/refused.txt

ops=
while [ "${#ops}" -lt $((65 * 12)) ]; do ops="${ops}op,0,1,0\\r\\n"; done
scenario "65 op lines" "kind,a,b,c\\r\\nlock,3,5,2\\r\\npred,1,5,13\\r\\n$ops" \
    "trestlecat: refused 5 at line 68, 'op,0,1,0': this is op line 65 of thread 0, and 64 are the most: take it out, or give it to another thread"
echo "no waveform" >"$room/scenario.csv"
waveform "no waveform" 42 \
    "trestlecat: refused 42: this is not, byte for byte, a waveform as './trestlecat wave' writes them: make it again from its scenario"
head -c 262145 /dev/zero >"$room/scenario.csv"
waveform "a long waveform" 41 "trestlecat: refused 41: the waveform has more than 262,144 bytes or 16,383 rows: read one of a shorter scenario"

# The names of files, in a command for a shell; and what is said where a program tells the first line only.
printf 'refused,31,1\r\nread,0,0,0,0,0,3,97,10,97\r\n' >"$room/told"
named() {
    for awk in $awks; do
        said=$(file=$1 && export file && with "$awk" -f tools/refused.awk <"$room/told")
        same "the name '$1' ($awk)" "$2" "${said##*macOS write it: }"
    done
}
named "a b.csv" "this mends it: tr -s '\\r' '\\n' <'a b.csv' | awk -v ORS='\\r\\n' 1 >'mended-a b.csv'"
named "../it's.csv" "this mends it: tr -s '\\r' '\\n' <'../it'\\''s.csv' | awk -v ORS='\\r\\n' 1 >'mended-it'\\''s.csv'"
named 'a$b;c' "this mends it: tr -s '\\r' '\\n' <'a\$b;c' | awk -v ORS='\\r\\n' 1 >'mended-a\$b;c'"
named 'a\nb' "this mends it: tr -s '\\r' '\\n' <'a\\nb' | awk -v ORS='\\r\\n' 1 >'mended-a\\nb'"
named "$(printf 'a\nb')" "this mends it, with the file's name for FILE: tr -s '\\r' '\\n' <FILE | awk -v ORS='\\r\\n' 1 >mended-FILE"
named - "send it through this: tr -s '\\r' '\\n' | awk -v ORS='\\r\\n' 1"
named "" "send it through this: tr -s '\\r' '\\n' | awk -v ORS='\\r\\n' 1"
printf 'refused,31,4\r\n' >"$room/told"
refuses "31 alone" "trestlecat: refused 31 at line 4: the form of the line is broken: see docs/RULES.md, section 16"
printf 'refused,32,4\r\n' >"$room/told"
refuses "32 alone" "trestlecat: refused 32 at line 4: the line stands in the wrong place, or is missing: see docs/RULES.md, section 16"
printf 'refused,4,3\r\n' >"$room/told"
refuses "4 alone" "trestlecat: refused 4 at line 3: see number 4 in docs/RULES.md, section 10"

# given NAME: what a script reads of a scenario: its trace, and behind an empty line why its threads wait, where that is there
given() {
    cat "$1.out"
    [ ! -f "$1.why" ] || echo
    [ ! -f "$1.why" ] || cat "$1.why"
}

# files SCRIPT ENDING FILE..: what the script prints for each scenario
files() {
    script=$1 ending=$2
    shift 2
    for file in "$@"; do
        name=${file%.csv}
        for awk in $awks; do
            same "$file ($script, $awk)" "$(cat "$name$ending")" \
                "$(given "$name" | with "$awk" -f tools/rows.awk -f "tools/$script.awk" "$file" - || echo "status $?")"
        done
        [ -n "$programs" ] || continue
        same "$file (run)" "$(cat "$name.out")" "$(./trestlecat run "$file" 2>/dev/null)"
        [ ! -f "$name.why" ] || same "$file (why)" "$(cat "$name.why")" "$(./trestlecat why "$file" 2>/dev/null)"
    done
}
files explain .words examples/*.csv tests/words/rows-*.csv
files untidy .says tests/words/untidy-*.csv

# Drain's own refusal behind a trace: the scenario is not at fault.
{ cat examples/case-k.out && printf 'refused,17,0\r\n'; } >"$room/drained"
for awk in $awks; do
    same "drain's refusal (explain, $awk)" "drain is refused, with 17: what is left is not tidy" \
        "$(with "$awk" -f tools/rows.awk -f tools/explain.awk examples/case-k.csv "$room/drained" | tail -n 1)"
    same "drain's refusal (untidy, $awk)" "$(cat tests/words/untidy-not-permitted.says)" \
        "$(with "$awk" -f tools/rows.awk -f tools/untidy.awk examples/case-k.csv "$room/drained")"
done

# ends WHAT LINE SCENARIO TRACE: the last line of the trace in words
ends() {
    for awk in $awks; do
        same "$1 ($awk)" "$2" "$(with "$awk" -f tools/rows.awk -f tools/explain.awk "$3" "$4" | tail -n 1)"
    done
}

# Rows of six digits stand below the others.
printf 'kind,a,b,c\r\nlock,3,5,1\r\npred,0,0,0\r\nrun,0,65535,0\r\nrun,0,34466,0\r\n' >"$room/many.csv"
awk 'BEGIN { for (n = -1; n <= 100000; n++) print n < 0 ? "n,thread,access,answer,got,exc,rc\r" : n ",0,0,12,0,0,0\r" }' >"$room/many.out"
ends "many rows" " 100000       0  refused 12: its script is empty                                         down      0" "$room/many.csv" "$room/many.out"

# What beat an exchange fits its column with long numbers: rows of seven digits, thread 15, a count of three, which takes dropped handles.
# rows: of a trace that has come to row 1000000, from lines without numbers
rows() {
    awk 'BEGIN { print "n,thread,access,answer,got,exc,rc\r" } { print 1000000 + k++ "," $0 "\r" }'
}
awk 'BEGIN {
    printf "kind,a,b,c\r\nlock,200,5,16\r\npred,0,0,0\r\n"
    for (k = 0; k < 128; k++) printf "op,%d,1,0\r\nop,%d,6,0\r\n", k / 32, k / 32
    printf "op,4,1,0\r\nop,15,1,0\r\nop,15,3,0\r\n"
}' >"$room/counts.csv"
{
    awk 'BEGIN {
        for (k = 0; k < 128; k++)
            for (step = 1; step <= 4; step++)
                print int(k / 32) "," (step < 4 ? step : 12) ",0," (step < 3 ? k : 0) ",0," (step > 1 ? k + 1 : k)
    }'
    printf '%s\n' 4,1,0,128,0,128 15,1,0,128,0,128 15,2,0,128,0,129 15,3,0,0,0,129 4,13,0,129,0,129 4,1,0,129,0,129 15,6,0,129,0,128 4,13,0,128,0,128
} | rows >"$room/counts.out"
ends "the longest words, of the count" "1000519       4  waits: saw 129, found 128: thread 15 gave a handle back (row 1000518)   down    128" \
    "$room/counts.csv" "$room/counts.out"
printf 'kind,a,b,c\r\nlock,1,5,16\r\npred,0,0,0\r\nop,10,7,0\r\nop,15,4,0\r\nop,15,6,0\r\n' >"$room/drop.csv"
printf '%s\n' 15,7,0,0,1,0 15,8,0,0,1,0 15,9,0,5,1,0 15,12,0,0,1,0 10,14,0,1,1,0 | rows >"$room/drop.out"
ends "the longest words, of the flag" "1000004      10  into_inner waits for ever: thread 15 dropped its handle (row 1000003)   up        0" \
    "$room/drop.csv" "$room/drop.out"

# A trace of another scenario is not explained, nor one in which an exchange that found 0 got 1, or one that failed has the code of one that is done.
# other WHAT ROW SCENARIO TRACE
other() {
    for awk in $awks; do
        same "$1 ($awk)" "trestlecat: row $2 of the trace is not one of this scenario: give a scenario and its own trace" \
            "$(with "$awk" -f tools/rows.awk -f tools/explain.awk "$3" "$4" 2>&1 >/dev/null)"
    done
}
other "another trace" 0 examples/case-k.csv examples/case-f.out
sed 's/^1,0,2,0,0,0,1/1,0,2,0,1,0,1/' examples/case-a.out >"$room/older.out"
other "an older trace" 1 examples/case-a.csv "$room/older.out"
sed 's/^4,1,13,0,1,/4,1,2,0,0,/' examples/case-e.out >"$room/older.out"
other "an older trace, failed" 4 examples/case-e.csv "$room/older.out"
sed 's/^1,1,14,0,1,/1,1,7,0,0,/' tests/words/rows-writers.out >"$room/older.out"
other "an older trace, the flag" 1 tests/words/rows-writers.csv "$room/older.out"

# Why threads wait is told of answers that are those of the trace, and of all of them. Without answers nothing is said of it.
# answered WHAT SENTENCE NAME: of the answers in $room/why, behind the trace of an example
answered() {
    for awk in $awks; do
        { cat "examples/$3.out" && echo && cat "$room/why"; } |
            with "$awk" -f tools/rows.awk -f tools/explain.awk "examples/$3.csv" - >"$room/out" 2>"$room/err"
        same "$1 ($awk)" "2 trestlecat: $2: run it again, or remove target, so that program_why is built anew" "$? $(cat "$room/err")"
        same "$1, what is told ($awk)" "" "$(grep '^thread' "$room/out")"
    done
}
ends "a trace without answers" "      6       1  puts the flag up: it was down                                           up        2" \
    examples/why.csv examples/why.out
: >"$room/why"
answered "no answer" "why has answered 0 of 8 lines" why
answered "no refusal" "why has answered 0 of 1 lines" refused
sed 7,8d examples/why.why >"$room/why"
answered "answers that are cut off" "why has answered 6 of 8 lines" why
sed 's/who/by/' examples/why.why >"$room/why"
answered "another header" "line 1 of what why answers is not one of this trace" why
sed 's/^2,0,3,1/2,0,3,0/' examples/why.why >"$room/why"
answered "another thread that holds the flag" "line 4 of what why answers is not one of this trace" why
sed 's/^4,0,2,0/4,0,0,0/' examples/why.why >"$room/why"
answered "a thread that should not wait" "line 6 of what why answers is not one of this trace" why
cat examples/why.why - >"$room/why" <<'END_OF_ANSWERS'
7,0,0,0
END_OF_ANSWERS
answered "a thread too many" "line 9 of what why answers is not one of this trace" why
cp examples/refused.why "$room/why"
answered "a refusal of another scenario" "line 1 of what why answers is not one of this trace" why
sed 's/6/7/' examples/refused.why >"$room/why"
answered "a refusal at another line" "line 1 of what why answers is not one of this trace" refused

# What judges the words of random files (tests/words/agree.awk) takes these words, and none that say of an exchange that another row beat it.
# taken NAME LINE: the rows with which it takes the sentence on that line
taken() {
    for row in $(awk -F, 'FNR > 1 { print $1 }' "tests/words/$1.out"); do
        sed "$2s/(row [0-9]*)/(row $row)/" "tests/words/$1.words" >"$room/words"
        ! awk -f tests/words/agree.awk "tests/words/$1.out" "tests/words/$1.why" "$room/words" >/dev/null || echo "$row"
    done
}
for name in rows-beaten-count rows-beaten-flag rows-beaten-for-ever; do
    for line in $(grep -n '(row ' "tests/words/$name.words" | cut -d: -f1); do
        same "what beat it ($name, line $line)" "$(sed -n "${line}s/.*(row \([0-9]*\)).*/\1/p" "tests/words/$name.words")" "$(taken "$name" "$line")"
    done
done

# Nor does it take another sentence about a thread that waits at the end: with another number, with 'for ever' or without it, or none.
# others LINE: of the words on standard input, with that line changed, each in a file of its own
others() {
    awk -v at="$1" -v room="$room" '
        function write(text,    i, name) {
            name = room "/other." ++files
            for (i = 1; i <= NR; i++) if (i != at || text != "") print i == at ? text : line[i] > name
            close(name)
        }
        { line[NR] = $0 }
        END {
            n = split(line[at], word, /[^0-9]+/)
            for (i = 1; i <= n; i++) {
                if (word[i] == "") continue
                rest = substr(line[at], past + 1)
                match(rest, word[i])
                write(substr(line[at], 1, past + RSTART - 1) word[i] + 1 substr(rest, RSTART + RLENGTH))
                past += RSTART + RLENGTH - 1
            }
            text = line[at]
            if (!sub(/ for ever/, "", text)) sub(/waits/, "waits for ever", text)
            write(text)
            write("")
        }'
}
for words in examples/*.words tests/words/rows-*.words; do
    name=${words%.words}
    same "what judges takes $words" 0 "$(awk -f tests/words/agree.awk "$name.out" "$name.why" "$words" >/dev/null; echo $?)"
    for line in $(grep -n '^thread' "$words" | cut -d: -f1); do
        others "$line" <"$words"
        for other in "$room"/other.*; do
            same "what judges takes no other line $line of $words" 1 "$(awk -f tests/words/agree.awk "$name.out" "$name.why" "$other" >/dev/null; echo $?)"
        done
        rm "$room"/other.*
    done
done
echo "awks:$awks${lacking:+; not here:$lacking}"
echo "$passed passed, $failed failed"
[ "$failed" -eq 0 ]
