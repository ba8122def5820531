# Prints in one line of words what a refusal means and what to do about it, from the two lines that a program tells of it:
#     refused,NUMBER,LINE
#     read,STAGE,M,FIRST,THREADS,THREAD,LEN,B,B,B,...
# usage: file=NAME LC_ALL=C awk -f tools/refused.awk
# The second line may be missing. STAGE is which line may come next (0 header, 1 lock, 2 pred, 3 op or run, 4 run); M, FIRST and THREADS are
# those of the lock line, THREAD that of the op line before; LEN is how many bytes the refused line has, 81 for more than 80 and 0 also where
# the file ended before a line came; the rest are its bytes, at most 80. NAME, for commands that mend the file, is - or empty for standard
# input; it comes by the environment, since awk takes a backslash in an option for the start of an escape. The rules are in docs/RULES.md,
# sections 10 and 16.
#
# Numbers of a file go up to 2^64 - 1, which awk's numbers do not hold: they are text here, compared by length and then as text.

BEGIN {
    FS = ","
    file = ENVIRON["file"]
    LARGEST = "18446744073709551615"
    HEADER = "kind,a,b,c"
    split("acquire_read borrow release_read acquire_write release_write drop into_inner", NAME, " ")
    for (i = 1; i <= 7; i++) CODE[NAME[i]] = i
    split("first second third fourth", NTH, " ")
    kind_of_line("lock", "M,FIRST,THREADS", "the most readers", "the first value", "the number of threads")
    kind_of_line("pred", "KIND,A,B", "the kind of predicate", "the predicate's first parameter", "the predicate's second parameter")
    kind_of_line("op", "THREAD,OPERATION,VALUE", "the thread", "the operation", "the value")
    kind_of_line("run", "THREAD,TIMES,0", "the thread", "times")
    RANGE["lock", 4] = "1 to 16"
    RANGE["pred", 2] = "0, 1 or 2"
    RANGE["op", 2] = "a thread's number, from 0 on"
    RANGE["op", 3] = "1 to 7"
}

{ sub(/\r$/, "") }
$1 == "refused" && number == "" { number = $2 ""; line = $3 "" }
$1 == "read" && !told { told = 1; look() }
END {
    if (number == "") exit 1
    print "trestlecat: refused " number where() ": " what()
}

function kind_of_line(kind, rest, second, third, fourth) {
    FORM[kind] = kind "," rest
    MEANS[kind, 2] = second
    MEANS[kind, 3] = third
    if (fourth != "") MEANS[kind, 4] = fourth
}

# The line's bytes and how often each comes, its text in which every byte can be seen, and its fields, each from byte from[f] on. `tight` and
# `bare` are the text and the fields without spaces and tabs.
function look(    i) {
    stage = $2 + 0
    top = $3 ""
    first = $4 ""
    threads = $5 ""
    thread = $6 ""
    long = $7 > 80
    bytes = long ? 80 : $7 + 0
    fields = from[1] = 1
    for (i = 1; i <= bytes; i++) {
        byte[i] = $(i + 7) + 0
        times[byte[i]]++
        text = text visible(byte[i])
        if (byte[i] != 32 && byte[i] != 9) tight = tight visible(byte[i])
        if (byte[i] == 44) from[++fields] = i + 1
        else field[fields] = field[fields] visible(byte[i])
    }
    from[fields + 1] = bytes + 2
    split(tight, bare, ",")
    for (i = 1; i <= fields; i++) field[i] = field[i] ""
    kind = field[1]
}

function visible(b) {
    if (b >= 32 && b <= 126) return sprintf("%c", b)
    if (b == 0) return "<NUL>"
    if (b == 9) return "<TAB>"
    if (b == 10) return "<LF>"
    if (b == 13) return "<CR>"
    return "<" substr("0123456789ABCDEF", int(b / 16) + 1, 1) substr("0123456789ABCDEF", b % 16 + 1, 1) ">"
}

# As much of bytes i to j as shows what they are, cut between two of them; `more` says that others follow which are not told.
function shown(i, j, more,    part) {
    for (; i <= j && length(part) < 40; i++) part = part visible(byte[i])
    return "'" part (i <= j || more ? "..." : "") "'"
}

function shown_field(f) { return shown(from[f], from[f + 1] - 2) }

function ended() { return told && number == "32" && bytes == 0 }

function where() {
    if (line == "0") return ""
    if (ended()) return " at line " line ", where the file has ended"
    return " at line " line (told ? ", " shown(1, bytes, long) : "")
}

function what() {
    if (number == "17") return "the scripts are not tidy: see docs/RULES.md, section 12"
    if (number == "41") return "the waveform has more than 262,144 bytes or 16,383 rows: read one of a shorter scenario"
    if (number == "42") return "this is not, byte for byte, a waveform as './trestlecat wave' writes them: make it again from its scenario"
    if (!told) return untold()
    if (number == "31") return broken()
    if (ended()) return missing("is not there", "add it at the end")
    if (number == "32") return line == "1" ? no_header() : out_of_order()
    if (number ~ /^[1-4]$/) return setup()
    if (number == "5") return "this is op line 65 of thread " field[2] ", and 64 are the most: take it out, or give it to another thread"
    if (number == "7") return operation()
    return untold()
}

# What can be said of a number where nothing is told of the line.
function untold() {
    if (number == "31") return "the form of the line is broken: see docs/RULES.md, section 16"
    if (number == "32") return "the line stands in the wrong place, or is missing: see docs/RULES.md, section 16"
    return "see number " number " in docs/RULES.md, section 10"
}

# ---- Numbers, and what is common to sentences

function below(x, y) { return length(x) < length(y) || length(x) == length(y) && x "" < y "" }

# 'the third field, times, is '007''
function named(f) { return "the " NTH[f] " field" ((kind, f) in MEANS ? ", " MEANS[kind, f] "," : "") " is " shown_field(f) }

# A word for a shell.
function quoted(name) {
    if (name !~ "[^A-Za-z0-9_.,/:@%+-]") return name
    gsub(/'/, "'\\''", name)
    return "'" name "'"
}

# The command that mends the file: `reader` reads it, `rest` is what the pipe has behind that. Its last name is never that of the file, which
# the shell would empty first. A name that would break the line is left to the reader.
function mend(reader, rest,    base) {
    if (file == "" || file == "-") return "send it through this: " reader rest
    if (file ~ /[[:cntrl:]]/) return "this mends it, with the file's name for FILE: " reader " <FILE" rest " >mended-FILE"
    base = file
    sub(/.*\//, "", base)
    return "this mends it: " reader " <" quoted(file) rest " >" quoted("mended-" base)
}

# Every line with its right break, whatever it ends with: LF, CR, CR LF, several of them, or each line with another.
function breaks() { return mend("tr -s '\\r' '\\n'", " | awk -v ORS='\\r\\n' 1") }

# ---- 31: the form of a line

# Breaks come before the length, since a whole file without a right break is one long line.
function broken() {
    if (line == "1" && wide()) return "the file is UTF-16: save it as plain text in ASCII, or in UTF-8 without a byte order mark"
    if (10 in times) return "a line must end with CR LF, and here is an LF alone, as editors on Linux and macOS write it: " breaks()
    if (13 in times) return alone()
    if (line == "1" && marked()) return byte_order_mark()
    if (comment()) return no_comments()
    if (long) return "the line has more than 80 bytes, and a right one never has: shorten it, or look for a missing line break"
    if (34 in times) return "there is a quote, and fields stand without quotes: " mend("tr -d '\"'")
    if (bytes == 0) return "the line is empty, which is wrong at the end of a file too: take it out"
    if (tight == "") return "the line is blank, which is wrong at the end of a file too: take it out"
    if (empty_row()) return only_commas()
    if (bytes == 1 && byte[1] == 26) return "the line is an end-of-file mark of old, the byte 26: take it out"
    if (fields != 4) return field_count()
    if (text == HEADER) return "the header stands in line 1 only: take this line out"
    return fields_broken()
}

# UTF-16 with its byte order mark, or without: then every other byte is 0.
function wide() {
    if (byte[1] == 255 && byte[2] == 254 || byte[1] == 254 && byte[2] == 255) return 1
    return bytes > 3 && (byte[1] == 0) != (byte[2] == 0) && (byte[1] == 0) == (byte[3] == 0) && (byte[2] == 0) == (byte[4] == 0)
}

# Lines that are wrong wherever they stand, with 31 or with 32.
function comment() { return tight ~ /^(#|\/\/)/ }
function no_comments() { return "a scenario has no comments: take this line out" }
function empty_row() { return tight ~ /^,+$/ }
function only_commas() { return "the line has nothing but commas, as spreadsheets write an empty row: take it out" }

function marked() { return byte[1] == 239 && byte[2] == 187 && byte[3] == 191 }

function byte_order_mark() { return "the file starts with a byte order mark, as spreadsheets write it: " mend("tail -c +4") }

# A CR without an LF behind it: at the line's end, in place of a break, or somewhere inside.
function alone(    i, inside) {
    for (i = 1; i < bytes; i++) if (byte[i] == 13 && byte[i + 1] != 13) inside = 1
    if (!inside && !long) return "a line must end with CR LF, and here is a CR alone at its end: " breaks()
    if (cr_ends()) return "a line must end with CR LF, and here is a CR alone: " breaks()
    return "there is a CR without an LF inside the line: take it out, or put an LF behind it where the line should end"
}

# Whether a line of a known kind starts behind a CR, with a comma, a semicolon or a tab behind the kind, which may be in quotes.
function cr_ends(    i, j, word) {
    for (i = 1; i <= bytes; i++) {
        if (byte[i] != 13) continue
        word = ""
        for (j = i + 1; j <= bytes && (byte[j] >= 97 && byte[j] <= 122 || byte[j] == 34); j++) if (byte[j] != 34) word = word visible(byte[j])
        if (word in FORM && j <= bytes && (byte[j] == 44 || byte[j] == 59 || byte[j] == 9)) return 1
    }
    return 0
}

function field_count() {
    if (times[59] == 3) return "there are semicolons in place of commas: " mend("tr ';' ','")
    if (times[9] == 3) return "there are tabs in place of commas: " mend("tr '\\t' ','")
    return "the line has " fields (fields == 1 ? " field" : " fields") ", and 4 are right: write it as " form() \
        (fields > 4 && stage > 0 ? ", with no commas inside numbers" : "")
}

# The form of this kind of line, or of the line that may come.
function form() {
    if (stage > 0 && kind in FORM) return FORM[kind]
    if (stage == 0) return HEADER
    if (stage == 1) return FORM["lock"]
    if (stage == 2) return FORM["pred"]
    return stage == 3 ? FORM["op"] " or " FORM["run"] : FORM["run"]
}

function fields_broken(    f, reason) {
    for (f = 2; f <= 4; f++) {
        reason = kind == "run" ? no_run_number(f, field[f]) : no_number(f, field[f])
        if (reason != "") return named(f) reason
    }
    return untold()
}

# Why a field is no number, and what to do; nothing where it is one.
function no_number(f, x) {
    if (x == "") return ", which is empty: write a number there" (kind == "op" && f == 4 || kind == "pred" && f > 2 ? ", 0 where none is meant" : "")
    if (kind == "op" && f == 3 && tolower(bare[f]) in CODE) return ": write " CODE[tolower(bare[f])] ", the code of " tolower(bare[f])
    if (x != bare[f] "") return ", which has a space: write digits only"
    if (x ~ /^[-+]/) return ", which has a sign: write digits only, for 0 or more"
    if (x ~ /^[0-9]*[.][0-9.]*$/) return ", which has a point: write a whole number, digits only"
    if (x ~ /[^0-9]/) return ", which is not a number: write digits only"
    if (below(LARGEST, plain(x))) return ", which is too large: write " ((kind, f) in RANGE ? RANGE[kind, f] : "at most " LARGEST)
    if (x ~ /^0./) return ", which has a needless zero in front: write " plain(x)
    return ""
}

# The same on a run line, whose numbers have bounds.
function no_run_number(f, x) {
    if (f == 4) return x == "0" ? "" : ", and on a run line it is always 0: write 0 there"
    if (x == "" || x ~ /[^0-9]/) return no_number(f, x)
    if (f == 2 && below("255", plain(x))) return ", and 255 is the most: write a thread's number, from 0 on"
    if (f == 3 && plain(x) == "0") return ", and 1 is the least: write how often the thread comes, or take the line out"
    if (f == 3 && below("65535", plain(x))) return ", and 65535 is the most: write at most that, or several run lines"
    return no_number(f, x)
}

function plain(x) {
    sub(/^0+/, "", x)
    return x == "" ? "0" : x
}

# ---- 32: the order of lines

function no_header() {
    if (marked()) return byte_order_mark()
    if (comment()) return no_comments()
    if (empty_row()) return only_commas()
    if (tight == HEADER) return "the header has spaces: write it as " HEADER
    if (tolower(tight) == HEADER) return "the header has capital letters" (tight == text ? "" : " and spaces") ": write it as " HEADER
    if (kind in FORM) return "the header is missing: put a line " HEADER " before this one"
    return "this is not the header: line 1 must be " HEADER ", so write that"
}

# What may come is not there: the line behind it has come, or the file has ended.
function missing(how, do_this) {
    if (stage == 0) return "the file is empty: start with the header " HEADER ", then a lock line and a pred line"
    if (stage == 1) return "the lock line " how ": line 2 must be " FORM["lock"] ", so " do_this
    return "the pred line " how ": line 3 must be " FORM["pred"] ", so " do_this
}

function out_of_order() {
    if (!(kind in FORM)) return unknown()
    if (stage > 1 && kind == "lock") return "this is a second lock line, and line 2 is the only one: take it out"
    if (stage > 2 && kind == "pred") return "this is a second pred line, and line 3 is the only one: take it out"
    if (stage < 3) return missing("is missing", "put it before this one")
    if (stage == 4) return "this op line stands behind a run line: put it before the first run line"
    if (!below(field[2], threads)) return no_such_thread()
    return named(2) ", and the op line before is of thread " thread ": put this line before those of higher threads"
}

function no_such_thread(    wrong) {
    wrong = named(2) ", and line 2 has " threads (threads == "1" ? " thread" : " threads") ", counted from 0: write "
    wrong = wrong (threads == "1" ? "0" : threads == "2" ? "0 or 1" : "0 to " (threads - 1)) " there"
    return wrong (threads == "16" ? "" : ", or more threads on line 2")
}

function unknown(    known) {
    if (comment()) return no_comments()
    known = tolower(bare[1])
    if (!(known in FORM)) return "the kind " shown_field(1) " is not known: write it as " form()
    if (kind == bare[1] "") return "the kind '" kind "' has capital letters: write " known
    return "the kind " shown_field(1) " has spaces" (bare[1] ~ /[A-Z]/ ? " and capital letters" : "") ": write " known
}

# ---- 1 to 4, 7: what setup refuses

# The lock line is looked at when the pred line has come.
function setup(    lock) {
    lock = "the mistake is on line 2, lock," top "," first "," threads ": "
    if (number == "1") return lock "the number of threads is " threads ": write 1 to 16 there"
    if (number == "2") return lock "the most readers, M, is 0: write 1 or more there"
    if (number == "4") return "the first value, on line 2, lock," top "," first "," threads ", is " first ", and this line permits " \
        permitted() " only: change the value there or the predicate here"
    if (below("2", field[2])) return named(2) ": write 0 (any value), 1 (either of two values) or 2 (even or odd)"
    return named(3) ", and beside kind 2 it says even or odd: write 0 for even or 1 for odd"
}

function permitted() {
    if (field[2] == "2") return field[3] == "0" ? "even values" : "odd values"
    return field[3] == field[4] ? field[3] : "either " field[3] " or " field[4]
}

function operation(    i, list) {
    for (i = 1; i <= 7; i++) list = list (i == 1 ? "" : i == 7 ? " or " : ", ") i " (" NAME[i] ")"
    if (field[3] !~ /^[1-7]$/) return named(3) ": write " list
    return named(4) ", and " NAME[field[3]] " (" field[3] ") takes none: write 0 there; only release_write (5) has a value"
}
