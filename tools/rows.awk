# What explain.awk and untidy.awk share: it reads a scenario and follows the rows of its trace, thread by thread, as docs/RULES.md has it
# (section 5: places and accesses; section 10: refusals 11 to 16). Given with a first -f; the program that is given with the second one
# has four functions: head(), called before the first row, row(), after each row, behind(K), at line K behind an empty one, which ends the
# rows, and last(), at the end. Words on the command line: SCENARIO TRACE.
#
# Values and M go up to 2^64 - 1, which awk's numbers do not hold: they are text here and are compared as text. The count is a number: it
# counts readers, and so many that it would not be exact cannot be in a file's scripts.
#
# A row is made anew from its thread and compared with the one that the trace has. So words about a row are about what happened, and a
# trace of another scenario is told and not explained.

BEGIN {
    FS = ","
    split("acquire_read borrow release_read acquire_write release_write drop into_inner", NAME, " ")
    ways("Idle 1 1, ReadTry 1 2, ReadCheck 1 3, ReadBack 1 4, Reading 2 5, Reading 3 6, Idle 4 7, Idle 7 7, WriteWait 4 8, WriteWait 7 8")
    ways("WriteTake 4 9, WriteTake 7 9, Writing 5 10, WritePut 5 11, Reading 6 12, Writing 6 12")
    if (ARGC != 3) stop("give a scenario and its trace")
    scenario(ARGV[1])
    ARGV[1] = ""
    # A name with = in it would be taken for an assignment.
    if (ARGV[2] != "-" && ARGV[2] !~ /^\//) ARGV[2] = "./" ARGV[2]
}

{ sub(/\r$/, "") }
NR == 1 {
    if ($0 != "n,thread,access,answer,got,exc,rc") stop("this is no trace: its first line is not n,thread,access,answer,got,exc,rc")
    head()
    next
}
ended { behind(NR - ended); next }
$0 == "" { ended = NR; next }
refusal != "" { stop("line " NR " of the trace stands behind its refusal") }
/^refused,[0-9]+,[0-9]+$/ { refusal = $2; refused_line = $3; next }
{
    entry($2 + 0)
    if (NF != 7 || $2 "," $3 "," $4 "," $5 "," $6 "," $7 != thread "," access "," answer "," got "," exc "," rc)
        stop("row " $1 " of the trace is not one of this scenario: give a scenario and its own trace")
    row()
}
END {
    if (!stopped && NR == 0) stop("the trace is empty")
    if (stopped) exit 2
    last()
}

function stop(reason) {
    print "trestlecat: " reason >"/dev/stderr"
    stopped = 1
    exit 2
}

# Which access a thread makes at a place with an operation, an exchange as if it were done; where there is none, the operation does not fit.
function ways(list,    part, n, i, word) {
    n = split(list, part, /, */)
    for (i = 1; i <= n; i++) {
        split(part[i], word, " ")
        ACCESS[word[1], word[2]] = word[3] + 0
    }
}

# The lines up to the first that is no op line. A file that is refused among them has no rows, so nothing needs to be known of the rest.
function scenario(name,    line, n, more) {
    threads = 0
    exc = rc = 0
    mover = finisher = ""
    while ((more = (getline line < name)) > 0) {
        sub(/\r$/, "", line)
        if (!scenario_line(++n, line)) break
    }
    close(name)
    if (more < 0) stop("the scenario " name " cannot be read")
}

function scenario_line(n, line,    f) {
    if (n == 1) return line == "kind,a,b,c"
    if (split(line, f, ",") != 4 || line ~ /[^a-z0-9,]/) return 0
    if (n == 2 && f[1] == "lock" && f[4] ~ /^[0-9][0-9]?$/) return set_lock(f[2] "", f[3] "", f[4] + 0)
    if (n == 3 && f[1] == "pred") {
        kind = f[2] + 0
        a = f[3] ""
        b = f[4] ""
        return 1
    }
    if (n < 4 || f[1] != "op" || f[2] !~ /^[0-9][0-9]?$/ || f[3] !~ /^[1-7]$/) return 0
    op[f[2] + 0, ops[f[2] + 0]] = f[3] + 0
    value[f[2] + 0, ops[f[2] + 0]++] = f[4] ""
    return 1
}

# Section 6. A script place counts the operations that are done, so the operation that is next stands at the script place itself.
function set_lock(m, first, count,    t) {
    top = m
    cell = first
    threads = count
    for (t = 0; t < threads; t++) {
        place[t] = "Idle"
        at[t] = ops[t] = 0
    }
    return 1
}

function permits(v) {
    if (kind == 1) return v == a || v == b
    if (kind == 2) return (substr(v, length(v)) % 2) "" == a
    return 1
}

# What the predicate permits, in words.
function permitted() {
    if (kind == 1) return a == b ? a : a " or " b
    if (kind == 2) return a == "0" ? "even numbers" : "odd numbers"
    return "every value"
}

# The threads other than t that are not Idle, one behind the other with spaces before them.
function not_idle(t,    i, list) {
    for (i = 0; i < threads; i++) if (i != t && place[i] != "Idle") list = list " " i
    return list
}

# The number with which an entry of thread t is refused, 0 for none. Their order is that of the numbers.
function refused(t) {
    if (t >= threads) return 11
    if (at[t] == ops[t]) return 12
    if (finisher != "" || mover != "" && mover != t) return 13
    if (!((place[t], op[t, at[t]]) in ACCESS)) return 14
    if (op[t, at[t]] == 7 && mover == "" && not_idle(t) != "") return 15
    if (place[t] == "Writing" && op[t, at[t]] == 5 && !permits(value[t, at[t]])) return 16
    return 0
}

# One entry of thread t. Afterwards thread, access, answer, got, exc and rc are its row; `from`, `code`, `number` and `begun` are what stood
# before it: the place, the operation and how many of the script it is, from 1; and whether the thread had begun into_inner.
function entry(t) {
    thread = t
    answer = refused(t)
    access = got = 0
    from = place[t]
    begun = mover != ""
    number = at[t] + 1
    code = op[t, at[t]]
    if (answer > 0) return
    access = makes(ACCESS[from, code], t)
    got = gets(t)
    if (access <= 6 || access == 13) reads(t)
    else if (access == 12) drops(t)
    else writes(t)
}

# An exchange that fails has a code of its own.
function makes(way, t) {
    if (way == 2 && rc != seen[t]) return 13
    if (way == 7 && exc) return 14
    return way
}

# Of an exchange it is what was found, done or not.
function gets(t) {
    if (access == 3 || access == 7 || access == 14) return exc
    if (access == 5 || access == 9) return cell
    if (access == 10) return value[t, at[t]]
    if (access == 11 || access == 12) return 0
    return rc
}

function go(t, to, next_one) {
    place[t] = to
    at[t] += next_one
}

# After accesses 1 to 6 and 13.
function reads(t) {
    if (access == 1 && got "" != top) { seen[t] = rc; go(t, "ReadTry") }
    if (access == 2) { recount(1); go(t, "ReadCheck") }
    if (access == 3) go(t, got ? "ReadBack" : "Reading", !got)
    if (access == 4) { recount(-1); go(t, "Idle") }
    if (access == 5) go(t, "Reading", 1)
    if (access == 6) { recount(-1); go(t, "Idle", 1) }
    if (access == 13) go(t, "Idle")
}

# The count goes up or down by one. Of each number it is kept who made the count leave it last, in which row and by which access. A thread
# that saw this number and finds another was beaten by that row: just before it the exchange would have been done, and since then no more.
function recount(by) {
    left_by[rc] = thread
    left_row[rc] = $1
    left_access[rc] = access
    rc += by
}

# After accesses 7 to 11 and 14. The first step of into_inner makes its thread the mover, also where it fails.
function writes(t) {
    if (code == 7 && !begun) mover = t
    if (access == 7) { exc = 1; flag_by = t; flag_row = $1; go(t, "WriteWait") }
    if (access == 8 && got == 0) go(t, "WriteTake")
    if (access == 9 && code == 4) go(t, "Writing", 1)
    if (access == 9 && code == 7) {
        mover = ""
        finisher = t
        finish = number
        go(t, "Idle", 1)
    }
    if (access == 10) { cell = got; go(t, "WritePut") }
    if (access == 11) { exc = 0; go(t, "Idle", 1) }
}

# After access 12. Of the first drop it is kept who made it: there are only dropped reads or one dropped write, never both.
function drops(t) {
    if (dropped_reads + dropped_writes == 0) {
        dropper = t
        drop = number
        drop_row = $1
    }
    if (from == "Reading") dropped_reads++
    else dropped_writes++
    go(t, "Idle", 1)
}
