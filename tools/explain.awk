# Prints the trace of a scenario in words, a line for each row as it comes: number, thread, what the thread did and got, flag, count; and
# then, behind an empty line, why each thread waits that does, where the trace has an empty line behind it and the answers of why.
# usage: LC_ALL=C awk -f tools/rows.awk -f tools/explain.awk SCENARIO TRACE        (TRACE may be - for standard input)
# Where TRACE is not the trace of SCENARIO, or the answers are not of it, it says so on standard error, and its status is 2.

function head() { tell("row", "thread", "what it does", "flag", "count") }

function row() { tell($1, thread, answer ? "refused " answer ": " why() : words(), exc ? "up" : "down", rc) }

# 17 is drain's: it comes behind the whole scenario, and has no line.
function last() {
    if (refusal == 17) print "drain is refused, with 17: what is left is not tidy"
    else if (refusal != "") print "the scenario is refused at line " refused_line ", with " refusal
    if (ended) waiting()
}

# Whoever reads a trace through a pipe reads each row before the next one comes, hence the flush.
function tell(n, who, what, flag, count) {
    printf "%7s  %6s  %-70s  %-4s  %5s\n", n, who, what, flag, count
    fflush()
}

function words() {
    if (access <= 6 || access == 13) return reader()
    return (code == 7 ? "into_inner " : "") writer()
}

function reader() {
    if (access == 1 && got "" == top) return full(got)
    if (access == 1) return "looks at the count: " got
    if (access == 2) return "counts itself: the count was " got " and is " rc
    if (access == 13) return "waits: saw " seen[thread] ", found " got ": " beaten(seen[thread])
    if (access == 3 && got) return "waits" for_ever(dropped_writes) ": the flag is up, so it must take itself off the count"
    if (access == 3) return "no writer: has a read handle"
    if (access == 4) return "takes itself off the count again: the count is " rc
    if (access == 5) return "borrows " got
    return "gives its read handle back"
}

function writer() {
    if (access == 7) return "puts the flag up: it was down"
    if (access == 14) return "waits" for_ever(dropped_writes) ": " held()
    if (access == 8 && got == 0) return code == 7 ? "may take the value: the count is 0" : "the count is 0: may take the value"
    if (access == 8) return "waits" for_ever(dropped_reads) ": the count is " got (dropped_reads ? " with a dropped handle in it" : "")
    if (access == 9) return "takes " got (code == 7 ? " for good: the lock is finished" : "")
    if (access == 10) return "puts " got
    if (access == 11) return "puts the flag down: " cell " is released"
    if (from == "Reading") return "drops its read handle: it stays counted"
    return "drops its write handle: the flag stays up and the value is gone"
}

# What beat an exchange of the count: in that row it left the number that the thread saw. With thread 15, counts of three digits (a script can
# drop 32 handles) and a row of eight the words just fit their column.
function beaten(saw,    did) {
    did = left_access[saw] == 2 ? "counted itself" : left_access[saw] == 4 ? "took itself off" : "gave a handle back"
    return "thread " left_by[saw] " " did " (row " left_row[saw] ")"
}

# What beat an exchange of the flag. A dropped handle keeps it up, so then the drop is told.
function held() {
    if (dropped_writes) return "thread " dropper " dropped its handle (row " drop_row ")"
    return "the flag is up, put up by thread " flag_by " (row " flag_row ")"
}

# Nothing takes a dropped read off the count, and nothing takes the flag down after a dropped write.
function for_ever(dropped) { return dropped ? " for ever" : "" }

function full(count,    of_dropped) {
    of_dropped = dropped_reads "" == top
    return "waits" for_ever(of_dropped) ": the count is full (" count ")" (of_dropped ? " of dropped handles" : "")
}

# Why the entry is refused.
function why() {
    if (answer == 11) return "there is no thread " thread ", only " (threads == 1 ? "thread 0" : threads == 2 ? "0 or 1" : "0 to " (threads - 1))
    if (answer == 12) return ops[thread] ? "its script is finished" : "its script is empty"
    if (answer == 13 && mover != "") return "thread " mover " has begun into_inner"
    if (answer == 13) return "the lock is finished, by into_inner of thread " finisher
    if (answer == 14) return NAME[code] " does not fit at " from ", " hold(from)
    if (answer == 15) return "no into_inner while " others(not_idle(thread)) " not Idle"
    return value[thread, number - 1] " is not permitted, only " permitted()
}

function hold(at) { return at == "Reading" ? "with a read handle" : at == "Writing" ? "with a write handle" : "without a handle" }

# 'thread 0 is', 'threads 0 and 1 are', 'threads 1, 3 and 5 to 7 are'; where that is too long for its column, how many they are.
function others(list,    n, i, j, part, text) {
    n = split(list, part, " ")
    if (n == 1) return "thread " part[1] " is"
    for (i = 1; i <= n; i = j + 1) {
        j = i
        while (j < n && part[j + 1] == part[j] + 1) j++
        if (j == i + 1) j = i
        text = text (i == 1 ? "" : j == n ? " and " : ", ") part[i] (j > i ? " to " part[j] : "")
    }
    return (length(text) > 17 ? n " threads" : "threads " text) " are"
}

# ---- Why threads wait at the end

# An answer is made anew from what the rows have left, as a row is, and compared with the one that came. So the words are about what is
# there, and the numbers in them, which an answer has not, stand beside the right one.
function behind(k) {
    if (k > due() || $0 != answer_line(k)) wrong("line " k " of what why answers is not one of this trace")
    if (k == 1) return
    reason[k - 2] = $3 + 0
    beside[k - 2] = $4
}

function wrong(what) { stop(what ": run it again, or remove target, so that program_why is built anew") }

# How many lines why answers: its header and one for each thread, or the refusal alone.
function due() { return refusal == "" ? threads + 1 : 1 }

function answer_line(k) {
    if (refusal != "") return "refused," refusal "," refused_line
    return k == 1 ? "thread,answer,reason,who" : k - 2 "," answer_of(k - 2)
}

# 'ANSWER,REASON,WHO' of thread t.
function answer_of(t,    way) {
    if (refused(t)) return refused(t) ",0,0"
    way = ACCESS[place[t], op[t, at[t]]]
    if (way == 1 && rc "" == top) return "0,1,0"
    if (way == 2 && rc != seen[t]) return "0,2,0"
    if ((way == 3 || way == 7) && exc) return dropped_writes ? "0,4,0" : "0,3," lowest("^Writ")
    if (way == 8 && rc) return rc > dropped_reads ? "0,5," lowest("^Read(Check|Back|ing)$") : "0,6,0"
    return "0,0,0"
}

# The lowest-numbered thread at such a place.
function lowest(places,    t) {
    for (t = 0; t < threads; t++) if (place[t] ~ places) return t
}

# A thread waits where its next step is a look or an exchange that fails.
function waiting(    t, any) {
    if (NR - ended < due()) wrong("why has answered " (NR - ended) " of " due() " lines")
    for (t = 0; t < threads; t++) {
        if (!reason[t]) continue
        if (!any++) print ""
        print "thread " t " " reason_in_words(t)
    }
}

function reason_in_words(t) {
    if (reason[t] == 1) return full(rc)
    if (reason[t] == 2) return "waits: it saw " seen[t] ", the count is " rc
    if (reason[t] == 3) return "waits: the flag is up, thread " beside[t] " holds it"
    if (reason[t] == 4) return "waits for ever: the flag is up, by a dropped handle"
    if (reason[t] == 6) return "waits for ever: the count is not 0, dropped handles only"
    return "waits" for_ever(dropped_reads) ": the count is not 0, thread " beside[t] " is counted" (dropped_reads ? ", and so is a dropped handle" : "")
}
