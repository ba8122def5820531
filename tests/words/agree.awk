# Whether a trace and its words agree, line by line: number, thread, flag and count, that the words are those of the row's access and stay in
# their column, and that what is said to have beaten an exchange did so; and then, behind an empty line, whether the words about each thread
# that waits are those of its reason. It looks at the rows and at the answers of why alone and follows no scenario, so it shares no mistake
# with tools/rows.awk.
# usage: LC_ALL=C awk -f tests/words/agree.awk TRACE ANSWERS WORDS
BEGIN {
    FS = ","
    split("looks_at_the_count:|waits counts_itself: no_writer:|waits takes_itself_off borrows gives_its_read_handle" \
        " puts_the_flag_up: the_count_is_0:|waits|may_take takes puts puts_the_flag_down: drops_its waits:_saw waits", START, " ")
    DID["counted itself"] = 2
    DID["took itself off"] = 4
    DID["gave a handle back"] = 6
}
{ sub(/\r$/, "") }
FNR == 1 { file++ }
file == 1 {
    line[FNR] = $0
    lines = FNR
    # A row stands two lines below its number; before the first the count is 0. One that makes no access is kept as nobody's.
    who[FNR - 2] = $4 == "0" ? $2 : ""
    access[FNR - 2] = $3
    got[FNR - 2] = $5
    exc[FNR - 2] = $6
    rc[FNR - 2] = FNR < 2 ? 0 : $7
    next
}
file == 2 {
    if (FNR > 1 && $3 != "0") {
        waits[++waiting] = $1
        reason[waiting] = $3
        beside[waiting] = $4
    }
    next
}
FNR == lines + 1 && ($0 != "" || !waiting) { bad = 1 }
FNR > lines + 1 && !end_told($0, FNR - lines - 1) { bad = 1 }
FNR > 1 && FNR <= lines && line[FNR] !~ /^refused/ {
    n = split(line[FNR], f, ",")
    count = split($0, word, " ")
    if (word[1] != f[1] || word[2] != f[2] || word[count] != f[7] || word[count - 1] != (f[6] ? "up" : "down")) bad = 1
    text = $0
    sub(/^ *[0-9]+ +[0-9]+  /, "", text)
    sub(/ +(up|down) +[0-9]+$/, "", text)
    # The words of a refusal may name two values of twenty digits; no others are wider than their column.
    if (f[4] == 0 && length(text) > 70) bad = 1
    sub(/^into_inner /, "", text)
    start = f[4] ? "refused " f[4] ": [a-z0-9]" : "^(" START[f[3]] ")"
    gsub(/_/, " ", start)
    if (text !~ start || text ~ /  | $|: *$/) bad = 1
    # Of these accesses the words show what was got.
    if (f[3] ~ /^(2|5|9|10)$/ && (" " text " ") !~ (" " f[5] " ")) bad = 1
    if (f[3] == 13 && !count_lost(f[1], text) || f[3] == 14 && !flag_lost(f[1], text)) bad = 1
}
FNR > 1 && FNR <= lines && line[FNR] ~ /^refused/ && $0 !~ /^the scenario is refused/ { bad = 1 }
bad {
    print "line " FNR " of the words: " $0
    exit 1
}
END { if (bad || FNR != lines + (waiting ? waiting + 1 : 0)) exit 1 }

# The row before n that thread t made last, -1 for none.
function before(n, t) {
    for (n--; n >= 0; n--) if (who[n] == t) return n
    return -1
}

# 'thread T did this (row N)', in a row before n: sets by, did and row.
function named(n, text) {
    if (text !~ /^thread [0-9]+ [a-z ]+ \(row [0-9]+\)$/) return 0
    split(text, part, " ")
    by = part[2]
    did = text
    gsub(/^thread [0-9]+ | \(row [0-9]+\)$/, "", did)
    row = text
    gsub(/.*\(row |\)$/, "", row)
    return row + 0 < n + 0
}

# 'waits: saw S, found F: ...': the thread's last row loaded S, and F is there now. In the row named, behind that one, the other thread made the
# count leave S, which it did not come back to.
function count_lost(n, text,    part, looked, i) {
    if (split(text, part, ": ") != 3 || !named(n, part[3])) return 0
    looked = before(n, who[n])
    if (part[2] != "saw " got[looked] ", found " got[n] || access[looked] != 1 || got[n] != rc[n]) return 0
    if (who[row] != by || access[row] != DID[did] || row + 0 <= looked || rc[row - 1] != got[looked]) return 0
    for (i = row + 0; i <= n; i++) if (rc[i] == got[looked]) return 0
    return 1
}

# Either the thread named put the flag up in that row and it stayed up, and it has not dropped its handle; or it took the value and dropped it.
function flag_lost(n, text,    i) {
    if (got[n] != 1) return 0
    if (sub(/^waits: the flag is up, put up by thread /, "thread ", text)) {
        sub(/ \(/, " did (", text)
        if (!named(n, text) || who[row] != by || access[row] != 7 || access[before(n, by)] == 12) return 0
        for (i = row + 0; i <= n; i++) if (exc[i] != 1) return 0
        return 1
    }
    if (!sub(/^waits for ever: /, "", text) || !named(n, text)) return 0
    return did == "dropped its handle" && who[row] == by && access[row] == 12 && access[before(row, by)] == 9
}

# 'thread T waits: ...' or 'thread T waits for ever: ...', of the k-th thread that waits.
function end_told(text, k,    ever) {
    if (!sub("^thread " waits[k] " waits", "", text) || waits[k] == "") return 0
    ever = sub(/^ for ever/, "", text)
    if (!sub(/^: /, "", text)) return 0
    return reason[k] <= 2 || reason[k] > 4 ? end_of_count(text, k, ever) : end_of_flag(text, k, ever)
}

# A number of the words is that of a row: the count is what the last row left, and what a thread saw is what its last row got.
function end_of_count(text, k, ever,    count, dropped, looked) {
    count = rc[lines - 2]
    dropped = drops(0)
    if (reason[k] == 1) return ever == (dropped == count) && text == "the count is full (" count ")" (ever ? " of dropped handles" : "")
    if (reason[k] == 2) {
        looked = before(lines - 1, waits[k])
        return !ever && access[looked] == 1 && got[looked] != count && text == "it saw " got[looked] ", the count is " count
    }
    if (!sub(/^the count is not 0, /, "", text) || count == 0 || ever != (dropped > 0)) return 0
    if (reason[k] == 6) return dropped == count && text == "dropped handles only"
    return dropped < count && text == "thread " beside[k] " is counted" (ever ? ", and so is a dropped handle" : "")
}

# The flag is held by whoever put it up last, or it was dropped, which happens once.
function end_of_flag(text, k, ever,    n) {
    for (n = lines - 2; n >= 0 && (access[n] != 7 || who[n] == ""); n--) continue
    if (n < 0 || exc[lines - 2] != 1 || ever != drops(1)) return 0
    if (reason[k] == 4) return ever && text == "the flag is up, by a dropped handle"
    return !ever && who[n] == beside[k] && text == "the flag is up, thread " beside[k] " holds it"
}

# How many write handles were dropped (1), or read handles (0): right behind a take it is a write handle.
function drops(writes,    n, count) {
    for (n = 0; n <= lines - 2; n++) if (access[n] == 12 && (access[before(n, who[n])] == 9) == writes) count++
    return count + 0
}
