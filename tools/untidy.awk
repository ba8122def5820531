# Prints in one line why drain is refused with 17: why the state at the end of a trace, with what is left of the scripts, is not tidy
# (docs/RULES.md, section 12), and what to do about it. It is the first reason in that section's order: a dropped handle, into_inner begun
# or finished, then the threads in number order and the operations of each in order.
# usage: LC_ALL=C awk -f tools/rows.awk -f tools/untidy.awk SCENARIO TRACE        (TRACE may be - for standard input)
# Where it finds no reason, it says so and its status is 3. Where TRACE is not the trace of SCENARIO, standard error says so and it is 2.

function head() {}
function row() {}
function behind(k) { stop("line " k " behind the empty one is none of a trace: give the trace alone") }

# Of a scenario that is refused itself, drain cannot be asked, and its op lines may be cut short.
function last(    t, reason) {
    if (refusal != "" && refusal != 17) reason = "the scenario itself is refused, with " refusal " at line " refused_line ": mend that line first"
    else reason = of_the_lock()
    for (t = 0; t < threads && reason == ""; t++) reason = of_the_rest(t)
    if (reason == "") reason = "no reason was found in this scenario and trace: tell those who keep Trestlecat"
    else found = 1
    print "trestlecat: refused 17: " reason
    if (!found) exit 3
}

# 'thread 1, operation 3 of its script, drop (6)'
function whose(t, i,    o) {
    o = op[t, i]
    return "thread " t ", operation " (i + 1) " of its script, " NAME[o] " (" o ")"
}

function line_of(t, i) { return "op," t "," op[t, i] "," value[t, i] }

function of_the_lock() {
    if (dropped_reads + dropped_writes > 0)
        return whose(dropper, drop - 1) ", has given up its " handle(dropped_reads ? "Reading" : "Writing") \
            " without a release: " release_instead(dropper, dropped_reads ? "Reading" : "Writing")
    if (mover != "") return whose(mover, at[mover]) ", has begun, and no other thread can go on: " take_out(mover, at[mover])
    if (finisher != "") return whose(finisher, finish - 1) ", has finished the lock: " take_out(finisher, finish - 1)
    return ""
}

function take_out(t, i) { return "take its line out, " line_of(t, i) }
function handle(at) { return at == "Reading" ? "read handle" : "write handle" }

# The op line that releases the handle, at `where`.
function release(t, at, where) { return at == "Reading" ? "op," t ",3,0 " where : "op," t ",5,V " where ", with V the value to put" }
function release_instead(t, at) { return "write " release(t, at, "in place of op," t ",6,0") }

# The rest of a script is followed from the place where the operation under way began.
function of_the_rest(t,    at_place, i, o) {
    at_place = place[t] == "Reading" ? "Reading" : place[t] ~ /^(Writing|WritePut)$/ ? "Writing" : "Idle"
    for (i = at[t]; i < ops[t]; i++) {
        o = op[t, i]
        if (!((at_place, o) in ACCESS)) return whose(t, i) ", does not fit, since " misfit(t, i, at_place)
        if (o == 6) return whose(t, i) ", would give up its " handle(at_place) " without a release: " release_instead(t, at_place)
        if (o == 7) return whose(t, i) ", is still to come, and would finish the lock: " take_out(t, i)
        if (o == 5 && !permits(value[t, i])) return whose(t, i) ": " value[t, i] " is not permitted: put " permitted_one()
        if (o != 2) at_place = o == 1 ? "Reading" : o == 4 ? "Writing" : "Idle"
    }
    if (at_place == "Idle") return ""
    return "thread " t " ends its script with a " handle(at_place) " held: add " release(t, at_place, "behind its last op line")
}

# An operation that does not fit at Idle wants a handle that is not there; elsewhere the handle is of the other kind, or in the way. What to do
# must not lead to the next misfit at the same line: behind a release only an acquire fits.
function misfit(t, i, at_place,    o, has) {
    o = op[t, i]
    has = "the thread would have " (at_place == "Idle" ? "no handle" : "a " handle(at_place)) " there: "
    if (at_place == "Idle" && o == 6) return has "take it out"
    if (at_place == "Idle") return has "take it out, or put op," t (o == 5 ? ",4,0 (acquire_write)" : ",1,0 (acquire_read)") " before it"
    if (o == 3 || o == 5) return has "write " release(t, at_place, "in place of " line_of(t, i))
    return has "take it out" (o == 1 || o == 4 ? ", or put " release(t, at_place, "before it") : "")
}

function permitted_one() { return kind == 2 ? "an " (a == "0" ? "even" : "odd") " number" : permitted() }
