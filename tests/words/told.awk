# Stands in for the programs in tests: from the bytes of a scenario file, as `od -An -v -tu1` prints them, the two lines that a program tells
# of a refusal (tools/refused.awk says what is in them), and nothing where the file is not refused. By docs/RULES.md, section 16.
# usage: od -An -v -tu1 FILE | LC_ALL=C awk -f tests/words/told.awk

BEGIN { top = first = threads = "0"; thread = 0 }
{ for (i = 1; i <= NF && !refused; i++) take($i + 0) }
END {
    if (refused) exit
    if (cr) add(13)
    if (len > 0) ended()
    if (!refused && stage < 3) {
        lines++
        tell(32)
    }
}

# A CR is part of its line where no LF comes behind it.
function take(b) {
    if (b == 10 && cr) {
        cr = 0
        ended()
        return
    }
    if (cr) add(13)
    cr = b == 13
    if (!cr) add(b)
}

function add(b) {
    if (++len > 80) return
    bytes = bytes "," b
    text = text (b >= 32 && b <= 126 ? sprintf("%c", b) : "?")
    if (b == 34 || b == 13 || b == 10) bad = 1
}

function ended(    number) {
    lines++
    number = check()
    if (number) tell(number)
    len = bad = 0
    bytes = text = ""
}

function tell(number) {
    refused = 1
    printf "refused,%s,%s\r\nread,%s,%s,%s,%s,%s,%s%s\r\n", number, lines, stage, top, first, threads, thread, (len > 80 ? 81 : len), bytes
}

# The number with which the line is refused. Where it is 0, the line is taken.
function check(    f) {
    if (len > 80 || bad || split(text, f, ",") != 4) return 31
    if (stage == 0) return text == "kind,a,b,c" ? next_stage(1) : 32
    if (!good(f[2]) || !good(f[3]) || !good(f[4])) return 31
    if (f[1] == "run" && (above(f[2], "255") || f[3] == "0" || above(f[3], "65535") || f[4] != "0")) return 31
    if (stage == 1 && f[1] == "lock") {
        top = f[2]
        first = f[3]
        threads = f[4]
        return next_stage(2)
    }
    if (stage == 2 && f[1] == "pred") return pred(f[2], f[3], f[4])
    if (stage == 3 && f[1] == "op") return op(f[2], f[3], f[4])
    return stage > 2 && f[1] == "run" ? next_stage(4) : 32
}

function next_stage(s) { stage = s; return 0 }
function good(x) { return x ~ /^(0|[1-9][0-9]*)$/ && !above(x, "18446744073709551615") }
function above(x, y) { return length(x) > length(y) || length(x) == length(y) && x "" > y "" }

function pred(k, a, b) {
    if (threads == "0" || above(threads, "16")) return 1
    if (top == "0") return 2
    if (above(k, "2") || k == "2" && above(a, "1")) return 3
    if (k == "1" && first "" != a "" && first "" != b "" || k == "2" && substr(first, length(first)) % 2 != a) return 4
    return next_stage(3)
}

function op(t, code, v) {
    if (!above(threads, t) || above(thread, t)) return 32
    if (++ops[t] > 64) return 5
    if (code !~ /^[1-7]$/ || code != "5" && v != "0") return 7
    thread = t
    return 0
}
