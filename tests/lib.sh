# What tests share.

# built: every program of the command is, so that it says nothing of that later
built() {
    for command in run why drain wave; do ./trestlecat "$command" examples/case-a.csv; done >/dev/null 2>&1
    ./trestlecat unwave examples/case-a.vcd >/dev/null 2>&1
}

# program NAME: the path of a program of the command, the newer one of that which is proved and that which is built without proofs
program() {
    built=$(ls -t "target/proved/$1" "target/quick/$1" 2>/dev/null | head -n 1)
    [ -n "$built" ] || { echo "$1 is not built: './trestlecat prove' builds it, and so does its command, without proofs" >&2; return 1; }
    echo "$built"
}

# copied FOLDER: the crates as they are, without what rt has made of them
copied() {
    for part in crates/*/*; do
        case $part in */out) continue ;; esac
        mkdir -p "$1/${part%/*}"
        cp -R "$part" "$1/${part%/*}"
    done
    for file in crates.txt HANDLES; do [ ! -f "$file" ] || cp "$file" "$1"; done
}

# signals: what unwave prints for the waveform of the trace on standard input; both signals are 0 before the first row
signals() {
    LC_ALL=C awk -F, '
        BEGIN { printf "time,exc,rc\r\n0,0,0\r\n" }
        NR > 1 && !/^refused,/ { print NR - 1 "," $6 "," $7 }'
}

# apply EDIT: in this folder; every old text has to stand in its file just once
apply() {
    awk -v edit="$1" '
    function times(text, part,    n, at) {
        while (at = index(text, part)) { n++; text = substr(text, at + length(part)) }
        return n + 0
    }
    function stop(why) { print edit ": " why > "/dev/stderr"; exit 1 }
    function read(name,    line) {
        whole = ""
        while ((getline line < name) > 0) whole = whole line "\n"
        close(name)
    }
    /^file: / { file = substr($0, 7) }
    /^old: / { old = substr($0, 6) }
    /^new:/ {
        if (old == "") stop("no old: before new:")
        read(file)
        if (times(whole, old) != 1) stop("not once in " file ": " old)
        at = index(whole, old)
        new = substr($0, 5)
        sub(/^ /, "", new)
        printf "%s", substr(whole, 1, at - 1) new substr(whole, at + length(old)) > file
        close(file)
        old = ""
    }' "$1"
}
