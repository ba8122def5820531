# What the measurements of whole programs share: a scenario file in, through ours and through plain C, in one run. Both must print the same bytes.

# scenario SHAPE ENTRIES: case L, in which every entry is accepted, however many there are.
# long: run lines of 65,535 entries, the writer waits. short: a run line an entry, the cycle in which nobody is served.
# full: the run lines of long, with 16 threads of 64 operations each instead of 3 of 2, since every piece of 64 entries tests all the scripts.
scenario() {
    awk -v shape="$1" -v entries="$2" '
        function line(text) { printf "%s\r\n", text }
        function section(t, first, last) { line("op," t "," first); line("op," t "," last) }
        BEGIN {
            threads = shape == "full" ? 16 : 3
            sections = shape == "full" ? 32 : 1
            line("kind,a,b,c")
            line("lock,2,5," threads)
            line("pred,1,5,13")
            for (t = 0; t < threads; t++)
                for (k = 0; k < sections; k++)
                    if (t < 2) section(t, "1,0", "3,0")
                    else section(t, "4,0", "5,13")
            line("run,0,2,0")
            line("run,2,1,0")
            split("1 1 0 0 2 0 0 1 1 2", cycle, " ")
            left = entries - 3
            if (shape == "short") for (k = 0; k < left; k++) line("run," cycle[k % 10 + 1] ",1,0")
            else for (; left > 0; left -= times) { times = left < 65535 ? left : 65535; line("run,2," times ",0") }
        }'
}

# measure NAME SHAPE ENTRIES: our program of the command NAME and bench/NAME.c; what both print is left in target/bench/ours
measure() {
    scenario "$2" "$3" >target/bench/scenario
    run "crates/program_$1/out/program_$1" <target/bench/scenario >target/bench/ours
    run "target/bench/$1" <target/bench/scenario >target/bench/theirs
    cmp target/bench/ours target/bench/theirs >&2 || fail "the two print other bytes: compare target/bench/ours and target/bench/theirs"
    whole "$3" || fail "not a row for each entry in target/bench/ours"
    race "crates/program_$1/out/program_$1" "target/bench/$1" target/bench/scenario |
        awk -v s="$2" -v e="$3" '{ printf "%6s %10d %12.4f %12.4f %8.2f %16.0f\n", s, e, $1, $2, $1 / $2, e / $1 }'
}

# measure_all NAME ENTRIES...: all shapes; the caller defines whole, which says whether target/bench/ours has the rows of so many entries
measure_all() {
    name=$1
    shift
    build "program_$name"
    build_c "bench/$name.c" "target/bench/$name"
    printf '%6s %10s %12s %12s %8s %16s\n' lines entries "ours s" "C s" ratio "ours entries/s"
    for shape in long short full; do
        for entries in "$@"; do
            measure "$name" "$shape" "$entries"
        done
    done
}
