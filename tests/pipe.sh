#!/bin/sh
# Sends scenario files that oracle/scenarios.rs makes through a pipe in pieces of 1 to 9 bytes (oracle/cut.rs), each of which the program reads by
# itself, and with every CR LF cut in two. The programs of `run` and `why` must print what the second program, oracle/lock.rs, prints for the whole file, and that of `wave`
# what it prints for the whole file itself, the line of a refusal too, byte for byte.
# usage: tests/pipe.sh [-e EVERY] [-w WORKERS] [FAMILY=EVERY...]
#   FAMILY=EVERY   every EVERY-th file of a family, as `scenarios.rs` names them (edges=1 damaged=8 short=40 long=50, which is 3,356 files)
#   -e EVERY       takes every EVERY-th of those files only (1)
#   -w WORKERS     so many files at a time (2)
# Its status is 0 where nothing differs. Files on which the two differ, up to twenty of each family, are kept in target/pipe. The gate does not
# run it, since it needs rustc.
set -eu
cd "$(dirname "$0")/.."
. tests/lib.sh
. tools/kit.sh
every=1
workers=2
while getopts e:w: option; do
    case $option in
    e) every=$OPTARG ;;
    w) workers=$OPTARG ;;
    *) exit 2 ;;
    esac
done
shift $((OPTIND - 1))
[ $# -gt 0 ] || set -- edges=1 damaged=8 short=40 long=50
families=$*
fail() {
    echo "pipe: $1" >&2
    exit 2
}
command -v rustc >/dev/null || fail "rustc is needed to build the programs in oracle/"
run=$(program program_run) || exit 2
why=$(program program_why) || exit 2
wave=$(program program_wave) || exit 2
folder=target/pipe
rm -rf "$folder"
mkdir -p "$folder/run" "$folder/why" "$folder/wave"
for name in lock scenarios cut; do rustc -O --edition 2021 "oracle/$name.rs" -o "$folder/$name"; done
set -- "$kit/lib/ld-linux-x86-64.so.2" --library-path "$kit/lib"
# The waveform of the whole file. It is started with the word run, as the second program is. The line of a refusal goes behind the waveform.
cat >"$folder/whole" <<END
#!/bin/sh
exec $* $wave 2>&1
END
# What the second program answers for the whole file.
cat >"$folder/answers" <<END
#!/bin/sh
exec $folder/lock why
END
# The waveform of the file in pieces, with the same behind it.
cat >"$folder/pieces" <<'END'
#!/bin/sh
exec "$@" 2>&1
END
chmod +x "$folder/whole" "$folder/answers" "$folder/pieces"
differ=0
printf '%-7s %-10s %9s %10s %8s %12s %12s %9s\n' program family files rows refused "bytes in" "bytes out" different

# compare PROGRAM EVERY FAMILY SECOND COMMAND..: the line of the family, with the program's name before it
compare() {
    program=$1 nth=$2 family=$3
    shift 3
    "$folder/scenarios" compare "$workers" "$nth" "$family" "$folder/$program" "$@" >"$folder/report" || differ=1
    awk -v p="$program" -v f="$family" '
        $1 == f && $2 > 0 { any = 1; printf "%-7s %-10s %9s %10s %8s %12s %12s %9s\n", p, f, $2, $3, $4, $5, $6, $7 }
        END { exit !any }' "$folder/report" || fail "no files of $family"
}

# the rows of wave are the lines of the waveform but one, those of why the lines of its answers but one
for chosen in $families; do
    nth=$((${chosen#*=} * every))
    family=${chosen%=*}
    compare run "$nth" "$family" "$folder/lock" "$folder/cut" "$@" "$run"
    compare why "$nth" "$family" "$folder/answers" "$folder/cut" "$@" "$why"
    compare wave "$nth" "$family" "$folder/whole" "$folder/pieces" "$folder/cut" "$@" "$wave"
done
exit "$differ"
