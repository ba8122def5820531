#!/bin/sh
# Compares a program with the second program, oracle/lock.rs, on every scenario file that oracle/scenarios.rs makes, byte for byte.
# usage: tests/compare.sh [-d | -y] [-f FAMILY] [-e EVERY] [-w WORKERS] [PROGRAM [WORD...]]
#   -d                      compares what `drain` prints, by program_drain and program_run in a pipe as the command has them
#   -y                      compares what `why` prints, by program_why where no program is given. The files of plays and triples end with all
#                           scripts at their end, so that every answer is 12 there
#   PROGRAM and its words   a path from the repository's root; reads a scenario on standard input and prints its trace. Where none is given it is
#                           the command's program_run, the newer one of that which is proved and that which is built without proofs
#   -f FAMILY               takes one family of files only, as `scenarios.rs` names them (all)
#   -e EVERY                takes every EVERY-th file of each family only (1, which is 100,645 files)
#   -w WORKERS              so many files at a time (2)
# Each file costs two processes.
# Its status is 0 where nothing differs. Files on which the two differ, up to twenty of each family, are kept in target/compare.
set -eu
cd "$(dirname "$0")/.."
. tests/lib.sh
. tools/kit.sh
family=all
word=run
every=1
workers=2
while getopts dyf:e:w: option; do
    case $option in
    d) word=drain ;;
    y) word=why ;;
    f) family=$OPTARG ;;
    e) every=$OPTARG ;;
    w) workers=$OPTARG ;;
    *) exit 2 ;;
    esac
done
shift $((OPTIND - 1))
# The pipe that drain needs is made below, of program_run and another.
if [ $# -eq 0 ]; then
    case $word in
    why) program=$(program program_why) || exit 2 ;;
    *) program=$(program program_run) || exit 2 ;;
    esac
    set -- "$program"
fi
case $1 in
*/*)
    [ -x "$1" ] || {
        echo "compare: no program $1: build it first" >&2
        exit 2
    }
    ;;
esac
command -v rustc >/dev/null || {
    echo "compare: rustc is needed to build oracle/lock.rs and oracle/scenarios.rs" >&2
    exit 2
}
rm -rf target/compare
mkdir -p target/compare
rustc -O --edition 2021 oracle/lock.rs -o target/compare/lock
rustc -O --edition 2021 oracle/scenarios.rs -o target/compare/scenarios
second=target/compare/lock
if [ "$word" != run ]; then
    second=target/compare/second
    # It is started with the word run.
    printf '#!/bin/sh\nexec target/compare/lock %s\n' "$word" >"$second"
    chmod +x "$second"
fi
if [ "$word" = drain ]; then
    first=$(program program_drain) || exit 2
    cat >target/compare/drain <<END
#!/bin/sh
# The last line is what program_drain says.
. tools/kit.sh
{ said=\$({ run $first 2>&3 4>&- | run $1 2>/dev/null >&4; } 3>&1); } 4>&1
[ -z "\$said" ] || printf '%s\n' "\$said"
END
    chmod +x target/compare/drain
    set -- target/compare/drain
fi
case $1 in
*/program_*) set -- "$kit/lib/ld-linux-x86-64.so.2" --library-path "$kit/lib" "$@" ;;
esac
target/compare/scenarios compare "$workers" "$every" "$family" target/compare "$second" "$@"
