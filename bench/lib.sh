# What the measurements share: how ours and a C program are built, and how two programs are timed.
. tools/kit.sh
mkdir -p target/bench

fail() {
    echo "bench: $1" >&2
    exit 1
}

# build PROGRAM: it is proved and built, as crates/PROGRAM/out/PROGRAM. rt runs it then, on nothing.
build() {
    (cd "crates/$1" && rt run </dev/null >/dev/null 2>&1) || fail "$1 is not proved: run rt check in crates/$1"
}

# build_c FILE.c PROGRAM: with the compiler, the linker and the C library that the kit builds its own programs with
build_c() {
    "$kit/bin/clang" --target=x86_64-unknown-linux-gnu -O3 -fPIE -c "$1" -o "$2.o"
    "$kit/bin/ld.lld" -pie -dynamic-linker /lib64/ld-linux-x86-64.so.2 -o "$2" "$kit/lib/Scrt1.o" "$kit/lib/crti.o" "$kit/lib/crtbeginS.o" \
        "$2.o" "$kit/lib/libc.so.6" "$kit/lib/libc_nonshared.a" "$kit/lib/ld-linux-x86-64.so.2" "$kit/lib/crtendS.o" "$kit/lib/crtn.o"
}

# race PROGRAM OTHER INPUT: the shortest of five times of each, in seconds. They take turns, so that whatever else the machine does meets both.
race() {
    for _ in 1 2 3 4 5; do
        for program in "$1" "$2"; do
            from=$(date +%s%N)
            run "$program" <"$3" >/dev/null
            to=$(date +%s%N)
            echo $((to - from))
        done
    done | awk '
        { k = NR % 2; if (NR < 3 || $1 < best[k]) best[k] = $1 }
        END { printf "%.6f %.6f\n", best[1] / 1e9, best[0] / 1e9 }'
}
