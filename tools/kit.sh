# Where the kit is, and how a built program is run. The command at the root, the tests and the measurements share it.
# It sets home, the kit's folder, and kit, the part of it that has the compiler's tools; both are empty without rt.
home= kit=
if command -v rt >/dev/null; then
    home=$(dirname "$(dirname "$(readlink -f "$(command -v rt)")")")
    # rt may be called by another script: then rt itself is asked, which takes longer
    [ -d "$home/toolchain" ] || home=$(dirname "$(rt doc)")
    kit=$home/toolchain
fi

# run PROGRAM: with the loader and the C library that the kit builds programs with. So a file that is no program is refused, and no shell runs it.
run() {
    "$kit/lib/ld-linux-x86-64.so.2" --library-path "$kit/lib" "$@"
}

# The programs of the command.
programs="program_run program_why program_drain program_wave program_unwave"

# keep PROGRAM..: what rt has built becomes the command's, in target/proved: rt builds what is proved and nothing else, and may remove it later. Where
# the text was changed after target/began was made, the text is newer.
keep() {
    for built; do
        mkdir -p target/proved && cp "crates/$built/out/$built" "target/proved/$built.$$" &&
            touch -r target/began "target/proved/$built.$$" && mv "target/proved/$built.$$" "target/proved/$built" || return
    done
} 2>/dev/null

# below CRATE..: these crates and all that they stand on, a line each, libraries before those that use them, in the order in which rt builds them.
# The kit's own libraries are left out. It is to be called in the folder of crates.txt.
below() {
    LC_ALL=C awk -v wanted="$*" '
        function visit(name,    n, i, part) {
            if (!(name in uses) || name in seen) return
            seen[name]
            n = split(uses[name], part, " ")
            for (i = 1; i <= n; i++) visit(part[i])
            print name
        }
        /^[a-z]/ { name = $1; sub(/:.*/, "", name); sub(/^[^:]*:/, ""); uses[name] = $0 }
        END {
            n = split(wanted, list, " ")
            for (i = 1; i <= n; i++) visit(list[i])
        }' crates.txt
}
