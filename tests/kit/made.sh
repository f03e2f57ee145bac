# Sourced: what rt makes of the crates, and where it stands: the library for C in target/staticlib, the programs in target/bin.

# The library is compiled for any x86-64 processor, as the header says; left alone the kit asks for a later one.
processor=x86-64

# packed: the library for C, proved and packed by `rt lib`.
packed() {
    (cd crates/simmergate_c && rt lib --cpu "$processor") || return 1
    mkdir -p target/staticlib
    cp crates/simmergate_c/out/libsimmergate_c.a target/staticlib/libsimmergate.a
}

# linked NAME ..: the programs, each proved and linked by `rt run`, which then runs it, here on nothing; what it says of that is left out.
# Where SIMMERGATE_PROGRAMS names a folder, they are taken from there.
linked() {
    mkdir -p target/bin
    for crate; do
        if [ -n "${SIMMERGATE_PROGRAMS:-}" ]; then
            made=$SIMMERGATE_PROGRAMS/$crate
        else
            made=crates/$crate/out/$crate
            (cd "crates/$crate" && rt run </dev/null 2>&1 || :) >"target/bin/$crate.log"
            grep -q "^rt: running out/$crate;" "target/bin/$crate.log" || { cat "target/bin/$crate.log"; return 1; }
        fi
        [ -f "$made" ] || { echo "$0: there is no $made"; return 1; }
        [ "$made" -ef "target/bin/$crate" ] || cp "$made" "target/bin/$crate"
    done
}

# repacked TOOLS OUT: the library for C once more, with these tools in place of the kit's, by the words that rt hands to the compiler, from the libraries
# that stand in crates/*/out/rlib.
repacked() {
    its_tools=$1 its_place=$2
    set --
    for crate in $(sed -n 's/^simmergate_c staticlib *://p' crates.txt); do set -- "$@" --extern "$crate=crates/$crate/out/rlib/$crate.rlib"; done
    [ $# -gt 0 ] || { echo "$0: crates.txt has no line simmergate_c staticlib: .."; return 1; }
    for folder in crates/*/out/rlib; do set -- "$@" -L "dependency=$folder"; done
    "$kit/bin/rattle" build --crate-name simmergate_c crates/simmergate_c/src/lib.rt --extern "std=$kit/rlibs/std.rlib" -L "dependency=$kit/rlibs" "$@" \
        --antt-project "$kit/rattle/logic/antt-project.json" --logic-built "$kit/logic_built" --links simmergate_c= --cpu "$processor" \
        --crate-type staticlib --toolchain "$its_tools" --backend llvm -o "$its_place"
}
