# Sourced by the tests that are C programs over the archive: they are built by tests/kit/cc and run by tests/kit/run.
# SIMMERGATE_ARCHIVE names the archive under test; where it is not set, libsimmergate.a is packed first (tests/kit/made.sh).
. tests/kit/kit.sh
. tests/kit/made.sh
programs=target/c
mkdir -p "$programs"
if [ -z "${SIMMERGATE_ARCHIVE:-}" ]; then
    packed >"$programs/staticlib.log" 2>&1 || { cat "$programs/staticlib.log"; echo "$0: rt lib in crates/simmergate_c failed"; exit 1; }
    SIMMERGATE_ARCHIVE=target/staticlib/libsimmergate.a
    export SIMMERGATE_ARCHIVE
fi
[ -f "$SIMMERGATE_ARCHIVE" ] || { echo "$0: no archive at $SIMMERGATE_ARCHIVE"; exit 1; }

# build NAME SOURCE ..: the program target/c/NAME from C files and the archive.
build() {
    name=$1
    shift
    tests/kit/cc "$programs/$name" "$@" "$SIMMERGATE_ARCHIVE"
}

# run NAME ARGUMENTS
run() {
    name=$1
    shift
    tests/kit/run "$programs/$name" "$@"
}
