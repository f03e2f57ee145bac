# Sourced by bench/run and its neighbours: the kit's C tools (tests/kit/c.sh) and a counter of the instructions of an x86-64 program.
#
# Instructions are counted by qemu's user emulator with a plugin (bench/count.c), by Debian's names qemu-user and gcc, or, on x86-64 where
# there is no such emulator, by valgrind. QEMU names the emulator where it is elsewhere; the kit's own takes no plugin.
b=target/bench
mkdir -p "$b"
qemu=${QEMU:-qemu-x86_64} counter=qemu missing=
if ! command -v "$qemu" >/dev/null; then missing="no $qemu"
elif ! ${CC:-cc} -shared -fPIC -O2 -o "$b/count.so" bench/count.c >"$b/count.log" 2>&1; then missing="${CC:-cc} does not compile bench/count.c (see $b/count.log)"
elif ! "$qemu" -plugin "$PWD/$b/count.so" -version >"$b/count.log" 2>&1; then missing="$qemu takes no plugin"
fi
if [ -n "$missing" ]; then
    counter=valgrind
    [ "$(uname -m)" = x86_64 ] || { echo "$0: nothing to count instructions with: $missing"; exit 1; }
    command -v valgrind >/dev/null || { echo "$0: nothing to count instructions with: $missing, and no valgrind"; exit 1; }
fi
[ -n "${SIMMERGATE_ARCHIVE:-}" ] || echo "$0: rt packs libsimmergate.a first; where the crates are not proved yet that takes minutes" >&2
. tests/kit/c.sh
loader="$tools/lib/ld-linux-x86-64.so.2 --library-path $tools/lib"

# counted PROGRAM ARGUMENTS: the instructions of one run; a program of the kit is $loader $programs/NAME. The processor is one without fast
# repeated stores, which would be counted a byte at a time.
counted() {
    if [ "$counter" = qemu ]; then
        "$qemu" -cpu max,-erms -plugin "$PWD/$b/count.so" -d plugin -D "$b/counted" "$@" >"$b/said" 2>&1
    else
        GLIBC_TUNABLES=glibc.cpu.hwcaps=-ERMS valgrind --tool=callgrind --callgrind-out-file=/dev/null --log-file="$b/counted" "$@" >"$b/said" 2>&1
    fi || { echo "$0: failed: $*" >&2; cat "$b/said" >&2; return 1; }
    n=$(sed -n 's/^instructions //p; s/.*Collected : //p' "$b/counted")
    [ -n "$n" ] || { echo "$0: $counter gives no count for: $*" >&2; return 1; }
    echo "$n"
}

# passes WORDS: the instructions of one pass over what stands in $b/tables, of which `WORDS N` makes N. The fixed cost of a process goes away by
# runs with different numbers of passes: none and one where a pass is long, else one and enough of them to be exact.
passes() {
    none=$(counted "$@" 0 <"$b/tables") && one=$(counted "$@" 1 <"$b/tables") || exit 1
    each=$((one - none))
    if [ "$each" -lt 50000000 ]; then
        times=$((each < 5000000 ? 21 : 2))
        more=$(counted "$@" $((times + 1)) <"$b/tables") || exit 1
        each=$(((more - one) / times))
    fi
    echo "$each"
}

# carried NAME WEIGHT: the last two counts of a program carried on to this weight by their growth, which is taken to be at most the power $steepest; nothing
# where there are no two.
carried() {
    [ ! -f "$b/last-$1" ] || awk -v to="$2" -v steepest="${steepest:-9}" '
        $2 != "-" { w[1] = w[2]; n[1] = n[2]; w[2] = $1; n[2] = $2; counts++ }
        END { if (counts > 1) { p = log(n[2] / n[1]) / log(w[2] / w[1]); printf "%.0f\n", n[2] * (to / w[2]) ^ (p < steepest ? p : steepest) } }' "$b/last-$1"
}

# too_long NAME WEIGHT: whether that is over $most million.
too_long() {
    expected=$(carried "$1" "$2")
    awk -v n="${expected:-0}" -v most="$most" 'BEGIN { exit !(n > most * 1000000) }'
}

# measured PROGRAM NAME WEIGHT: the count, or `-` where it is left out; remembers what was counted, for the growth.
measured() {
    [ -n "$1" ] || { echo -; return; }
    n=-
    too_long "$2" "$3" || n=$(passes $1) || exit 1
    echo "$3 $n" >>"$b/last-$2"
    echo "$n"
}
