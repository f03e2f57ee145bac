# Sourced by tests/definitions and its like, which have the checker compute definitions: $scratch is a folder with copies of crates and a crate `lines` above them,
# in whose proofs the statements stand. A failed statement is an error that names the entry.
scratch=$(mktemp -d)
trap 'rm -rf "$scratch"' EXIT
mkdir -p "$scratch/crates/lines/src" "$scratch/crates/lines/proofs"
printf 'pub fn nothing() {}\n' >"$scratch/crates/lines/src/lib.rt"

# copied CRATE ..: the text of these crates, without what rt keeps in out/ and without their must-fail edits. Each is built where it stands first: rt takes
# what it has built there of the same text.
copied() {
    for crate; do
        (cd "crates/$crate" && rt lib) >"$scratch/log" 2>&1 || { cat "$scratch/log"; echo "$0: crate $crate could not be built"; exit 1; }
        mkdir -p "$scratch/crates/$crate"
        for part in src specs proofs; do
            [ ! -d "crates/$crate/$part" ] || cp -R "crates/$crate/$part" "$scratch/crates/$crate"
        done
    done
}

# agreed WORDS: has the checker compare, and writes what the lines reach; WORDS say what differs where it refuses.
agreed() {
    (cd "$scratch/crates/lines" && rt check) >"$scratch/log" 2>&1 || { cat "$scratch/log"; echo "$0: $*"; exit 1; }
    grep -q '^logic=proved' "$scratch/log" || { cat "$scratch/log"; exit 1; }
    cat "$scratch/crates/lines/proofs/counts"
}
