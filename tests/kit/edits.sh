# Sourced by tests/forbidden/run and tests/further/run: tries edits, each on a copy of its crate. An edit is checked over what a check of the crate as it is
# has left behind, so that only what rests on the edited file is checked again; RT_JOBS edits at a time, 2 where it is not set. The caller sets `edits`, the
# folder that has them by crates, and `judged LOG CRATE LABEL`, which says of an edit that reached the prover what came of it.
jobs=${RT_JOBS:-2}
copy=$(mktemp -d)
trap 'rm -rf "$copy"' EXIT

# the text of a crate, in another folder
text_of() { # CRATE-FOLDER COPY
    mkdir -p "$2"
    for part in src specs proofs; do
        [ ! -d "$1/$part" ] || cp -R "$1/$part" "$2"
    done
}

mkdir "$copy/tree"
cp crates.txt "$copy/tree"
for folder in crates/*/; do text_of "$folder" "$copy/tree/$folder"; done

# one of the places where edits are tried: a tree of its own, over the libraries that are built in the first one, its crate checked once as it is
place() { # PLACE CRATE
    rm -rf "$1"
    mkdir -p "$1/crates"
    cp "$copy/tree/crates.txt" "$1"
    for folder in "$copy"/tree/crates/*/; do
        to=$1/crates/$(basename "$folder")
        text_of "$folder" "$to"
        [ ! -d "$folder/out/rlib" ] || { mkdir "$to/out" && cp -R "$folder/out/rlib" "$to/out"; }
    done
    mkdir -p "$1/crates/$2/out"
    cp -R "$copy/tree/crates/$2/out/incremental" "$1/crates/$2/out"
    (cd "$1/crates/$2" && rt check --jobs 1) >"$1/log" 2>&1 && grep -q '^logic=proved' "$1/log" && cp -R "$1/crates/$2/out/incremental" "$1/saved"
}

# replaces, in the crate, each old text of the edit by its new one
applied() { # CRATE-FOLDER EDIT
    while IFS= read -r line; do
        case $line in
        'file: '*) file=$1/${line#file: } ;;
        'old: '*) old=${line#old: } ;;
        'new:'*)
            new=${line#new:}
            OLD=$old NEW=${new# } awk '
                { text = text $0 "\n" }
                END {
                    at = index(text, ENVIRON["OLD"])
                    rest = substr(text, at + length(ENVIRON["OLD"]))
                    if (!at || index(rest, ENVIRON["OLD"])) exit 1
                    printf "%s%s%s", substr(text, 1, at - 1), ENVIRON["NEW"], rest
                }' "$file" >"$file.new" || return 1
            mv "$file.new" "$file"
            ;;
        esac
    done <"$2"
}

# whether code or definitions could not be read, where an edit that only makes a statement false reads well
unread() { # LOG
    grep -E '^(\./)?(src|specs)/[^ ]*: error: ' "$1" | grep -v -e 'not admitted' -e 'which was rejected, w' |
        grep -qE -e ': error: [^`]' -e 'is not in scope|has no field|is no name|operand is missing|expected the end|cannot continue'
}

try() { # PLACE CRATE LABEL
    edit=$edits/$2/$3.edit
    rm -rf "$1/crates/$2"
    text_of "$copy/tree/crates/$2" "$1/crates/$2"
    mkdir "$1/crates/$2/out"
    cp -R "$1/saved" "$1/crates/$2/out/incremental"
    applied "$1/crates/$2" "$edit" || { echo "SURVIVES  $2/$3: it does not fit what it edits"; return; }
    (cd "$1/crates/$2" && rt check --jobs 1) >"$1/log" 2>&1 || true
    if grep -q '^logic=proved' "$1/log"; then
        echo "SURVIVES  $2/$3: the crate is still proved. $(head -n 1 "$edit")"
    elif ! grep -q '^logic=not-proved' "$1/log"; then
        echo "SURVIVES  $2/$3: it did not reach the prover. $(head -n 1 "$edit")"
    elif unread "$1/log"; then
        echo "SURVIVES  $2/$3: the prover cannot read the edited text. $(head -n 1 "$edit")"
    else
        judged "$1/log" "$2" "$3"
    fi
}

# every so many-th edit of a crate, from this place's own on
share() { # PLACE NUMBER CRATE
    place "$1" "$3" || { echo "SURVIVES  $3: it is not proved as it is"; return; }
    at=0
    for e in "$edits/$3"/*.edit; do
        if [ $((at % jobs)) -eq "$2" ]; then try "$1" "$3" "$(basename "$e" .edit)"; fi
        at=$((at + 1))
    done
}

# tries the edits of these crates, of all that have some where none is named; a line for each, and how many survive. 1 where one does, or was not tried
try_all() { # [CRATE..]
    [ $# -gt 0 ] || set -- $(cd "$edits" && ls -d */ | tr -d /)
    : >"$copy/lines"
    for crate in "$@"; do
        ls "$edits/$crate"/*.edit >/dev/null || { echo "$edits: no edits of $crate"; exit 2; }
        (cd "$copy/tree/crates/$crate" && rt check) >"$copy/log" 2>&1 || { cat "$copy/log"; exit 1; }
        k=0
        while [ "$k" -lt "$jobs" ]; do
            share "$copy/$k" "$k" "$crate" | tee -a "$copy/lines" &
            k=$((k + 1))
        done
        wait
    done
    tried=$(grep -c / "$copy/lines" || true)
    survive=$(grep -c '^SURVIVES' "$copy/lines" || true)
    echo "$(basename "$edits"): $tried edits, $survive survive"
    [ "$tried" -eq "$(for c in "$@"; do ls "$edits/$c"; done | grep -c '\.edit$')" ] || { echo "$edits: not every edit was tried"; exit 1; }
    [ "$survive" -eq 0 ]
}
