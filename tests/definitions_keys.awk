# Turns lines `NOTE TABLE` into one antt statement: the definitions' notes of the tables are these.
length($2) > 32 * most { next }
{
    tables = tables (lines ? "    ∷ " : "    ") "(" bytes($2) ")\n"
    notes = notes (lines ? "    ∷ " : "    ") "0x" $1 "\n"
    lines++
}
END {
    if (lines == 0) { print "tests/definitions_keys: no table is so short"; exit 1 }
    print "pub mod Notes" >(out "/Lib.antt")
    f = out "/Notes.antt"
    print "use Rattle.std.specs.Prelude.{ℕ}\nuse mathlib.Core.Path.{◌≡◌, refl}\nuse mathlib.Core.List.{List, [], ◌∷◌, map}\nuse Rattle.std.proofs.Math.Option.{Option, none, some}" >f
    print "use Rattle.paper.specs.Tree.{Tree}\nuse Rattle.paper.specs.Table.{tree_of}\nuse Rattle.paper.specs.Standing.{kind_number}\nuse Rattle.paper.proofs.Computes.{table_computes}" >f
    print "use Rattle.note.specs.Note.{stir, mix, strewn, leaf_key, share_of, exponent_share, node_key, key, shares, note_of, note}\n" >f
    print "unfoldable pub note_in : Option Tree → ℕ\nnote_in none = 0\nnote_in (some t) = note t\n" >f
    print "unfoldable pub tables : List (List ℕ)\ntables =\n" tables "    ∷ []\n\nunfoldable pub notes : List ℕ\nnotes =\n" notes "    ∷ []\n" >f
    print "pub all : map (λ s. note_in (tree_of s)) tables ≡ notes\nunfolding tables notes note_in table_computes kind_number stir mix strewn leaf_key share_of exponent_share node_key key shares note_of note\nall = refl" >f
    printf "definitions: the notes of %d tables are those of the plain C\n", lines >(out "/counts")
}
