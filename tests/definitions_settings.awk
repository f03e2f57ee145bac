# Turns the lines of settings.tsv into antt statements, 40 to a module; counts what they reach.
function asked(op,    w, n) {
    n = split(op, w, " ")
    kinds[w[1]]++
    if (w[1] == "store" && n == 4) return "new (to_store " w[2] " " w[3] " " w[4] ")"
    if (w[1] == "fetch" && n == 2) return "new (to_fetch " w[2] ")"
    if (w[1] == "remove" && n == 2) return "new (to_remove " w[2] ")"
    if (w[1] == "fetch_1" && n == 2) return "old " w[2]
    fail("no such operation: " op)
}
function numbers(text,    w, n, i, r) { n = split(text, w, " "); refusals[w[1]]++; r = ""; for (i = 1; i <= n; i++) r = r w[i] " ∷ "; return "(" r "[])" }
function finish() { print "    ∷ []\n\npub all : map computed lines ≡ lines\nunfolding settings_compute said after said_each after_each computed lines\nall = refl" >file; close(file) }
function start() {
    modules++
    file = out "/Lines" modules ".antt"
    print "use mathlib.Core.Path.{◌≡◌, refl}\nuse mathlib.Core.List.{List, [], ◌∷◌, map}\nuse Rattle.paper_settings.specs.Settings.{to_store, to_fetch, to_remove}\nuse Rattle.paper_settings.proofs.Computed.{settings_compute}\nuse Rattle.lines.proofs.Line.{Line, line, new, old, said, after, said_each, after_each, computed}\n\nunfoldable pub lines : List Line\nlines =" >file
    print "pub mod Lines" modules >(out "/Lib.antt")
}
BEGIN {
    print "pub mod Line" >(out "/Lib.antt")
    f = out "/Line.antt"
    print "use Rattle.std.specs.Prelude.{ℕ, List, [], ◌∷◌}\nuse Rattle.paper_settings.specs.Settings.{Op, to_store, to_fetch, to_remove, called, fetched, fetched_old}\n" >f
    print "pub data Asked : Type 0 where\n  new : Op → Asked\n  old : ℕ → Asked\n" >f
    print "pub record Line : Type 0 where\n  pub area : List ℕ\n  pub asked : List Asked\n  pub answers : List (List ℕ)\n  pub left : List ℕ\n" >f
    print "abbrev pub line : List ℕ → List Asked → List (List ℕ) → List ℕ → Line\nline a q s b = record { area = a; asked = q; answers = s; left = b }\n" >f
    print "unfoldable pub said : Asked → List ℕ → List ℕ\nsaid (new (to_store k v u)) a = (called (to_store k v u) a).reply.number ∷ []\nsaid (new (to_fetch k)) a = (fetched 2 k a).number ∷ (fetched 2 k a).setting ∷ (fetched 2 k a).unit ∷ []\nsaid (new (to_remove k)) a = (called (to_remove k) a).reply.number ∷ []\nsaid (old k) a = (fetched_old k a).number ∷ (fetched_old k a).setting ∷ []\n" >f
    print "unfoldable pub after : Asked → List ℕ → List ℕ\nafter (new op) a = (called op a).after\nafter (old k) a = a\n" >f
    print "unfoldable pub said_each : List Asked → List ℕ → List (List ℕ)\nsaid_each [] a = []\nsaid_each (q ∷ qs) a = said q a ∷ said_each qs (after q a)\n" >f
    print "unfoldable pub after_each : List Asked → List ℕ → List ℕ\nafter_each [] a = a\nafter_each (q ∷ qs) a = after_each qs (after q a)\n" >f
    print "unfoldable pub computed : Line → Line\ncomputed l = line l.area l.asked (said_each l.asked l.area) (after_each l.asked l.area)" >f
    close(f)
}
{
    if (NF != 5) fail("not five parts")
    n = split($3, ops, "; ")
    if (split($4, says, "; ") != n) fail("not as many answers as operations")
    if (lines % 40 == 0) start()
    questions = answers = ""
    for (i = 1; i <= n; i++) { questions = questions asked(ops[i]) " ∷ "; answers = answers numbers(says[i]) " ∷ " }
    print (lines % 40 == 0 ? "    " : "    ∷ ") "line (" spelt($2) ") (" questions "[]) (" answers "[]) (" spelt($5) ")" >file
    lines++
    if (lines % 40 == 0) finish()
}
END {
    if (failed) exit 1
    if (lines % 40 != 0) finish()
    printf "definitions of the settings: %d areas agree: %d stores, %d fetches, %d of the old reader, %d removes; accepted %d, refused 10 to 13: %d %d %d %d\n", lines, kinds["store"], kinds["fetch"], kinds["fetch_1"], kinds["remove"], refusals[0], refusals[10], refusals[11], refusals[12], refusals[13] >(out "/counts")
}
