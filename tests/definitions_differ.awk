# Turns the lines of differ.tsv into antt statements, 20 to a module; counts what they reach.
# how many records the bytes are that are spelt so (tests/spelt.awk)
function records(text,    n, i, part, half, r) {
    r = 0
    if (text == "-") return 0
    n = split(text, part, "+")
    for (i = 1; i <= n; i++) r += length(part[i]) == 0 ? 0 : (split(part[i], half, "*") == 2 ? half[2] : 1) * length(half[1]) / 32
    return r
}
# the numbers of the pairs, one after the other
function pairs(text,    w, n, i, half, r) {
    r = ""
    if (text == "-") return "[]"
    n = split(text, w, " ")
    for (i = 1; i <= n; i++) { if (split(w[i], half, ",") != 2) fail("no pair: " w[i]); r = r half[1] " ∷ " half[2] " ∷ " }
    return r "[]"
}
function finish() { print "    ∷ []\n\npub all : map computed lines ≡ lines\nunfolding differ_computes equals_computes expected computed lines\nall = refl" >file; close(file) }
function start() {
    modules++
    file = out "/Lines" modules ".antt"
    print "use mathlib.Core.Path.{◌≡◌, refl}\nuse Rattle.std.specs.Prelude.{true, false}\nuse mathlib.Core.List.{List, [], ◌∷◌, map}\nuse Rattle.paper_differ.proofs.Computed.{differ_computes}\nuse Rattle.lines.proofs.Line.{Line, line, expected, computed, equals_computes}\n\nunfoldable pub lines : List Line\nlines =" >file
    print "pub mod Lines" modules >(out "/Lib.antt")
}
BEGIN {
    print "pub mod Line" >(out "/Lib.antt")
    f = out "/Line.antt"
    print "use Rattle.std.specs.Prelude.{ℕ, ◌-◌, ◌*◌, Bool, cond, List, [], ◌∷◌, ◌++◌, length, take, replicate}" >f
    print "use Rattle.paper.specs.Equal.{one}\nuse Rattle.paper.specs.Answers.{turned_down_compared, equal_trees, compared_tables, compared}\nuse Rattle.paper.specs.Calls.{eights}\nuse Rattle.paper_differ.specs.Differ.{differed, list_after}\nuse Rattle.paper_differ.specs.Calls.{differed_numbers}\n" >f
    print "pub record Line : Type 0 where\n  pub first : List ℕ\n  pub second : List ℕ\n  pub lent : ℕ\n  pub answer : List ℕ\n  pub list : List ℕ\n  pub same : Bool\n" >f
    print "-- the list, lent with each byte 165, has these numbers at its front\nunfoldable pub expected : List ℕ → ℕ → List ℕ\nexpected ns n = eights ns ++ replicate (n - 8 * length ns) 165\n" >f
    print "unfoldable pub line : List ℕ → List ℕ → ℕ → List ℕ → List ℕ → Bool → Line\nline a b n k ns e = record { first = a; second = b; lent = n; answer = k; list = expected ns n; same = e }\n" >f
    print "unfoldable pub computed : Line → Line\ncomputed l =\n    let list : List ℕ = replicate l.lent 165 in\n    record {\n      first = l.first;\n      second = l.second;\n      lent = l.lent;\n      answer = take 4 (differed_numbers (differed 3072 l.first l.second list));\n      list = list_after 3072 l.first l.second list;\n      same = (compared 3072 l.first l.second).yes;\n    }\n" >f
    print "unfoldable pub equals_computes : Unit {0}\nunfolding turned_down_compared equal_trees compared_tables compared one line\nequals_computes = tt" >f
    close(f)
}
{
    if (NF != 7) fail("not seven parts")
    if (records($2) > most || records($3) > most) { larger++; next }
    if (split($5, n, " ") != 4) fail("not four numbers")
    if (lines % 20 == 0) start()
    print (lines % 20 == 0 ? "    " : "    ∷ ") "line (" spelt($2) ") (" spelt($3) ") " $4 " (" n[1] " ∷ " n[2] " ∷ " n[3] " ∷ " n[4] " ∷ []) (" pairs($6) ") " ($7 == "equal" ? "true" : "false") >file
    lines++
    refusals[n[1]]++
    if ($7 == "equal") same++
    if (n[4] > 0) apart++
    if (lines % 20 == 0) finish()
}
END {
    if (failed) exit 1
    if (lines % 20 != 0) finish()
    printf "definitions of what differs: %d pairs of tables agree (%d more are larger): %d with pairs, %d equal, accepted %d, refused 1 to 6: %d %d %d %d %d %d\n", lines, larger, apart, same, refusals[0], refusals[1], refusals[2], refusals[3], refusals[4], refusals[5], refusals[6] >(out "/counts")
}
