# Turns lines of the stored answers into antt statements, 50 to a module; counts what they reach.
function digits(d,    i, r) { r = ""; for (i = 1; i <= length(d); i++) r = r substr(d, i, 1) " ∷ "; return r "[]" }
# a number of 64 bits given in hexadecimal, as an antt numeral
function numeral(h) { return "0x" h }
# what is wrong with a record, as it is stored: whether it is, and its two numbers
function wrong(what, byte) { return what == "" ? "false []" : "true (" (what == "kind" ? 1 : what == "byte" ? 2 : 3) " ∷ " (byte == "" ? 0 : byte) " ∷ [])" }
# an integer record over 65535: it might be an exponent, and the value is then not computed
function large(h,    i, k) { for (i = 1; i < length(h); i += 32) { k = substr(h, i, 2); if (k == "00" && substr(h, i + 20, 12) != "000000000000") return 1 } return 0 }
function close_module() { if (lines % 50 != 0) finish() }
function finish() { print "    ∷ []\n\npub all : map (λ l. computed l.limit l.edition l.valued l.named l.counted l.table) lines ≡ lines\nunfolding lines computed said refusing flaw_numbers after_judging after_running driver_computes answers_compute trees_compute\nall = refl" >file; close(file) }
function start() { modules++; file = out "/Lines" modules ".antt"; print "use mathlib.Core.Path.{◌≡◌, refl}\nuse mathlib.Core.List.{List, [], ◌∷◌, map}\nuse Rattle.std.specs.Prelude.{true, false}\nuse Rattle.paper.proofs.Computes.{driver_computes, answers_compute, trees_compute}\nuse Rattle.paper.specs.Record.{flaw_numbers}\nuse Rattle.lines.proofs.Line.{Line, computed, said, refusing, after_judging, after_running}\n\nunfoldable pub lines : List Line\nlines =" >file; print "pub mod Lines" modules >(out "/Lib.antt") }
BEGIN {
    print "pub mod Line" >(out "/Lib.antt")
    f = out "/Line.antt"
    print "use Rattle.std.specs.Prelude.{ℕ, suc, ◌*◌, ◌%◌, Bool, true, false, cond, List, [], ◌∷◌}\nuse Rattle.std.proofs.Math.Option.{Option, none, some}\nuse Rattle.paper.specs.Limits.{modulus, is_limit}\nuse Rattle.paper.specs.Tree.{Tree, weight, records, value}\nuse Rattle.paper.specs.Table.{encode, tree_of}\nuse Rattle.paper.specs.Record.{flaw_numbers}\nuse Rattle.paper.specs.Verdict.{Verdict, verdict, is_accepted}\nuse Rattle.paper.specs.Rules.{is_edition, rules_of}\nuse Rattle.paper.specs.Driver.{Ran, done, over, simplify}\n" >f
    print "pub record Line : Type 0 where\n  pub limit : ℕ\n  pub edition : ℕ\n  pub table : List ℕ\n  pub valued : Bool\n  pub named : Bool\n  pub counted : Bool\n  pub field : List ℕ\n  pub number : ℕ\n  pub place : ℕ\n  pub weights : List ℕ\n  pub tries : ℕ\n  pub steps : List ℕ\n  pub result : List ℕ\n  pub value_in : ℕ\n" >f
    print "unfoldable pub said : ℕ → ℕ → List ℕ → Bool → List ℕ → ℕ → ℕ → Line\nsaid lim ed s n f k p = record { limit = lim; edition = ed; table = s; valued = false; named = n; counted = false; field = f; number = k; place = p; weights = []; tries = 0; steps = []; result = []; value_in = 0 }\n" >f
    print "unfoldable pub after_running : ℕ → ℕ → Bool → Bool → List ℕ → Tree → Ran → Line\nafter_running lim ed b c s t (over k) = said lim ed s false [] 7 k\nafter_running lim ed b c s t (done u ks o n) = record { limit = lim; edition = ed; table = s; valued = b; named = false; counted = c; field = []; number = 0; place = 0; weights = records u ∷ o ∷ weight t ∷ weight u ∷ []; tries = cond c n 0; steps = ks; result = encode u; value_in = cond b (value t (λ k. suc k * 0x9E3779B97F4A7C15 % modulus)) 0 }\n" >f
    print "unfoldable pub refusing : ℕ → ℕ → Bool → List ℕ → Verdict → Line\nrefusing lim ed n s v = said lim ed s n (cond n (flaw_numbers v.flaw) []) v.number v.place\n\nunfoldable pub after_judging : ℕ → ℕ → Bool → Bool → Bool → List ℕ → Verdict → Option Tree → Line\nafter_judging lim ed b n c s v none = refusing lim ed n s v\nafter_judging lim ed b n c s v (some t) = cond (is_accepted v) (after_running lim ed b c s t (simplify (rules_of ed) t)) (refusing lim ed n s v)\n" >f
    print "unfoldable pub computed : ℕ → ℕ → Bool → Bool → Bool → List ℕ → Line\ncomputed lim ed b n c s = cond (is_limit lim) (cond (is_edition ed) (after_judging lim ed b n c s (verdict lim s) (tree_of s)) (said lim ed s n [] 9 0)) (said lim ed s n [] 19 0)" >f
    close(f)
}
# of the lines that say what is wrong with a record, those; of those that tell tries, those
FILENAME ~ /Q-8/ && $3 !~ /^refused 2 / { next }
FILENAME ~ /Q-10/ && $3 !~ /^ok / { next }
# no long tables, and none of which the line says what is lent
length($2) > 32 * most || $2 ~ /[+*]/ || $9 != "" { next }
{
    split($3, a, " ")
    edition = $7 == "" ? 1 : $7
    limit = $8 == "" ? 3072 : $8
    if (limit == 16384) higher++
    valued = large($2) ? "false" : "true"
    counted = a[1] == "ok" && a[7] != "" ? "true" : "false"
    if (lines % 50 == 0) start()
    mark = lines % 50 == 0 ? "    " : "    ∷ "
    if (a[1] == "refused") {
        print mark "said " limit " " edition " (" bytes($2) ") " wrong(a[5], a[6]) " " a[2] " " a[4] >file
        refusals[a[2]]++
        if (a[5] != "") named++
    } else {
        print mark "record { limit = " limit "; edition = " edition "; table = " bytes($2) "; valued = " valued "; named = false; counted = " counted "; field = []; number = 0; place = 0; weights = " a[2] " ∷ " a[4] " ∷ " a[5] " ∷ " a[6] " ∷ []; tries = " (counted == "true" ? a[7] : 0) "; steps = " digits($4) "; result = " bytes($5) "; value_in = " (valued == "true" ? numeral($6) : 0) " }" >file
        if (valued == "true") values++
        for (i = 1; i <= length($4); i++) steps[substr($4, i, 1)]++
        if (a[4] > 0) opens++
        if (counted == "true") tried++
        accepted++
    }
    lines++
    if (lines % 50 == 0) finish()
}
END {
    close_module()
    printf "definitions: %d tables agree: %d accepted (steps 1: %d, 2: %d, 3: %d, 4: %d, 6: %d, 7: %d, 8: %d, 9: %d; %d with openings, %d with their tries), refused 1: %d, 2: %d (%d with what is wrong), 3: %d, 4: %d, 5: %d, 7: %d, 9: %d, 19: %d; %d values; %d at the limit 16,384\n", lines, accepted, steps[1], steps[2], steps[3], steps[4], steps[6], steps[7], steps[8], steps[9], opens, tried, refusals[1], refusals[2], named, refusals[3], refusals[4], refusals[5], refusals[7], refusals[9], refusals[19], values, higher >(out "/counts")
}
