# Reads documents and edits, whose words are all taken for citations, then the files of crates: see tests/laws. Bytes are characters here (LC_ALL=C).
function characters(s) { gsub(/[\200-\277]/, "", s); return length(s) }
# A statement with its variables numbered in the order in which they are bound.
function numbered(s,    out, rest, names, bound, n, i, part, group) {
    rest = s; n = 0
    while (match(rest, /[({][^:(){}]+ :/)) {
        group = substr(rest, RSTART + 1, RLENGTH - 3); rest = substr(rest, RSTART + RLENGTH)
        names = split(group, part, " ")
        for (i = 1; i <= names; i++) if (!(part[i] in bound)) bound[part[i]] = "v" n++
    }
    if (!n) return ""
    out = ""; rest = s
    while (match(rest, /[^][ (){},;]+/)) {
        part[0] = substr(rest, RSTART, RLENGTH)
        out = out substr(rest, 1, RSTART - 1) ((part[0] in bound) ? bound[part[0]] : part[0])
        rest = substr(rest, RSTART + RLENGTH)
    }
    gsub(/ +/, " ", out)
    return out rest
}
# What a law says is complete: it is remembered, and told where it stands elsewhere.
function complete(    said) {
    if (law == "") return
    said = numbered(statement)
    if (said != "" && length(said) > 20 && said ~ /≡/ && said !~ /\.args|\.before|entry_of/) {
        if ((said in stated) && stated_in[said] != lawfile) { print "tests/laws: " lawplace ": " law " says what " stated[said] " says"; bad = 1 }
        else { stated[said] = lawplace ": " law; stated_in[said] = lawfile }
    }
    law = ""
}
# The names that the file imports and does not use.
function imported(    i, n, part, k, missing) {
    for (i = 1; i <= imports; i++) {
        if (import_name[i] in used_here) continue
        missing = import_name[i] !~ /◌|→|[][]/
        if (!missing) { n = split(import_name[i], part, "◌"); for (k = 1; k <= n; k++) if (part[k] != "" && !index(body, part[k])) missing = 1 }
        if (missing) { print "tests/laws: " proof_file ": " import_name[i] " is imported in vain"; bad = 1 }
    }
    imports = 0; body = ""; delete used_here
}
# The names between the braces of an import, or of a line of one.
function names_of(s,    n, part, k) {
    sub(/.*\{/, "", s); sub(/\}.*/, "", s)
    n = split(s, part, ",")
    for (k = 1; k <= n; k++) { sub(/.* as /, "", part[k]); gsub(/ /, "", part[k]); if (part[k] != "") import_name[++imports] = part[k] }
}
FNR == 1 { imported(); proof_file = FILENAME }
FNR == 1 { complete(); crate = FILENAME ~ /^crates\//; proof = FILENAME ~ /^crates\/.*\/proofs\/.*\.antt$/; antt = FILENAME ~ /\.antt$/ }
!crate { gsub(/[][`|(){},;:]/, " "); n = split($0, word, " "); for (i = 1; i <= n; i++) { sub(/\.$/, "", word[i]); cited[word[i]] = 1 } next }
{
    if (characters($0) > 160) { print "tests/laws: " FILENAME ":" FNR ": a line of " characters($0) " characters"; bad = 1 }
    lines++
}
# a law's statement goes on
law != "" && /^ +(→|≡|×|∙|\()/ { statement = statement " " $0 }
law != "" && !/^ +(→|≡|×|∙|\()/ { complete() }
proof && /^use .*\{/ { names_of($0); within_use = $0 !~ /\}/; next }
proof && within_use { names_of($0); if (/\}/) within_use = 0; next }
proof && /^use [^{]* as / { names_of("{" $NF "}"); next }
/^ *--/ || /^ *\/\// || /^use / { next }
{
    text = $0; sub(/ --.*/, "", text); own = ""
    if (antt && match(text, /^(pub )?[^ (){}:]+ : /)) {
        own = substr(text, 1, RLENGTH - 3); sub(/^pub /, "", own)
        if (proof) {
            laws++
            if (own !~ /_spec$|_once$/) { count++; name[count] = own; within[count] = text ~ /^pub / ? "" : FILENAME; where[count] = FILENAME ":" FNR }
            law = own; lawfile = FILENAME; lawplace = FILENAME ":" FNR; statement = substr(text, RLENGTH + 1)
        }
    } else if (antt && match(text, /^[^ (){}:]+( .*)? =( |$)/)) { own = text; sub(/ .*/, "", own) }
    gsub(/[][(){},;.:]|λ|→/, " ", text)
    n = split(text, word, " ")
    for (i = 1; i <= n; i++) { if (word[i] == own) { own = ""; continue } cited[word[i]] = 1; cited[FILENAME, word[i]] = 1 }
    if (proof && !/^pub use /) { body = body " " $0; for (i = 1; i <= n; i++) used_here[word[i]] = 1 }
}
END {
    complete(); imported()
    for (i = 1; i <= count; i++) if (!(within[i] == "" ? (name[i] in cited) : ((within[i], name[i]) in cited))) { print "tests/laws: " where[i] ": " name[i] " is cited nowhere"; bad = 1 }
    if (bad) exit 1
    print "laws: " laws " in proofs, each stated once and cited, none of their imports in vain, " lines " lines of code, definitions and proofs of at most 160 characters"
}
