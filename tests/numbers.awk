# See tests/numbers. The first file: `CRATE: TEXT -- REASON` a line, a text of the crate's code in which numbers may stand, as often as it stands.
FILENAME ~ /numbers\.allowed$/ {
    if (/^#/ || /^ *$/) next
    crate = $1; sub(/:$/, "", crate)
    text = $0; sub(/^[^ ]+ /, "", text); sub(/ -- .*/, "", text)
    may[crate, ++texts[crate]] = text
    next
}
FNR == 1 { split(FILENAME, part, "/"); crate = part[2]; within = 0; constant = 0; files++ }
{
    line = $0
    gsub(/b'(\\.|[^'\\])'/, " ", line); gsub(/b"([^"\\]|\\.)*"/, " ", line); sub(/\/\/.*/, "", line)
    # contracts: what stands between the braces of a `requires` or an `ensures`, over as many lines as it takes
    head = ""
    while (within || match(line, /(^|[^a-z_0-9])(requires|ensures)( [a-z][a-z_0-9]*)? \{/)) {
        if (!within) { head = substr(line, 1, RSTART); line = substr(line, RSTART + RLENGTH); within = 1 }
        while (within && match(line, /[{}]/)) { within += substr(line, RSTART, 1) == "{" ? 1 : -1; line = substr(line, RSTART + 1) }
        if (within) { line = head; break }
        line = head " " line
    }
    if (line ~ /^ *(pub )?const /) constant = 1
    if (constant) { if (line ~ /; *$/) constant = 0; next }
    for (i = 1; i <= texts[crate]; i++) while (at = index(line, may[crate, i])) { line = substr(line, 1, at - 1) " " substr(line, at + length(may[crate, i])); used[crate, i] = 1 }
    said = line
    # a kind by a number, a cell by a number
    if (line ~ /kind\([^()]*\) *(<|<=|==|!=) *[0-9]|[0-9] *(<|<=) *(record::)?kind\(|(^|[^a-z_])(k|kind) *(<|<=|==|!=) *[0-9]|[^a-z_0-9][0-9]+ *(<|<=) *(k|kind)([^a-z_]|$)/) { tell("a kind by a number") }
    else if (line ~ /[a-z]\[[0-9]+\]/) tell("a cell by a number")
    else {
        gsub(/[A-Za-z_][A-Za-z_0-9]*/, " ", line)
        while (match(line, /0x[0-9a-fA-F_]+|[0-9][0-9_]*/)) {
            number = substr(line, RSTART, RLENGTH); line = substr(line, RSTART + RLENGTH)
            if (number != "0" && number != "1") { tell("the number " number); break }
        }
    }
}
function tell(what) { print "tests/numbers: " FILENAME ":" FNR ": " what ":" $0; bad = 1 }
END {
    for (c in texts) for (i = 1; i <= texts[c]; i++) if (!((c, i) in used)) { print "tests/numbers: tests/numbers.allowed: `" may[c, i] "` stands nowhere in crate " c; bad = 1 }
    if (bad) exit 1
    print "numbers: in " files " files of code every number that stands for something has a name"
}
