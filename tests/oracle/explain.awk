# A line: table, port, the modes that disagree, the published Rust with no complexity; then the Rust with each of the `sets` of changes
# switched on, a letter a change. Writes for each of those modes what explains it, `MODE by CHANGES`: a single change where one is enough
# besides the mode's own; two or more only where no fewer of them are.
function bare(answer,   f) { split(answer, f, " "); return f[1] == "0" ? f[1] " " f[3] " " f[4] : answer }
# whether the Rust with these changes says what the port says; without the driver it counts no openings
function equal(set) { return set ~ /d/ ? $(column[set]) == $2 : bare($(column[set])) == bare($2) }
# the changes of a set that are not in another one, in words; "no" where the set lacks one of them
function besides(set, own,   i, letter, text) {
    for (i = 1; i <= length(own); i++) if (index(set, substr(own, i, 1)) == 0) return "no"
    for (i = 1; i <= length(set); i++) {
        letter = substr(set, i, 1)
        if (index(own, letter) == 0) text = text (text == "" ? "" : " and ") word[letter]
    }
    return text
}
function explain(mode,   size, i, text, found) {
    for (size = length(of[mode]) + 1; size <= 4 && !found; size++)
        for (i = 1; i <= n; i++) {
            if (length(named[i]) != size) continue
            text = besides(named[i], of[mode])
            if (text == "no" || !equal(named[i])) continue
            print mode " by " text
            if (++found == 2) print mode " in more than one way"
        }
    if (!found) print "FAIL nothing explains mode " mode ", the port says " $2 " on " $1
    print mode " looked at"
}
BEGIN {
    n = split(sets, named, " ")
    for (i = 1; i <= n; i++) column[named[i]] = 4 + i
    word["d"] = "driver"; word["o"] = "order"; word["r"] = "range"; word["c"] = "coefficient"
    of["three"] = "dor"; of["two"] = "dr"; of["one"] = ""
}
NF != 4 + n { print "FAIL a line of " NF " answers: a program ended early"; next }
{
    modes = split($3, mode, " ")
    for (m = 1; m <= modes; m++) explain(mode[m])
}
$4 == "panic" { print "FAIL the published Rust panics with no complexity computed, on " $1 }
