# Counts the lines of modes.awk and explain.awk; shows the first failures; exit 1 where there is one.
/^FAIL/ { if (++failed <= 5) print; next }
{ n[$0]++ }
/ by / && n[$0] == 1 { by[++ways] = $0 }
# what explains a mode, with the counts: fewer changes first, and the more frequent first
function explained(mode,   i, k, best, changes, text, left) {
    for (i = 1; i <= ways; i++) if (by[i] ~ "^" mode " by ") left++
    for (; left > 0; left--) {
        best = ""
        for (i = 1; i <= ways; i++) {
            if (by[i] !~ "^" mode " by " || by[i] in told) continue
            k = split(by[i], changes, " and ")
            if (best == "" || k < fewest || (k == fewest && n[by[i]] > n[best])) { best = by[i]; fewest = k }
        }
        told[best] = 1
        text = text (text == "" ? ": " : ", ") substr(best, length(mode " by ") + 1) " " n[best]
    }
    return n[mode " differs"] + 0 " explained" text \
        (n[mode " in more than one way"] ? " (" n[mode " in more than one way"] " of them in more than one way)" : "")
}
END {
    if (n["table"] != want) { print "FAIL " n["table"] + 0 " tables judged of " want; failed++ }
    split("three two one", modes, " ")
    for (m = 1; m <= 3; m++) if (n[modes[m] " differs"] != n[modes[m] " looked at"]) { print "FAIL not every disagreement of mode " modes[m] " was looked at"; failed++ }
    print "  mode four:  " n["four equal"] + 0 " equal (" n["refused"] + 0 " of them refused 7 at the same place)"
    print "  mode three: " n["three equal"] + 0 " equal, " explained("three")
    print "  mode two:   " n["two equal"] + 0 " equal, " explained("two")
    print "  mode one:   " n["one equal"] + 0 " equal, " explained("one") "; " n["panic"] + 0 " panic in default_complexity"
    print "  " n["table"] + 0 " tables, " failed + 0 " unexplained"
    exit failed > 0
}
