# figures.tsv as a page: the table, then the aims and whether each is met.
function short(n) {
    if (n == "-" || n == "") return "-"
    if (n < 10000) return n
    if (n < 1000000) return sprintf("%.0fk", n / 1000)
    if (n < 10000000) return sprintf("%.1fM", n / 1000000)
    if (n < 10000000000) return sprintf("%.0fM", n / 1000000)
    return sprintf("%.0fG", n / 1000000000)
}
BEGIN {
    FS = "\t"
    print "# Instructions, port beside Rust and GiNaC\n"
    print "Written by `bench/run` (what is measured and how: its heading). Counted by " counter " on " machine ". \"beyond the fill\" is the port without the"
    print "clearing of `work`, a library fill that is measured apart. Over the weight 3,072 the limit is 16,384. `-`: left out, or it would have taken over " most " million instructions. How each"
    print "grows: `growth.svg`.\n"
    print "| family | weight | port | beyond the fill | Rust | GiNaC | Rust / port beyond the fill |"
    print "|---|---|---|---|---|---|---|"
}
NR == 1 { next }
{
    beyond = $3 == "-" ? "-" : $3 - $4
    times = $5 == "-" || $3 == "-" ? "-" : sprintf("%.1f", $5 / (beyond > 0 ? beyond : 1))
    print "| " $1 " | " $2 " | " short($3) " | " short(beyond) " | " short($5) " | " short($6) " | " times " |"
    rows++
    if ($7 != "-") { timed = 1; row_time[rows] = "| " $1 " | " $2 " | " $7 " | " $8 " | " $9 " |" }
    if (times != "-") {
        compared++
        if (10 * beyond > $5) {
            slow_rows++
            if (!(slow_of[$1]++)) slow_name[++slow_names] = $1
            if (slow_of[$1] == 1 || times + 0 < slow_least[$1]) slow_least[$1] = times + 0
        }
        if (least == "" || times + 0 < least) { least = times + 0; least_at = $1 "/" $2 }
    } else apart++
    if ($6 != "-") { # beside GiNaC; a row on which the port is cut off is behind
        beside++
        lead = $3 == "-" ? 0 : $6 / $3
        if (least_lead == "" || lead < least_lead) { least_lead = lead; least_lead_at = $1 "/" $2 }
        if (lead <= 1) { behind++; behind_at = behind_at ", " $1 "/" $2 }
    }
    if ($2 == 1536) from[$1] = $3
    if ($2 == 16384 && from[$1] != "" && from[$1] != "-") { # a row that is cut off grows too fast
        grown++
        power = $3 == "-" ? "-" : sprintf("%.2f", log($3 / from[$1]) / log(16384 / 1536))
        if (power == "-" || power + 0 > ($1 == "chain-opens" ? 2.2 : 1.3)) fast = fast ", " $1 " " power
    }
    if ($2 == 3072) {
        allowed = $1 == "chain-opens" ? 25000000 : 1500000
        if ($3 == "-" || $3 > allowed) costly = costly ", " $1 " " short($3)
        full++
    }
    if ($1 == "site") { site = $3; site_rust = $5; site_ginac = $6; next }
    if ($2 > 3072) next # the aims below are those of the lower limit
    if ($3 == "-" || $3 > 1000000000) heavy = heavy ", " $1 "/" $2 " " short($3)
    if ($3 != "-" && $3 + 0 > heaviest) { heaviest = $3 + 0; heaviest_at = $1 "/" $2 }
    if ($1 ~ /terms|unlike-products|tree-opens/ && $3 != "-") {
        if ($1 != family) wide[++wides] = $1
        else if ($2 > weight && beyond > 0) {
            growth[$1] = log(beyond / before) / log($2 / weight)
            last_weight = $2
        }
        family = $1; weight = $2; before = beyond > 0 ? beyond : 1
    }
}
END {
    if (timed) {
        print "\n## Times, nanoseconds a pass\n\n| family | weight | port | Rust | GiNaC |\n|---|---|---|---|---|"
        for (i = 1; i <= rows; i++) if (i in row_time) print row_time[i]
    }
    print "\nStack of the deepest tables: " stack " bytes. Size of libsimmergate.a: " size " bytes.\n"
    print "## Aims\n"
    print "- a site of 200 formulas at no more than 10 million instructions, bytes to bytes: " sprintf("%.2fM", site / 1000000) (site <= 10000000 ? ", met" : ", MISSED") " (Rust " short(site_rust) ", GiNaC " short(site_ginac) ")"
    printf "- no more than a tenth of the Rust beyond the fill: "
    if (compared == 0) print "no Rust to compare with"
    else {
        printf "%s", slow_rows == 0 ? "met on all " compared " that were compared" : "MISSED on " slow_rows " of " compared
        print ", the least is " least " times, at " least_at (apart > 0 ? "; " apart " not compared" : "")
        for (i = 1; i <= slow_names; i++) print "  - " slow_name[i] ": missed on " slow_of[slow_name[i]] ", the least is " slow_least[slow_name[i]] " times"
    }
    printf "- ahead of GiNaC on every row: "
    if (beside == 0) print "no GiNaC to compare with"
    else print (behind == 0 ? "met on all " beside : "MISSED on " behind " of " beside " (" substr(behind_at, 3) ")") ", the least lead is " sprintf("%.2f", least_lead) " times, at " least_lead_at
    print "- a site of 200 formulas at no more than 5 million: " (site <= 5000000 ? "met" : "MISSED")
    print "- at 3,072 chain-opens at no more than 25 million, every other row at 1.5 million: " (full == 0 ? "not measured" : costly == "" ? "met" : "MISSED on" substr(costly, 2))
    print "- from 1,536 to 16,384 growth of at most the 1.3th power of the weight, chain-opens the 2.2th: " (grown == 0 ? "not measured" : fast == "" ? "met" : "MISSED on" substr(fast, 2))
    for (i = 1; i <= wides; i++) if (wide[i] in growth) {
        said = said sprintf(" %s %.2f", wide[i], growth[wide[i]])
        if (growth[wide[i]] > 2.05) missed = 1
    }
    print "- wide sums grow no worse than the square of the weight (exponent up to " last_weight "):" (said == "" ? " not measured" : said (missed ? ", MISSED" : ", met"))
    print "- no table of these families over 1,000 million instructions: " (heavy == "" ? "met" : "MISSED on" substr(heavy, 2)) "; the most is " short(heaviest) ", at " heaviest_at
}
