# figures.tsv as a picture: for each family how the instructions grow with the weight, both axes logarithmic.
function log10(x) { return log(x) / log(10) }
function x_of(w) { return 46 + 170 * (log10(w) - log10(lightest)) / (log10(heaviest) - log10(lightest)) }
function y_of(n) { return 150 - 120 * (log10(n) - low) / (high - low) }
function curve(f, column, colour, dashes,   i, path, n) {
    path = ""
    for (i = 1; i <= points[f]; i++) {
        n = value[f, i, column]
        if (n == "-" || n <= 0) continue
        path = path (path == "" ? "M" : "L") sprintf("%.1f %.1f", x_of(weight[f, i]), y_of(n))
        marks = marks sprintf("<circle cx='%.1f' cy='%.1f' r='1.8' fill='%s'/>", x_of(weight[f, i]), y_of(n), colour)
    }
    return path == "" ? "" : "<path d='" path "' fill='none' stroke='" colour "' stroke-width='1.5'" dashes "/>"
}
BEGIN { FS = "\t"; low = 99; high = 0; lightest = 1e9 }
NR == 1 || $1 == "site" { next }
{
    if (!($1 in points)) names[++families] = $1
    i = ++points[$1]
    weight[$1, i] = $2
    if ($2 < lightest) lightest = $2
    if ($2 > heaviest) heaviest = $2
    value[$1, i, "port"] = $3; value[$1, i, "rust"] = $5; value[$1, i, "ginac"] = $6
    for (k = 3; k <= 6; k++) if (k != 4 && $k != "-" && $k > 0) { if (log10($k) < low) low = log10($k); if (log10($k) > high) high = log10($k) }
}
END {
    if (families == 0 || heaviest <= lightest) { print "<svg xmlns='http://www.w3.org/2000/svg' width='10' height='10'/>"; exit }
    low = int(low); high = int(high) + 1
    rows = int((families + 2) / 3)
    printf "<svg xmlns='http://www.w3.org/2000/svg' width='720' height='%d' font-family='sans-serif' font-size='10'>\n", 40 + 190 * rows
    print "<rect width='100%' height='100%' fill='white'/>"
    print "<text x='12' y='20' font-size='13'>Instructions a table by its weight (both axes logarithmic)</text>"
    print "<g font-size='12'><text x='440' y='20' fill='#0a5'>port</text><text x='490' y='20' fill='#c33'>Rust</text><text x='540' y='20' fill='#36c'>GiNaC</text></g>"
    for (f = 1; f <= families; f++) {
        name = names[f]
        printf "<g transform='translate(%d %d)'>\n", 235 * ((f - 1) % 3), 30 + 190 * int((f - 1) / 3)
        printf "<text x='46' y='22' font-size='11'>%s</text>\n", name
        for (p = low; p <= high; p++) {
            printf "<line x1='46' x2='216' y1='%.1f' y2='%.1f' stroke='#ddd'/>", y_of(10 ^ p), y_of(10 ^ p)
            if ((p - low) % 2 == 0) printf "<text x='42' y='%.1f' text-anchor='end' fill='#666'>10^%d</text>", y_of(10 ^ p) + 3, p
        }
        printf "\n<text x='46' y='164' fill='#666'>%s</text><text x='216' y='164' text-anchor='end' fill='#666'>%s</text>\n", lightest, heaviest
        marks = ""
        print curve(name, "rust", "#c33", " stroke-dasharray='5 3'") curve(name, "ginac", "#36c", " stroke-dasharray='2 2'") curve(name, "port", "#0a5", "")
        print marks "\n</g>"
    }
    print "</svg>"
}
