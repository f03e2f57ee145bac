# Bytes as the stored answers spell them, for the tests that have the checker compute definitions (tests/definitions and its like); `name` is the test's.
function hex(c) { return index("0123456789abcdef", c) - 1 }
function fail(what) { print name ": line " NR ": " what; failed = 1; exit 1 }
# hexadecimal digits, as a list
function bytes(h,    i, r) { r = ""; for (i = 1; i < length(h); i += 2) r = r (hex(substr(h, i, 1)) * 16 + hex(substr(h, i + 1, 1))) " ∷ "; return r "[]" }
# pieces joined by `+`, each hexadecimal digits or digits*TIMES; `-` is none
function spelt(text,    n, i, k, part, half, times, h) {
    h = ""
    if (text == "-") return "[]"
    n = split(text, part, "+")
    for (i = 1; i <= n; i++) {
        times = split(part[i], half, "*") == 2 ? half[2] : 1
        if (half[1] !~ /^([0-9a-f][0-9a-f])+$/ || times !~ /^[1-9][0-9]*$/) fail("not bytes: " part[i])
        for (k = 0; k < times; k++) h = h half[1]
    }
    return bytes(h)
}
