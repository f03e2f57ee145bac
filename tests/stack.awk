# What each call of an archive needs of the stack at the most, from its machine code: x86-64 or 64-bit Arm, one function to a section, as clang writes it.
#
# Read in this order: the table of activations (how often a function that calls itself may be active at the same time, at each limit), the
# header's figures and names, the symbols (llvm-objdump -t), the code with its relocations (-d -r), the relocations of the jump tables (-r).
#
# For each instruction it is found how far the stack pointer then stands below where it stood at the function's first one. Everything that is not
# understood is an error: a stack pointer that is set in another way, a place that is reached with two heights, a call by a pointer, a jump
# out of a function, a cycle of calls whose functions are not in the table.
function hex(s,    n, i, c, minus) {
    minus = sub(/^-/, "", s)
    sub(/^0x/, "", s)
    for (n = i = 0; i++ < length(s);) {
        c = index("0123456789abcdef", substr(s, i, 1))
        if (!c) fault("no number: " s)
        n = 16 * n + c - 1
    }
    return minus ? -n : n
}
function fault(what) { print "stack: " what; failed = 1; exit 1 }
function most(a, b) { return a > b ? a : b }
function comma(n,    s) {
    s = n % 1000
    return n < 1000 ? n "" : comma(int(n / 1000)) "," substr("00" s, length("00" s) - 2)
}

# ---- What is read ----

FNR == 1 { part++ }
part == 1 { sub(/#.*/, "") }
part == 1 && NF {
    if (NF == 3) { listed[$1] = 1; for (i = 1; i <= 2; i++) times[$1, i] = $(i + 1) }
    else if (NF == 7 && $4 == "inside") { # inside $5, where that has so many activations
        k = ++cases[$5]
        within[$5, k] = $1
        for (i = 1; i <= 2; i++) { fewer[$5, k, i] = $(i + 1); outer[$5, k, i] = $(i + 5) }
    } else fault("a row of the table that is not understood: " $0)
}
part == 2 && $1 ~ /^simmergate_/ && $2 ~ /^[0-9,]+$/ && $3 ~ /^[0-9,]+$/ {
    for (i = 1; i <= 2; i++) { n = $(i + 1); gsub(",", "", n); says[$1, i] = n + 0 }
}
# The names for a stack that is enough, each a number or another name; those for Arm, or for other machines, may stand apart.
part == 2 && /^#if.*__aarch64__/ { machine = "arm" }
part == 2 && /^#else/ && machine == "arm" { machine = "x86" }
part == 2 && /^#endif/ { machine = "" }
part == 2 && $1 == "#define" && $2 ~ /^SIMMERGATE_(READ_TEXT_)?STACK(_16384)?$/ { name[machine, $2] = $3 }
# How many arguments a call has, from its declaration.
part == 2 && /^uint32_t simmergate_/ { declared = $2; sub(/\(.*/, "", declared); list = "" }
part == 2 && declared != "" {
    list = list $0
    if (list !~ /;$/) next
    arguments[declared] = gsub(",", ",", list) + 1
    declared = ""
}
part == 3 && $2 == "g" && $3 == "F" { exported[++exports] = $6; home[$6] = $4; if ($1 !~ /^0+$/) fault($6 " does not begin its section") }
part == 3 && $2 == "g" && $3 != "F" { fault("an exported name that is no function: " $0) }

part == 4 && /file format / {
    arm = /aarch64/
    if (!arm && !/x86-64/) fault("machine code that is not understood: " $0)
    next
}
part == 4 && /^Disassembly of section / { f = $4; sub(/:$/, "", f); functions[++count] = f; defined[f] = 1; next }
part == 4 && /^ *[0-9a-f]+:[ \t]/ && !/R_(X86_64|AARCH64)_/ {
    split($0, w, "\t")
    at = w[1]
    sub(/:.*/, "", at)
    gsub(" ", "", at)
    here = hex(at)
    n = ++size[f]
    place[f, n] = here
    number[f, here] = n
    mnemonic[f, n] = w[2]
    operands[f, n] = w[3]
    if (arm) sub(/ *\/\/.*/, "", operands[f, n])
    else sub(/ *#.*/, "", operands[f, n])
    next
}
part == 4 && /R_(X86_64|AARCH64)_/ {
    split($0, w, "\t")
    reloc[f, size[f]] = w[4]
    if (!arm && w[4] ~ /^\.rodata\./) { s = w[4]; base_of(s) }
    next
}
# A table of jumps begins 4 behind the place that an instruction names.
function base_of(s,    name, add) {
    if (!match(s, /[-+]0x[0-9a-f]+$/)) { name = s; add = 0 }
    else { name = substr(s, 1, RSTART - 1); add = hex((substr(s, RSTART, 1) == "-" ? "-" : "") substr(s, RSTART + 1)) }
    tables[name, ++bases[name]] = add + 4
}
part == 5 && /^RELOCATION RECORDS FOR / { r = $4; gsub(/[\[\]:]/, "", r); r = substr($0, index($0, "[") + 1); sub(/\]:$/, "", r); next }
part == 5 && r ~ /^\.rodata/ && /R_X86_64_/ {
    if ($2 != "R_X86_64_PC32") fault("a relocation of data that is no jump: " $0)
    jump_at[r, ++jumps[r]] = hex($1)
    jump_to[r, jumps[r]] = $3
}

# ---- Heights within a function ----

function reach(f, to, h,    n) {
    if (!((f, to) in number)) fault("a jump in " f " to no instruction")
    n = number[f, to]
    if ((f, n) in height) {
        if (height[f, n] != h) fault("two heights at " place[f, n] " of " f ": " height[f, n] " and " h)
        return
    }
    height[f, n] = h
    queue[++last] = n
}
# Where the jumps of a table lead: each entry is counted from the table's own beginning.
function by_table(f, h,    r, i, b, t, k, s) {
    r = f
    sub(/^\.text/, ".rodata", r)
    if (!jumps[r]) fault("a jump in " f " by a pointer, and no table of jumps")
    for (i = 1; i <= jumps[r]; i++) {
        b = -1
        for (k = 1; k <= bases[r]; k++) if (tables[r, k] <= jump_at[r, i]) b = most(b, tables[r, k])
        if (b < 0) fault("a table of jumps in " r " that nothing names")
        s = jump_to[r, i]
        if (!match(s, /\+0x[0-9a-f]+$/) || substr(s, 1, RSTART - 1) != f) fault("a jump by a table of " f " to " s)
        reach(f, hex(substr(s, RSTART + 1)) - (jump_at[r, i] - b), h)
    }
}
function called(s) { sub(/[-+]0x[0-9a-f]+$/, "", s); return s in home ? home[s] : s }
function edge(f, g, h, tail,    k) {
    k = ++edges[f]
    to[f, k] = g
    cost[f, k] = tail ? 0 : h + returning()
    if (!(g in defined)) outside[g] = 1
}
# An instruction: `after` is the height behind it, and `follows` says whether the next one follows.
function step_x86(f, n, h, m, o,    a, t) {
    # below the stack pointer: the 128 bytes that a function which calls nothing may use
    if (match(o, /-0x[0-9a-f]+\(%rsp/) && m !~ /^leaq/) own[f] = most(own[f], h - most(hex(substr(o, RSTART, RLENGTH - 5)), -128))
    if (m == "pushq") after = h + 8
    else if (m == "popq") after = h - 8
    else if (m ~ /^(sub|add)q$/ && o ~ /^\$-?0x[0-9a-f]+, %rsp$/) {
        a = o
        sub(/^\$/, "", a)
        sub(/,.*/, "", a)
        after = m == "subq" ? h + hex(a) : h - hex(a)
    }
    else if (m == "leaq" && o ~ /^-0x[0-9a-f]+\(%rsp\), %r11$/) { a = o; sub(/^-/, "", a); sub(/\(.*/, "", a); probe = h + hex(a) }
    else if (m == "subq" && o ~ /^\$0x[0-9a-f]+, %r11$/ && operands[f, n - 1] == "%rsp, %r11") { a = o; sub(/^\$/, "", a); sub(/,.*/, "", a); probe = h + hex(a) }
    else if (o ~ /%[er]?spl?$/ && m !~ /^(cmp|test)/ || o ~ /%[er]?spl?,/ && m ~ /xchg|xadd/ || m ~ /^(leave|enter|push|pop[^c]|sys|int|iret)/)
        fault("the stack pointer set by " m " " o " in " f)
    if (m ~ /^ret/ && o == "") returns(f, h)
    else if (m == "ud2") follows = 0
    else if (m == "callq") call(f, n, h, o)
    else if (m ~ /^(l?ret|l?call|ljmp)/) fault(m " in " f)
    else if (m ~ /^j/) {
        if ((f, n) in reloc) jump_out(f, n, h)
        else if (o ~ /^\*/) by_table(f, h)
        else {
            t = o
            sub(/ .*/, "", t)
            if (m == "jne" && mnemonic[f, n - 1] == "cmpq" && operands[f, n - 1] == "%r11, %rsp") after = probe
            else reach(f, hex(t), h)
        }
        if (m == "jmp" || m == "jmpq") follows = 0
    }
}
function step_arm(f, n, h, m, o,    a, pages, t) {
    if (match(o, /\[sp, #-0x[0-9a-f]+\]$/)) own[f] = most(own[f], h - hex(substr(o, RSTART + 6, RLENGTH - 7)))
    if (m ~ /^(sub|add)$/ && o ~ /^sp, sp, #0x[0-9a-f]+(, lsl #12)?$/) {
        a = o
        sub(/^sp, sp, #/, "", a)
        pages = sub(/, lsl #12$/, "", a)
        a = hex(a) * (pages ? 4096 : 1)
        after = m == "sub" ? h + a : h - a
    }
    # a long frame is reached a page at a time, up to x9
    else if (m == "sub" && o ~ /^x9, sp, #0x[0-9a-f]+(, lsl #12)?$/) {
        a = o
        sub(/^x9, sp, #/, "", a)
        pages = sub(/, lsl #12$/, "", a)
        probe = h + hex(a) * (pages ? 4096 : 1)
    }
    else if (m == "sub" && o ~ /^x9, x9, #0x[0-9a-f]+(, lsl #12)?$/) {
        a = o
        sub(/^x9, x9, #/, "", a)
        pages = sub(/, lsl #12$/, "", a)
        probe += hex(a) * (pages ? 4096 : 1)
    }
    # moved by a store or a load: before it, or behind it
    else if (match(o, /\[sp, #-?0x[0-9a-f]+\]!$/)) after = h - hex(substr(o, RSTART + 6, RLENGTH - 8))
    else if (match(o, /\[sp\], #-?0x[0-9a-f]+$/)) after = h - hex(substr(o, RSTART + 7))
    else if (o ~ /^w?sp(,|$)/ && m !~ /^(cmp|cmn|tst)$/ || o ~ /\[sp.*(!|\], .*)$/) fault("the stack pointer set by " m " " o " in " f)
    if (m == "ret" && o == "") returns(f, h)
    else if (m == "brk" || m == "udf") follows = 0
    else if (m == "bl") call(f, n, h, o)
    else if (m == "b" || m ~ /^b\./ || m ~ /^[ct]bn?z$/) {
        if ((f, n) in reloc) jump_out(f, n, h)
        else {
            t = o
            sub(/ <.*/, "", t)
            sub(/.*, /, "", t)
            if (m == "b.ne" && operands[f, n - 2] == "sp, x9") after = probe
            else reach(f, hex(t), h)
        }
        if (m == "b") follows = 0
    }
    else if (m ~ /^(br|bl|ret|svc|hvc|smc|eret)/) fault("a jump or a call by a pointer in " f)
}
function returns(f, h) { if (h != 0) fault("a return from " f " at the height " h); follows = 0 }
function call(f, n, h, o) {
    if (o ~ /^\*/) fault("a call by a pointer in " f)
    if ((f, n) in reloc) edge(f, called(reloc[f, n]), h, 0)
    else reach_self(f, o, h)
}
function jump_out(f, n, h) {
    if (h != 0) fault("a jump out of " f " at the height " h)
    edge(f, called(reloc[f, n]), h, 1)
}
function walk_through(f,    first, n, h) {
    first = last = 0
    reach(f, 0, 0)
    while (first < last) {
        n = queue[++first]
        after = h = height[f, n]
        follows = 1
        if (arm) step_arm(f, n, h, mnemonic[f, n], operands[f, n])
        else step_x86(f, n, h, mnemonic[f, n], operands[f, n])
        own[f] = most(own[f], most(h, after))
        if (!follows) continue
        if (n == size[f]) fault(f " ends with no return")
        reach(f, place[f, n + 1], after)
    }
}
function reach_self(f, o, h) { sub(/ .*/, "", o); if (hex(o) != 0) fault("a call into the middle of " f); edge(f, f, h, 0) }

# ---- Cycles of calls ----

function visit(f,    k, g) {
    order[f] = low[f] = ++visited
    stack[++top] = f
    on[f] = 1
    for (k = 1; k <= edges[f]; k++) {
        g = to[f, k]
        if (!(g in defined)) continue
        if (!(g in order)) { visit(g); if (low[g] < low[f]) low[f] = low[g] }
        else if (on[g] && order[g] < low[f]) low[f] = order[g]
    }
    if (low[f] != order[f]) return
    groups++
    do { g = stack[top--]; on[g] = 0; group[g] = groups; in_group[groups, ++members[groups]] = g } while (g != f)
    settle(groups)
}
function plain(f) { sub(/^\.text\./, "", f); return f }
# What the functions of a group need: what they call outside it is known by then. A limit is 1 or 2; case 0 is the plain one, the others stand in
# the table's rows with `inside`, by the function that they are inside of.
function active(f, l, o, k) { return o != "" && within[o, k] == f ? fewer[o, k, l] : times[f, l] }
function leaves(f, l, c, o, k,    x, e, g, n) {
    x = own[f]
    via[f, l, o, k] = ""
    for (e = 1; e <= edges[f]; e++) {
        g = to[f, e]
        if (g in defined && (group[g] == c || plain(g) in listed && !active(plain(g), l, o, k))) continue
        n = cost[f, e] + (g in defined ? needs(g, l, o, k) : beyond)
        if (n > x) { x = n; via[f, l, o, k] = g }
    }
    return x
}
function needs(f, l, o, k,    c, i, g, sum, leave, x) {
    if ((f, l, o, k) in need) return need[f, l, o, k]
    c = group[f]
    if (!cyclic[c]) return need[f, l, o, k] = leaves(f, l, c, o, k)
    sum = 0
    leave = -1
    for (i = 1; i <= members[c]; i++) {
        g = in_group[c, i]
        sum += active(plain(g), l, o, k) * around[g]
        x = leaves(g, l, c, o, k) - around[g]
        if (i == 1 || x > leave) { leave = x; out_by[f, l, o, k] = g }
    }
    if (o == "") for (i = 1; i <= members[c]; i++) if (cases[plain(in_group[c, i])]) return need[f, l, o, k] = by_cases(f, l, c, plain(in_group[c, i]))
    return need[f, l, o, k] = sum + leave
}
# A cycle in which other cycles may run, of one function: the most of the cases that the table has.
function by_cases(f, l, c, o,    k, x, n) {
    if (members[c] > 1) fault("rows with `inside` for a cycle of many functions")
    n = -1
    for (k = 1; k <= cases[o]; k++) {
        x = outer[o, k, l] * around[f] + leaves(f, l, c, o, k) - around[f]
        if (x > n) { n = x; best[f, l] = k }
    }
    return n
}
function settle(c,    i, k, f, line, level) {
    for (i = 1; i <= members[c]; i++) {
        f = in_group[c, i]
        around[f] = -1
        for (k = 1; k <= edges[f]; k++) if (to[f, k] in defined && group[to[f, k]] == c) { around[f] = most(around[f], cost[f, k]); cyclic[c] = 1 }
    }
    if (!cyclic[c]) return
    line = ""
    for (i = 1; i <= members[c]; i++) {
        f = plain(in_group[c, i])
        if (!(f in listed)) fault("the function " f " calls itself, and the table of activations has no row for it")
        used[f] = 1
        level += around[in_group[c, i]]
        line = line (i > 1 ? ", " : "") sprintf("%s %d x %s or %s", f, around[in_group[c, i]], comma(times[f, 1]), comma(times[f, 2]))
    }
    cycles = cycles sprintf("     %s%s\n", line, members[c] > 1 ? ": " level " a level" : "")
}
# The way that needs the most, for a look.
function way(f, l, o, k,    s, g) {
    s = plain(f)
    if (cyclic[group[f]]) {
        if (o == "" && (f, l) in best) { o = plain(f); k = best[f, l]; s = s " x " outer[o, k, l] }
        else { s = s " x " active(plain(f), l, o, k); g = out_by[f, l, o, k]; if (g != f && g != "") s = s " .. " plain(g); f = g }
    }
    s = s " (" own[f] ")"
    g = via[f, l, o, k]
    return g == "" ? s : g in defined ? s " > " way(g, l, o, k) : s " > " g
}

# What a call puts on the stack besides the frame of the function that is called: the return address on x86-64, and the arguments that no register takes.
function returning() { return arm ? 0 : 8 }
function handed(n) { return 16 * int((8 * most(0, arguments[n] - (arm ? 8 : 6)) + 15) / 16) }
function bound(n, l) { return needs(home[n], l, "", 0) + returning() + handed(n) }

# Whether the name that a call goes by has room for it and for a loader that binds late; a line where it has not.
function named(by,    m) {
    m = arm ? "arm" : "x86"
    if (!((m, by) in name)) m = ""
    if (!((m, by) in name)) fault("the header has no " by)
    return name[m, by] ~ /^[0-9]+$/ ? name[m, by] + 0 : named(name[m, by])
}
function covered(n, l, bytes,    by) {
    by = (n == "simmergate_read_text" ? "SIMMERGATE_READ_TEXT_STACK" : "SIMMERGATE_STACK") (l == 2 ? "_16384" : "")
    if (named(by) >= bytes + loader) return 1
    print "stack: " by " is " comma(named(by)) ", and " n " needs " comma(bytes) ", with a loader " comma(loader) " more"
    return 0
}

# ---- What comes of it ----

END {
    if (failed) exit 1
    beyond += 0
    loader = 2048
    if (!exports) fault("nothing is exported")
    for (i = 1; i <= count; i++) walk_through(functions[i])
    for (i = 1; i <= count; i++) if (!(functions[i] in order)) visit(functions[i])
    for (g in outside) if (g !~ /^mem(cpy|move|set)$/) fault("a call of " g)
    for (n in listed) if (!(n in used) && !((".text." n) in defined)) fault("the table of activations has a row for " n ", which is not there")
    printf "stack: %d functions, no call by a pointer; cycles, with bytes and activations at each limit:\n%s", count, cycles
    print "stack: bytes of stack that a call needs at the most, at the limits 3,072 and 16,384" (arm ? ", on 64-bit Arm:" : ", and what the header says beyond that:")
    for (i = 1; i <= exports; i++) {
        n = exported[i]
        for (l = 1; l <= 2; l++) at_most[l] = bound(n, l)
        printf "     %-28s%9s%13s", n, comma(at_most[1]), comma(at_most[2])
        for (l = 1; l <= 2 && !arm; l++) {
            if (!((n, l) in says)) { printf "   no row"; short++ }
            else { d = says[n, l] - at_most[l]; printf "%11s", d < 0 ? "-" comma(-d) : comma(d); if (d < 0) short++; else if (d == 0) exact++ }
        }
        print ""
        if (ways) for (l = 1; l <= 2; l++) print "         " way(home[n], l, "", 0)
    }
    for (i = 1; i <= exports; i++) for (l = 1; l <= 2; l++) if (!covered(exported[i], l, bound(exported[i], l))) tight++
    if (!arm) printf "stack: of %d figures the header says %d exactly and %d too low\n", 2 * exports, exact, short
    printf "stack: %d of %d are over the header's name for them\n", tight, 2 * exports
    exit short + tight > 0
}
