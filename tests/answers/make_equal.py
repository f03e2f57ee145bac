#!/usr/bin/env python3
"""Makes equal.tsv, the stored answers of the equality test:

    tests/answers/make_equal.py >tests/answers/equal.tsv

A line has a name, two tables in hexadecimal, and the first four numbers of the answer: refusal number, place, which table is refused (1, 2, 0),
and yes 1 or no 0. The answers come from the plain judgement below, which reads the tables by itself; how a pair was made decides its name and
nothing else. Equality is that of canonical forms: a tree is written out as a text, the members of a sum or a product in the order of their
texts, and two trees are equal when their texts are. The dice are written out, so that every Python 3 makes the same file.
"""
import sys

sys.setrecursionlimit(20000)
INTEGER, SYMBOL, SUM, PRODUCT, POWER = range(5)


# The judgement: the bytes of a table to a refusal and its place, or to a tree.

class Refused(Exception):
    pass


def records_of(table):
    """The records as (kind, count, integer, symbol); refusals 1, 2 and 3."""
    if len(table) == 0 or len(table) % 16 or len(table) > 49152:
        raise Refused(1, 0)
    out, weight = [], 0
    for place in range(len(table) // 16):
        r = table[16 * place:16 * place + 16]
        r = r[:4] + bytes(2) + r[6:]  # a line mark, which equality ignores
        kind, count = r[0], int.from_bytes(r[2:4], "little")
        if kind == INTEGER:
            rest = r[1:8]
        elif kind == SYMBOL:
            rest = r[1:8] + r[9:]
        elif kind in (SUM, PRODUCT):
            rest = r[1:2] + r[4:]
        elif kind == POWER:
            rest = r[1:]
        else:
            raise Refused(2, place)
        if any(rest) or (kind in (SUM, PRODUCT) and count < 2):
            raise Refused(2, place)
        out.append((kind, count, int.from_bytes(r[8:], "little", signed=True), r[8]))
        weight += 3 if kind == SYMBOL else 1
    if weight > 3072:
        raise Refused(3, 0)
    return out


def tree_of(table):
    """The tree of a table; refusals 1 to 5."""
    records, exponents = records_of(table), []

    def tree_at(i):
        if i == len(records):
            raise Refused(4, i)
        kind, count, integer, symbol = records[i]
        if kind == INTEGER:
            return (kind, integer), i + 1
        if kind == SYMBOL:
            return (kind, symbol), i + 1
        members, i = [], i + 1
        for m in range(2 if kind == POWER else count):
            if kind == POWER and m == 1:
                exponents.append(i)
            member, i = tree_at(i)
            members.append(member)
        return (kind, members), i

    tree, end = tree_at(0)
    if end < len(records):
        raise Refused(4, end)
    flawed = [e for e in exponents if records[e][0] != INTEGER or records[e][2] < 1]
    if flawed:
        raise Refused(5, min(flawed))
    return tree


def canonical(tree):
    """The tree as a text that is the same for equal trees, and for no others."""
    kind, content = tree
    if kind == INTEGER:
        return "%d" % content
    if kind == SYMBOL:
        return "s%d" % content
    members = [canonical(m) for m in content]
    if kind == POWER:
        return "^(" + members[0] + "," + members[1] + ")"
    return ("+(" if kind == SUM else "*(") + ",".join(sorted(members)) + ")"


def judged(a, b):
    trees = []
    for which, table in ((1, a), (2, b)):
        try:
            trees.append(tree_of(table))
        except Refused as refusal:
            return refusal.args[0], refusal.args[1], which, 0
    return 0, 0, 0, int(canonical(trees[0]) == canonical(trees[1]))


# Making the pairs: trees as above, a power's members being base and exponent.

seed = 0x452821e638d01377


def dice(n):
    global seed
    seed ^= seed << 13 & (1 << 64) - 1
    seed ^= seed >> 7
    seed ^= seed << 17 & (1 << 64) - 1
    return seed % n


def one_of(things):
    return things[dice(len(things))]


def i(n):
    return (INTEGER, n)


def s(k):
    return (SYMBOL, k)


def add(*members):
    return (SUM, list(members))


def mul(*members):
    return (PRODUCT, list(members))


def power(base, exponent):
    return (POWER, [base, i(exponent)])


def record(kind, count=0, number=0):
    return bytes([kind, 0]) + count.to_bytes(2, "little") + bytes(4) + (number % (1 << 64)).to_bytes(8, "little")


def table(tree):
    kind, content = tree
    if kind in (INTEGER, SYMBOL):
        return record(kind, 0, content)
    return record(kind, 0 if kind == POWER else len(content)) + b"".join(table(m) for m in content)


def mixed(things):
    """The things in another order."""
    out = list(things)
    for k in range(len(out) - 1, 0, -1):
        j = dice(k + 1)
        out[k], out[j] = out[j], out[k]
    return out


def shuffled(tree):
    kind, content = tree
    if kind in (INTEGER, SYMBOL):
        return tree
    members = [shuffled(m) for m in content]
    return (kind, members if kind == POWER else mixed(members))


EDGES = [0, 1, -1, 2, 255, 256, -256, (1 << 63) - 1, -(1 << 63), 1 << 32, 1 << 56]


def leaf():
    if dice(2):
        return s(one_of([0, 1, 2, 3, 255]))
    return i(one_of(EDGES) if dice(4) == 0 else dice(4))


def grown(depth):
    kind = dice(5) if depth else dice(2)
    if kind < 2:
        return leaf()
    if kind == POWER:
        return power(grown(depth - 1), 1 + dice(4) if dice(4) else one_of([1, (1 << 63) - 1, 256, 257]))
    return (kind, [grown(depth - 1) for _ in range(2 + dice(3))])


def size(tree):
    return 1 if tree[0] < 2 else 1 + sum(size(m) for m in tree[1])


def some(least=3, most=13, depth=3, kinds=(SUM, PRODUCT, POWER)):
    """A random tree of a size within bounds that has a node of one of the kinds."""
    while True:
        tree = grown(depth)
        if least <= size(tree) <= most and places(tree, lambda t: t[0] in kinds):
            return tree


def places(tree, wanted, path=()):
    """The paths to the nodes that are wanted, exponents aside."""
    kind, content = tree
    out = [path] if wanted(tree) else []
    if kind >= 2:
        for k, m in enumerate(content[:1] if kind == POWER else content):
            out += places(m, wanted, path + (k,))
    return out


def at(tree, path):
    return at(tree[1][path[0]], path[1:]) if path else tree


def put(tree, path, new):
    if not path:
        return new
    members = list(tree[1])
    members[path[0]] = put(members[path[0]], path[1:], new)
    return (tree[0], members)


def changed(tree, wanted, change):
    path = one_of(places(tree, wanted))
    return put(tree, path, change(at(tree, path)))


def another_leaf(t):
    kind, n = t
    if dice(4) == 0 and 0 <= n < 256:
        return (1 - kind, n)
    if kind == SYMBOL:
        return s((n + 1 + dice(255)) % 256)
    n ^= 1 << one_of([0, 1, 8, 31, 32, 62, 63])
    return i((n + (1 << 63)) % (1 << 64) - (1 << 63))


def other_kind(t):
    return (SUM + PRODUCT - t[0], t[1])


def other_exponent(t):
    e = t[1][1][1]
    return power(t[1][0], one_of([f for f in (1, 2, 3, e % 256 + 256, (1 << 63) - 1, (e >> 1) + 1, e ^ 1 << 40) if f != e]))


def another_count(t):
    members, k = list(t[1]), dice(len(t[1]))
    if dice(2) and len(members) > 2:
        del members[k]
    else:
        members.insert(dice(len(members) + 1), one_of([members[k], leaf(), i(0), i(1)]))
    return (t[0], members)


def is_node(t):
    return t[0] in (SUM, PRODUCT)


def is_leaf(t):
    return t[0] < 2


def swapped():
    """Two siblings or more, and the same with a member of one and a member of another exchanged."""
    outer, inner = one_of([SUM, PRODUCT]), one_of([SUM, PRODUCT])
    groups = [[grown(1) for _ in range(2 + dice(4) // 3)] for _ in range(2 + dice(4) // 3)]
    others = mixed(range(len(groups)))[:2]
    a = (outer, [(inner, list(g)) for g in groups])
    k, m = dice(len(groups[others[0]])), dice(len(groups[others[1]]))
    groups[others[0]][k], groups[others[1]][m] = groups[others[1]][m], groups[others[0]][k]
    return a, (outer, [(inner, g) for g in groups])


def doubled():
    """One member twice, against another twice."""
    kind, x, y = one_of([SUM, PRODUCT]), grown(2), grown(1)
    others = [grown(1) for _ in range(dice(3))]
    return (kind, [x, shuffled(x), y] + others), (kind, [x, y, shuffled(y)] + others)


def regrouped():
    """a + (b + c) against (a + b) + c, and what is like it."""
    outer, inner = one_of([SUM, PRODUCT]), one_of([SUM, PRODUCT])
    if dice(2):
        inner = outer
    x, y, z = grown(1), grown(1), grown(1)
    a = (outer, [x, (inner, [y, z])])
    return a, one_of([(outer, [(inner, [x, y]), z]), (outer, [(inner, [x, z]), y]), (outer, [x, y, z]), (outer, [(inner, [z, y]), x]),
                      (inner, [x, (outer, [y, z])])])


def level_moved():
    """A member moved into a sibling or out of it: as many records, other counts."""
    kind, inner = one_of([SUM, PRODUCT]), one_of([SUM, PRODUCT])
    x = [grown(1) for _ in range(3 + dice(2))]
    y = [grown(1) for _ in range(2 + dice(2))]
    return (kind, [(inner, x)] + y), (kind, [(inner, x[:-1]), x[-1]] + y)


def chain(kind, depth, first, leaves):
    """Nodes one inside the other, the deep member first or last; leaves[0] is the innermost."""
    tree = leaves[0]
    for d in range(depth):
        if kind == POWER:
            tree = power(tree, leaves[d + 1][1])
        else:
            tree = (kind, [tree, leaves[d + 1]] if first else [leaves[d + 1], tree])
    return tree


def damaged():
    """A table that is refused, or has a line mark."""
    while True:
        t = bytearray(table(some(3, 10)))
        r, p = 16 * dice(len(t) // 16), dice(16)
        damage = dice(14)
        if damage == 0:
            t = t[:dice(2) * dice(len(t))]
        elif damage == 1:
            t += bytes(1 + dice(15))
        elif damage == 2:
            t[r] = 5 + dice(251)
        elif damage == 3:
            t[r + p] ^= 1 << dice(8)
        elif damage == 4:
            t[r:r + 16] = record(SUM + dice(2), dice(2))
        elif damage == 5:
            t = t[:-16]
        elif damage == 6:
            t += one_of([record(INTEGER), record(SYMBOL, 0, 1), record(POWER), record(SUM, 2)]) * (1 + dice(2))
        elif damage == 7:
            t[r:r + 16] = record(SUM + dice(2), 2 + dice(3))
        elif damage == 8:
            t[r:r + 16] = record(POWER)
        else:
            wrong = one_of([i(0), i(-1), i(-(1 << 63)), s(1), add(i(1), i(2)), power(i(1), 1)])
            right = some(3, 10, 3, (SUM, PRODUCT))
            t = bytearray(table(changed(right, is_leaf, lambda x: (POWER, [x, wrong]))))
            if dice(3) == 0:
                t = bytearray(table(changed(right, is_leaf, lambda x: power((POWER, [x, wrong]), 2))))
        if judged(t, t)[0] or any(t[place + 4] or t[place + 5] for place in range(0, len(t), 16)):
            return bytes(t)


a, b, c, d = s(0), s(1), s(2), s(3)
LETTERS = [
    ("a and a", a, a), ("a and b", a, b), ("0 and a", i(0), a), ("a and 0", a, i(0)), ("symbol 5 and integer 5", s(5), i(5)),
    ("1 and 257", i(1), i(257)), ("1 and 2^56 + 1", i(1), i((1 << 56) + 1)), ("-1 and 2^63 - 1", i(-1), i((1 << 63) - 1)),
    ("-2^63 and 0", i(-(1 << 63)), i(0)), ("-2^63 and itself", i(-(1 << 63)), i(-(1 << 63))), ("symbols 0 and 255", s(0), s(255)),
    ("a + b and b + a", add(a, b), add(b, a)), ("a * b and b * a", mul(a, b), mul(b, a)), ("a + b and a * b", add(a, b), mul(a, b)),
    ("a + b and a", add(a, b), a), ("a + (b + c) and (a + b) + c", add(a, add(b, c)), add(add(a, b), c)),
    ("a + (b + c) and (c + b) + a", add(a, add(b, c)), add(add(c, b), a)), ("a + (b + c) and a + b + c", add(a, add(b, c)), add(a, b, c)),
    ("a * (b * c) and (a * b) * c", mul(a, mul(b, c)), mul(mul(a, b), c)), ("a + a + b and a + b + b", add(a, a, b), add(a, b, b)),
    ("a + a + b and b + a + a", add(a, a, b), add(b, a, a)), ("a + a and a + a + a", add(a, a), add(a, a, a)),
    ("a + a and 2 * a", add(a, a), mul(i(2), a)),
    ("(a + b) * (c + d) and (a + c) * (b + d)", mul(add(a, b), add(c, d)), mul(add(a, c), add(b, d))),
    ("(a + b) * (c + d) and (d + c) * (b + a)", mul(add(a, b), add(c, d)), mul(add(d, c), add(b, a))),
    ("a^2 and a^3", power(a, 2), power(a, 3)), ("a^2 and a * a", power(a, 2), mul(a, a)), ("2^3 and 3^2", power(i(2), 3), power(i(3), 2)),
    ("a^1 and a", power(a, 1), a), ("(a + b)^2 and (b + a)^2", power(add(a, b), 2), power(add(b, a), 2)),
    ("(a^2)^3 and (a^3)^2", power(power(a, 2), 3), power(power(a, 3), 2)),
    ("a^2 * b^3 and a^3 * b^2", mul(power(a, 2), power(b, 3)), mul(power(a, 3), power(b, 2))),
    ("a^2 * b^3 and b^3 * a^2", mul(power(a, 2), power(b, 3)), mul(power(b, 3), power(a, 2))), ("a + 0 and a", add(a, i(0)), a),
    ("1 + 2 and 3", add(i(1), i(2)), i(3)),
    ("(a + b) + (b + a) + (a + c) and (a + b) + (a + c) + (c + a)", add(add(a, b), add(b, a), add(a, c)), add(add(a, b), add(a, c), add(c, a))),
]


def large():
    many = [i(n * n * n - 5) for n in range(300)]
    yield "300 members, shuffled", (SUM, many), (SUM, mixed(many))
    yield "300 members, the last changed", (PRODUCT, many), (PRODUCT, mixed(many[:-1] + [i(many[-1][1] + 1)]))
    yield "300 members, one twice", (SUM, many[:-1] + many[:1]), (SUM, mixed(many[:-1] + many[1:2]))
    yield "258 members and 2 of them", (SUM, many[:258]), (SUM, many[:2])
    yield "2 members and 258", (PRODUCT, many[:2]), (PRODUCT, many[:258])
    for kind in (SUM, PRODUCT, POWER):
        leaves = [i(1 + dice(3)) for _ in range(41)]
        other = leaves[:1] + [i(9)] + leaves[2:]
        for first in (True, False):
            name = "40 nodes of kind %d, the deep member %s" % (kind, "first" if first else "last")
            yield name, chain(kind, 40, first, leaves), chain(kind, 40, not first, leaves)
            yield name + ", a leaf changed", chain(kind, 40, first, leaves), chain(kind, 40, first, other)
    thousand = [(SYMBOL, n % 200) if n % 3 == 0 else i(n % 400 - 200) for n in range(1000)]
    yield "1,000 members, shuffled", (SUM, thousand), (SUM, mixed(thousand))
    yield "1,000 members, one changed", (SUM, thousand), (SUM, mixed(thousand[:500] + [i(777)] + thousand[501:]))
    leaves = [i(3 + n) for n in range(1536)]
    other = [i(2)] + leaves[1:]
    yield "1,535 sums one inside the other, the deep member first and last", chain(SUM, 1535, True, leaves), chain(SUM, 1535, False, leaves)
    yield "1,535 products one inside the other, the innermost leaf changed", chain(PRODUCT, 1535, False, leaves), chain(PRODUCT, 1535, False, other)


def pairs():
    for name, x, y in LETTERS:
        yield name, table(x), table(y)
    for name, x, y in large():
        yield name, table(x), table(y)

    heaviest = [s(n % 256) for n in range(1023)] + [i(0), i(1)]
    at_most, too_heavy = table((SUM, heaviest)), table((SUM, heaviest + [i(2)]))
    yield "weight 3,072 and 3", at_most, table(a)
    yield "weight 3,073 and 3", too_heavy, table(a)
    yield "3 and weight 3,073", table(a), too_heavy
    yield "no byte and no byte", b"", b""

    def twice(n, name, make):
        for k in range(n):
            x, y = make()
            yield "%s %d" % (name, k), table(x), table(shuffled(y) if k % 3 else y)

    def of(change, wanted, kinds=(SUM, PRODUCT, POWER)):
        def make():
            x = some(kinds=kinds)
            return x, changed(x, wanted, change)
        return make

    def copies():
        x = some()
        return x, shuffled(x)

    yield from twice(450, "shuffled", copies)
    yield from twice(250, "leaf changed", of(another_leaf, is_leaf))
    yield from twice(160, "swapped between siblings", swapped)
    yield from twice(130, "one twice and another twice", doubled)
    yield from twice(130, "exponent changed", of(other_exponent, lambda t: t[0] == POWER, (POWER,)))
    yield from twice(130, "sum and product", of(other_kind, is_node, (SUM, PRODUCT)))
    yield from twice(130, "counts", of(another_count, is_node, (SUM, PRODUCT)))
    yield from twice(80, "level moved", level_moved)
    yield from twice(130, "regrouped", regrouped)
    yield from twice(60, "of no kin", lambda: (some(2, 6, 2), some(2, 6, 2)))
    for k in range(330):
        refused, right = damaged(), table(some(3, 10))
        if k % 3 == 0:
            yield "refused first %d" % k, refused, right
        elif k % 3 == 1:
            yield "refused second %d" % k, right, refused
        else:
            yield "refused both %d" % k, refused, damaged()


for name, x, y in pairs():
    print("%s\t%s\t%s\t%d %d %d %d" % ((name, x.hex(), y.hex()) + judged(x, y)))
