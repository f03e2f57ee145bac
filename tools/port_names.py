#!/usr/bin/env python3
"""Respells the repository's own definitions, laws and fields in snake case, as today's Rattle spells them.

usage: tools/port_names.py [--check] [--table]

Run it once, at the top, right after port.py. A name of specs/ or proofs/ that has a dash or a capital in its middle gets plain underscores:
    treeOf, put-none, records-written  ->  tree_of, put_none, records_written
A law that would meet another name gets `_lem` behind it. Functions of src/ keep their names, and so do types, modules and names of the kit's library.
In .antt files every word of the code turns, in .rt files the clauses and ghost items, in comments the words between back quotes.
--table prints the old and the new names. --check writes nothing. It prints what may fall together.
"""
import collections
import glob
import os
import re
import sys

NAME = r'[^\s(){}.;,@"«»]+'
DECL = re.compile(r'(?m)^([ \t]*)((?:(?:pub|abbrev|unfoldable|opaque|ruleset) )*)(' + NAME + r')(?: \{[^{}\n]*\}| \([^()\n]*\))* :(?= |$)')
WORD = re.compile(NAME)
# Definitions that would meet a constructor or their own record's field.
OTHERS = {
    "turnedDown": "turned_down_compared",
    "tooShort": "is_too_short",
    "turnedAway": "turned_away_answer",
    "badByte": "bad_byte_record",
    "badCount": "bad_count_record",
    "aPower": "power_table",
}
# What no line declares by itself, and types with a dash.
MORE = {
    "as-base": "as_base",
    "Handed-again": "HandedAgain",
    "Link-shown": "LinkShown",
    "Restored-whole": "RestoredWhole",
    "Six-finds-room": "SixFindsRoom",
}
KIT = re.compile(r"(?m)^ *(?:pub )?(?:ghost )?use ((?:Prim|mathlib|native|lib|borrow|contract|denote|mir|prog|seplogic|types|Rattle\.std)[\w.'’ℕ]*)\.\{([^}]*)\}")


def snake(n):
    return re.sub(r"(?<=[a-z0-9₀-₉])[A-Z]", lambda m: "_" + m[0].lower(), n).replace("-", "_")


def files():
    for p in sorted(glob.glob("crates/*/specs/**/*.antt", recursive=True) + glob.glob("crates/*/proofs/**/*.antt", recursive=True)):
        yield p


def harvest():
    """The declared names: those of fields, of definitions and constructors, and of laws; and what is imported from the kit."""
    inner, specs, laws, kit = set(), set(), set(), set()
    for p in files():
        t = open(p, encoding="utf-8").read()
        t = re.sub(r"(?m)--.*$", "", t)
        inside, indent = None, 0
        for line in t.split("\n"):
            m = re.match(r"( *)(?:(?:pub|abbrev|unfoldable) )*(record|data) ", line)
            if m and line.rstrip().endswith("where"):
                inside, indent = m[2], len(m[1])
                continue
            if inside and line.strip() and len(line) - len(line.lstrip()) <= indent:
                inside = None
            d = DECL.match(line)
            if not d:
                continue
            (inner if inside == "record" else specs if inside or "/specs/" in p else laws).add(d[3])
        for m in KIT.finditer(t):
            for it in m[2].split(","):
                kit.add(it.strip().split(" as ")[-1])
    return inner, specs, laws, kit


def table():
    inner, specs, laws, kit = harvest()
    declared = inner | specs | laws
    turns = lambda n: n not in kit and "·" not in n and re.match(r"[^A-Z]", n) and ("-" in n[1:-1] or re.match(r"[a-z](?:[^-]*[a-z0-9])?[A-Z]", n))
    new = {}
    taken = collections.defaultdict(set)
    for n in sorted(declared):
        taken[snake(n) if turns(n) else n].add(n)
    for b, group in sorted(taken.items()):
        group = {n for n in group if n not in OTHERS}
        if not any(turns(n) for n in group) and not group & laws:
            continue
        if len(group) == 1 and not turns(next(iter(group))):
            continue
        # a definition or a field keeps the plain name, and a law beside it gets `_lem`
        rank = lambda n: (n not in specs, n not in laws, "-" in n, n)
        first, *rest = sorted(group, key=rank)
        if b in kit and b not in declared:
            rest, first = [first, *rest], None
        if first and first != b:
            new[first] = b
        for n in rest:
            # a field stands behind a dot or in its record, and may share the name (`of_field`)
            new[n] = b if n not in specs and n not in laws else b + "_lem"
    new.update(OTHERS)
    new.update(MORE)
    clash = collections.defaultdict(set)
    for a, b in new.items():
        clash[b].add(a)
        if b in declared and b not in new:
            clash[b].add(b)
    for b, s in clash.items():
        if len(s) > 1 and not any(a in inner for a in s):
            print("falls together:", b, sorted(s))
    return {a: b for a, b in new.items() if a != b}, inner


# the names that the file at hand gives to modules of specs/ and of laws
ALIASES = set()


def aliases(text):
    ALIASES.clear()
    ALIASES.update(re.findall(r"(?m)\buse Rattle\.\w+\.(?:specs|proofs)(?:\.[A-Z]\w*)+ as (\w+)", text))


def of_field(w):
    return snake(w)


def turn_code(text, new, inner, in_record):
    """Every word of the code that the table has. After a dot only a field turns, or what stands in a module."""

    def one(m):
        w = m[0]
        if w not in new:
            return w
        if m.start() and text[m.start() - 1] == "." and text[m.start() - 2 : m.start()] != "..":
            head = re.search(r"([^\s(){};,@\"«»]*)\.$", text[: m.start()])
            last = head[1].split(".")[-1] if head else ""
            if head and head[1].split(".")[0] in ("tie", "goal"):
                return w
            if re.match("[A-Z]", last) or (head and head[1] in ALIASES):
                return new[w]
            return of_field(w) if w in inner else w
        if w in inner:
            before, behind = text[: m.start()], text[m.end() :]
            if re.match(r" = ", behind) and re.search(r"(^\s+|[{;] +)$", before) and not re.search(r"\blet +$", before):
                return of_field(w)
            if in_record and re.match(r"( \([^()]*\)| \{[^{}]*\})* :( |$)", behind) and re.search(r"^\s+(pub )?$", before):
                return of_field(w)
        return new[w]

    return WORD.sub(one, text)


def turn_comment(text, new):
    return re.sub(r"`[^`\n]*`", lambda m: WORD.sub(lambda w: new.get(w[0], w[0]), m[0]), text)


def turn_antt(text, new, inner):
    out, inside, indent = [], False, 0
    for line in text.split("\n"):
        m = re.match(r"( *)(?:(?:pub|abbrev|unfoldable) )*(record|data) ", line)
        if m and line.rstrip().endswith("where"):
            inside, indent = m[2] == "record", len(m[1])
        elif inside and line.strip() and len(line) - len(line.lstrip()) <= indent:
            inside = False
        at = line.find("--")
        while at > 0 and re.match(NAME, line[at - 1]) and line[at - 1] not in " \t":
            at = line.find("--", at + 2)
        if at < 0:
            out.append(turn_code(line, new, inner, inside))
        else:
            out.append(turn_code(line[:at], new, inner, inside) + turn_comment(line[at:], new))
    return "\n".join(out)


def turn_rt(text, new, inner):
    out = []
    # what could be a name of the Rust stays
    new = {a: b for a, b in new.items() if not re.match(r"[a-z_0-9]+$", a)}
    for line in text.split("\n"):
        at = line.find("//")
        if at < 0:
            out.append(turn_code(line, new, inner, False) if '"' not in line else line)
        else:
            out.append(turn_code(line[:at], new, inner, False) + turn_comment(line[at:], new))
    return "\n".join(out)


def main(argv):
    new, inner = table()
    if "--table" in argv:
        for a, b in sorted(new.items()):
            print(f"{a}\t{b}")
        return 0
    back = collections.defaultdict(set)
    for a, b in new.items():
        back[b].add(a)
    count = 0
    for p in sorted(glob.glob("crates/*/**/*.antt", recursive=True) + glob.glob("crates/*/src/*.rt")):
        t = open(p, encoding="utf-8").read()
        words = set(WORD.findall(re.sub(r"(?m)(--|//).*$", "", t)))
        for w in sorted(words & set(new)):
            if new[w] in words and new[w] not in new:
                print(f"look: {p}: {w} meets {new[w]}")
        aliases(t)
        u = turn_antt(t, new, inner) if p.endswith(".antt") else turn_rt(t, new, inner)
        if u != t:
            count += 1
            if "--check" not in argv:
                open(p, "w", encoding="utf-8").write(u)
    print(f"{len(new)} names, {count} files")
    return 0


if __name__ == "__main__":
    raise SystemExit(main(sys.argv[1:]))
