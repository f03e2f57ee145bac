#!/usr/bin/env python3
"""Renames, in proofs that walk the code by hand, the goals and steps that today's Rattle names anew.

usage: tools/port_ties.py NAMES CRATE..

NAMES has for each crate a folder: names.json as `rt check --generated NAMES/CRATE --old-names` writes it in the crate's folder, and beside it
the modules that `rt check --generated NAMES/CRATE/all` writes.
In proofs/F/Proof.antt a goal `tie.Need-loop-init` becomes `tie.Need-loop-j-init`. A step is followed from the goal's place, and then named alone:
`c.before.before.loop.invariant` becomes `c.loop-j.invariant`. What a `let` names on the way is written out. A line that begins 'left:' is for the hand.
"""
import glob
import json
import os
import re
import sys

N = r"[^\s(){}.;,@\"«»\[\]]+"
PATH = re.compile(r"(?<![^\s(){};,@\"«»\[\]])(" + N + r")((?:\.(?:" + N + r"))*)(?![^\s(){};,@\"«»\[\]])")
LET = re.compile(r"\blet (" + N + r") = (" + N + r"(?:\." + N + r")*) in[ \n]")
# only the proofs whose path has this
ONLY = os.environ.get("ONLY", "")
START = ("args", "requires", "ranges", "lifetimes", "utf8", "type_inv", "row", "called", "fresh", "well_formed", "well-formed", "ghost", "decreases")
WORDS = {"taken": "true", "left": "false", "inv": "invariant", "pre": "requires", "last": "new", "type-inv": "type_inv", "fits": "ranges", "good": "well_formed", "well-formed": "well_formed"}


def norm(s):
    return re.sub(r"[-_·]", "", s).lower()


def loose(s):
    return norm(re.sub(r"^(overflow|nonzero|slice_bounds|slice-bounds|offset_bounds)[-_]", "", s))


def sources():
    """The parameters of each function."""
    found = {}
    for p in glob.glob("crates/*/src/*.rt"):
        crate = p.split("/")[1]
        t = open(p, encoding="utf-8").read()
        for m in re.finditer(r"\bfn (\w+)(?:<[^>]*>)?\s*\(([^)]*)\)", t):
            names = []
            for a in m[2].split(","):
                w = re.match(r"\s*(?:mut )?(\w+): ", a)
                if w:
                    names.append(w[1])
            found[crate + "::" + m[1]] = names
    return found


class Function:
    def __init__(self, row, lts):
        self.row, self.lts = row, lts
        self.places = {p[0]: (i, p) for i, p in enumerate(row["places"])}
        self.loops = {norm(l[0][0]): l[0][1] for l in row["loops"]}

    def need(self, old):
        for key in (norm, loose):
            for i, (a, b) in enumerate(self.row["needs"]):
                if key(a) == key(old):
                    return i, b
            for i, (a, b) in enumerate(self.row["needs"]):
                if key(b) == key(old):
                    return i, b
        return None

    def parent(self, place):
        return self.places[place][1][1]

    def shown(self, place):
        """Place -> the arm that shows it, for each place from this one up."""
        out, at = {}, place
        while at is not None:
            arm = self.row["arms"][self.places[at][0]]
            if arm:
                up, n = at, arm[1]
                for _ in range(n):
                    out[up] = arm
                    up = self.parent(up)
                at = up
            else:
                out[at] = None
                at = self.parent(at)
        return out

    def ways(self, place):
        """The ways that join at a place: of each the fields, with their types."""
        place = self.row["places_by_name"][self.places[place][0]]
        m = re.search(r"(?m)^( *)pub data Came-" + re.escape(place) + r"\s*:[^\n]*where\n", self.lts)
        if not m:
            return None
        block = []
        for l in self.lts[m.end() :].split("\n"):
            if l.strip() and len(l) - len(l.lstrip()) <= len(m[1]):
                break
            block.append(l)
        bys = re.findall(r"\b(By-\S+) → Came-", " ".join(" ".join(block).split()))
        out = []
        for by in bys:
            r = re.search(r"(?m)^( *)pub record " + re.escape(by) + r"\s*:[^\n]*where\n", self.lts)
            if not r:
                return None
            fields, indent = [], len(r[1])
            for l in self.lts[r.end() :].split("\n"):
                if l.strip() and len(l) - len(l.lstrip()) <= indent:
                    break
                w = re.match(r" {%d}pub (\S+) : (.*)" % (indent + 2), l)
                if w:
                    fields.append((w[1], w[2]))
            out.append(fields)
        return out


class Left(Exception):
    pass


class Turner:
    def __init__(self, fn, here, muts, said, var="c", wants=()):
        self.fn, self.here, self.muts, self.said, self.var, self.wants = fn, here, muts, said, var, wants or {}
        self.shown = fn.shown(here)
        self.joins, self.step = [], None

    def words(self, fields, place):
        """The fields behind a step: what a `&mut` holds afterwards goes by its name."""
        plain = bool(place) and not re.match(r"(Then|Else|In-loop|After-loop)", place)
        out = [WORDS.get(f, f) if i == 0 and f not in ("fits", "good") and not (plain and f in ("taken", "left")) and not (f == "last" and place and re.match(r"(At-loop|Joined)", place)) else f for i, f in enumerate(fields)]
        p = self.fn.places[place][1] if place else None
        if out and out[0] == "kept" and len(out) > 1 and out[1].isdigit():
            out[0] = "auto"
        if p and out and out[0] in ("new", "auto") and len(out) > 1 and out[1].isdigit() and p[3]:
            k, i = 0, 1
            while i < len(out) and out[i] == "1":
                k, i = k + 1, i + 1
            if i < len(out) and out[i] == "0":
                i += 1
            names = self.muts.get(p[3].split("::")[0] + "::" + p[3].split("::")[-1])
            if names and k < len(names):
                out[1:i] = [names[k]]
        return out

    def resolve(self, base, fields):
        """A path as what stands behind `c.`, and the place if it ends at one."""
        at, i = base, 0
        while True:
            if i == len(fields):
                return None, at
            f = fields[i]
            if f == "before":
                up = self.fn.parent(at)
                at, i = up or at, i + 1
                continue
            p = self.fn.places[at][1]
            old, new = p[2]
            rest = fields[i + 1 :]
            if old and (norm(f) == norm(old) or f == new):
                arm = self.shown[at]
                if arm:
                    best = None
                    for field, step, path in arm[2]:
                        if norm(step) == norm(old) and rest[: len(path)] == path and (best is None or len(path) > len(best[1])):
                            best = (field, path)
                    if best is None:
                        raise Left(f"in the arm {arm[0]} nothing shows {'.'.join(fields)}: {arm[2]}")
                    return [arm[0], best[0], *self.words(rest[len(best[1]) :], None)], None
                self.step = at
                rest = self.words(rest, at)
                if rest[:1] == ["branch"]:
                    rest = ["branch-raw", *rest[1:]]
                    self.joins.append(at)
                return [new, *rest], None
            if f in START and self.fn.parent(at) is not None:
                return [WORDS.get(f, f), *rest], None
            if f in START or (self.fn.parent(at) is None and f in WORDS):
                return [WORDS.get(f, f), *rest], None
            for up, arm in self.shown.items():
                q = self.fn.places[up][1]
                if f == q[2][1] or (arm and f == arm[0]):
                    return fields[i:], None
            # a step more or less on the way: by the name alone
            same = [up for up in self.shown if self.fn.places[up][1][2][0] and norm(self.fn.places[up][1][2][0]) == norm(f)]
            if len(same) == 1:
                return self.resolve(same[0], fields[i:])
            raise Left(f"at {at} there is no {f}, but {old}: {'.'.join(fields)}")

    def place_alone(self, at):
        n, up = 0, self.here
        while up is not None and up != at:
            arm = self.shown[up]
            for _ in range(arm[1] if arm else 1):
                up = self.fn.parent(up)
            n += 1
        return self.var + ".before" * n

    def paths(self, text):
        """The paths from one place, and no more."""

        def one(m):
            if m[1] != self.var or not m[2]:
                return m[0]
            fields = m[2].split(".")[1:]
            try:
                out, at = self.resolve(self.here, fields)
            except Left as e:
                self.said(str(e))
                return m[0]
            return self.place_alone(at) if out is None else self.var + "." + ".".join(out)

        return PATH.sub(one, text)

    def turn(self, text):
        env = {self.var: (self.here, [])}
        # what a let names: a place, or a step; it is written out where it is used
        gone, steps = set(), {}
        for m in LET.finditer(text):
            head, *fields = m[2].split(".")
            if head in env:
                base, front = env[head]
                try:
                    out, at = self.resolve(base, front + fields)
                except Left:
                    out, at = None, None
                    env[m[1]] = (base, front + fields)
                    gone.add(m[0])
                    continue
                if at is None and out and len(out) == 1 and out[0] not in START:
                    steps[m[1]] = self.step
                if at is not None or "given" in fields:
                    env[m[1]] = (base, front + fields) if at is None else (at, [])
                    gone.add(m[0])

        def one(m):
            head, fields = m[1], m[2].split(".")[1:]
            if head in steps and fields:
                return ".".join([head, *self.words(fields, steps[head])])
            if head not in env:
                return m[0]
            before = text[max(0, m.start() - 2) : m.start()]
            if not fields and (head == self.var or before.endswith("λ ") or re.search(r"\blet $", text[: m.start()])):
                return m[0]
            if head == "at" and not fields and re.search(r"\b(rw|simp) ([^()\s]+|\([^()]*\)) $", text[: m.start()]):
                return m[0]
            base, front = env[head]
            try:
                out, at = self.resolve(base, front + fields)
            except Left as e:
                self.said(str(e))
                return m[0]
            if out is None:
                if self.shown.get(at) and next(up for up, arm in self.shown.items() if arm is self.shown[at]) != at:
                    self.said(f"a place in an arm stands alone: {m[0]}")
                return self.place_alone(at)
            return self.var + "." + ".".join(out)

        for it in gone:
            text = text.replace(it, "", 1) if it.endswith(" ") else re.sub(r"[ \t]*" + re.escape(it[:-1]) + r"\n", "", text, 1)
        text = PATH.sub(one, text)
        # a helper that wants one place is given that place
        for name, place in self.wants.items():
            if place in self.shown:
                text = re.sub(r"(?<![^\s(){};,@])(" + re.escape(name) + r") (" + re.escape(self.var) + r"(?:\.before)*)(?![^\s(){};,@])", lambda w: w[1] + " " + self.place_alone(place), text)
        # a test of `!x` says by itself what `x` is
        text = re.sub(r"\b(?:not-true|not-false|not_true|not_false) (?:_|[^\s()]+\.result) (?=" + re.escape(self.var) + r"\.[^\s()]*if-not-)", "", text)
        said = r"\brw (" + re.escape(self.var) + r"\.in[-_]" + N + r")\.is at " + re.escape(self.var) + r"\.[^\s()]+\.ensures"
        text = re.sub(r"\(" + said + r"\)", lambda w: w[1] + ".ensures", text)
        text = re.sub(said, lambda w: w[1] + ".ensures", text)
        return self.lambdas(text)

    def lambdas(self, text):
        """The ways of one join, in their order."""
        if len(self.joins) != 1:
            if self.joins:
                self.said(f"{len(self.joins)} joins")
            return text
        ways = self.fn.ways(self.joins[0])
        if not ways:
            self.said(f"no ways of {self.joins[0]}")
            return text
        at = []
        for m in re.finditer(r"\(λ (" + N + r")(?:\.| [^().\n]*\.)\s", text):
            depth, i = 0, m.start()
            while i < len(text):
                depth += (text[i] == "(") - (text[i] == ")")
                if depth == 0:
                    break
                i += 1
            if re.search(r"(?<![^\s(){};,])" + re.escape(m[1]) + r"\.(\d|taken|left)", text[m.end() : i]):
                at.append((m, i))
        at = [it for it in at if not any(o is not it and o[0].start() < it[0].start() and it[1] < o[1] for o in at)]
        if len(at) != len(ways):
            self.said(f"{len(ways)} ways and {len(at)} lambdas: {[[f for f, _ in w] for w in ways]}")
            return text
        for (m, end), fields in reversed(list(zip(at, ways))):
            body = text[m.end() : end]

            used = [int(k) for k in re.findall(r"(?<![^\s(){};,])" + re.escape(m[1]) + r"\.(\d+)", body)]
            most = max(used, default=0)
            arms = [f for f, _ in fields if re.match(r"in[-_]", f)]

            def way(w):
                k = int(w[2])
                rest = w[3].split(".")[1:]
                if arms and rest[:1] == ["given"]:
                    for arm in self.fn.row["arms"]:
                        if arm and arm[0] == arms[-1]:
                            best = max((it for it in arm[2] if it[2] and rest[: len(it[2])] == it[2]), key=lambda it: len(it[2]), default=None)
                            if best:
                                return ".".join([w[1], arms[-1], best[0], *rest[len(best[2]) :]])
                    self.said(f"{w[0]}: not in {arms}")
                    return w[0]
                if not rest and most != len(fields) - 1:
                    j = len(fields) - 1 - (most - k)
                    if j >= 0 and fields[j][0].endswith("-is"):
                        return w[1] + "." + fields[j][0]
                if k >= len(fields):
                    self.said(f"no field {k} of {[f for f, _ in fields]}")
                    return w[0]
                if rest and rest[0] in ("taken", "left"):
                    k = next((i for i in range(k, len(fields)) if re.search(r"Own-(Then|Else)", fields[i][1])), k)
                elif rest and rest[0] in ("ensures", "result"):
                    k = next((i for i in range(k, len(fields)) if re.search(r"Own-After-", fields[i][1]) and not re.match(r"t\d+-|shared_slice_known|slice_known", fields[i][0])), k)
                elif not rest and w[0] == w[1] + "." + w[2]:
                    k = next((i for i in range(k, len(fields)) if fields[i][0].endswith("-is")), k)
                name, ty = fields[k]
                if rest and rest[0] == "taken":
                    rest[0] = "false" if "Else" in ty else "true"
                elif rest:
                    rest[0] = WORDS.get(rest[0], rest[0])
                place = None
                o = re.search(r"Own-(\S+)", ty)
                if o and o[1] in self.fn.row["places_by_name"]:
                    place = self.fn.row["places"][self.fn.row["places_by_name"].index(o[1])][0]
                rest = self.words(rest, place)
                return ".".join([w[1], name, *rest])

            if len(fields) == 1:
                body = re.sub(r"(?<![^\s(){};,])(" + re.escape(m[1]) + r")\.(taken|left|ensures|result)\b", lambda w: f"{w[1]}.{fields[0][0]}.{WORDS.get(w[2], w[2])}", body)
            body = re.sub(r"(?<![^\s(){};,])(" + re.escape(m[1]) + r")\.(\d+)((?:\." + N + r")*)", way, body)
            said = r"\brw (" + re.escape(m[1]) + r"\.in[-_]" + N + r")\.is at [^\s()]+"
            body = re.sub(r"\(" + said + r"\)", lambda w: w[1] + ".ensures", body)
            body = re.sub(said, lambda w: w[1] + ".ensures", body)
            body = re.sub(r"\b(?:not-true|not-false|not_true|not_false) (?:_|[^\s()]+\.result) (?=" + re.escape(m[1]) + r"\.[^\s()]*if-not-)", "", body)
            text = text[: m.end()] + body + text[end:]
        return text


def turn_file(path, fns, muts, said):
    """fns: the names under which the file cites a function's goals, each with the function."""
    text = open(path, encoding="utf-8").read()
    was = text
    heads = "|".join(map(re.escape, fns))

    def after(head, w):
        row = fns[head].row
        named = [p[0] for p in row["places"]]
        it = next((i for i, it in enumerate(named) if norm(it) == norm(w)), None)
        if it is None:
            return None
        # within an arm only its last place is shown
        while row["arms"][it]:
            up = [i for i, p in enumerate(row["places"]) if p[1] == named[it] and row["arms"][i] and row["arms"][i][0] == row["arms"][it][0]]
            if len(up) != 1:
                break
            it = up[0]
        return named[it]

    # the file's own names of places, and those of the other files of the same proof
    places = {}
    for other in [path, *glob.glob(os.path.dirname(path) + "/*.antt")]:
        for m in re.finditer(r"(?m)^ *(" + N + r")(?: [^=\n:]*)? = (" + heads + r")\.(" + N + r")[^\n]*$", open(other, encoding="utf-8").read()):
            if after(m[2], m[3]) is not None:
                places.setdefault(m[1], (m[2], after(m[2], m[3])))
    parts = re.split(r"(?m)^(?=(?:  )?(?:pub |abbrev )*" + N + r"(?: \{[^{}\n]*\}| \([^()\n]*\))* :(?: |$))", text)
    out = []
    wants = {}
    place = r"(?:(" + heads + r")\.(" + N + r")|(" + N + r"))"

    def which(head, name, own):
        it = (head, after(head, name)) if head and not name.startswith("Need-") else places.get(own)
        return it[1] if it else None

    for m in re.finditer(r"(?m)^(?:  )?(?:pub |abbrev )*(" + N + r") : (?:\(" + N + r" : " + place + r"[^()]*\)|" + place + r"(?: [^→\n()]*)? →)", text):
        it = which(m[2], m[3], m[4]) if m[2] or m[4] else which(m[5], m[6], m[7])
        if it:
            wants[m[1]] = it
    for m in re.finditer(r"(?m)^module _ \(" + N + r" : " + place + r"[^()]*\).*\n((?:(?:  .*)?\n)+)", text):
        it = which(m[1], m[2], m[3])
        if it:
            for w in re.finditer(r"(?m)^  (?:pub |abbrev )*(" + N + r") :", m[4]):
                wants[w[1]] = it
    gives = {}
    for m in re.finditer(r"(?m)^(?:  )?(?:pub |abbrev )*(" + N + r") : [^\n]*→ (?:(" + heads + r")\.(" + N + r")|(" + N + r"))(?: [^→\n]*)?$", text):
        it = (m[2], after(m[2], m[3])) if m[2] else places.get(m[4])
        if it and it[1]:
            gives[m[1]] = it
    # a module over a place: what is bound for all of it
    over = {}
    for m in re.finditer(r"(?m)^module _ ((?:\(" + N + r" : [^()]*\) ?|\{[^{}]*\} ?)+)", text):
        for w in re.finditer(r"\((" + N + r") : (?:(" + heads + r")\.(" + N + r")|(" + N + r"))", m[1]):
            it = (w[2], after(w[2], w[3])) if w[2] else places.get(w[4])
            if it and it[1]:
                over[w[1]] = it
    for part in parts:
        first = None
        for m in re.finditer(r"\b(" + heads + r")\.Need-(" + N + r")", part):
            it = fns[m[1]].need(m[2])
            if it is None:
                said(f"{path}: no goal {m[2]}: {[b for a, b in fns[m[1]].row['needs']]}")
                continue
            first = first or (m[1], m[2], it)
        if first:
            fn = fns[first[0]]
            place = fn.row["asked_at"][first[2][0]][0]
            if place in fn.places:
                part = Turner(fn, place, muts, lambda s: said(f"{path}: {first[1]}: {s}"), wants=wants).turn(part)
            else:
                said(f"{path}: {first[1]}: asked at {place}, no place")
        else:
            bound = []
            for w in re.finditer(r"\((" + N + r") : (?:(" + heads + r")\.(" + N + r")|(" + N + r"))", part):
                it = (w[2], after(w[2], w[3])) if w[2] else places.get(w[4])
                if it and it[1]:
                    bound.append((w[1], *it))
            arrow = re.match(r" *(?:pub |abbrev )*(" + N + r") : (?:(" + heads + r")\.(" + N + r")|(" + N + r"))[^→\n]* → ", part)
            if arrow:
                it = (arrow[2], after(arrow[2], arrow[3])) if arrow[2] else places.get(arrow[4])
                var = re.search(r"(?m)^ *" + re.escape(arrow[1]) + r" (" + N + r")", part)
                if var and it and it[1]:
                    bound.append((var[1], *it))
            if part.startswith("  "):
                bound += [(v, *it) for v, it in over.items() if v not in [b[0] for b in bound]]
            if arrow and arrow[1] in gives and var and it and it[1] and gives[arrow[1]][0] == it[0]:
                # a helper that goes from one place to another
                t = Turner(fns[it[0]], it[1], muts, said, var[1])
                if gives[arrow[1]][1] in t.shown:
                    part = re.sub(r"(?m)^( *" + re.escape(arrow[1]) + r" " + re.escape(var[1]) + r" = )" + re.escape(var[1]) + r"(?:\.before)*$", lambda w: w[1] + t.place_alone(gives[arrow[1]][1]), part)
                    if re.search(r"(?m)^ *" + re.escape(arrow[1]) + r" " + re.escape(var[1]) + r" = " + re.escape(var[1]) + r"(?:\.before)*$", part):
                        bound = []
            for var, head, place in {b[0]: b for b in bound}.values():
                part = Turner(fns[head], place, muts, lambda s: said(f"{path}: {var}: {s}"), var).turn(part)

        # what a helper gives, by a name or in parentheses
        named = [(m[1], gives[m[2]]) for m in re.finditer(r"\blet (" + N + r") = (" + N + r") [^\n=]* in\b", part) if m[2] in gives]
        for var, (head, place) in dict(named).items():
            part = Turner(fns[head], place, muts, lambda s: said(f"{path}: {var}: {s}"), var).paths(part)
        for helper, (head, place) in gives.items():
            for m in sorted(set(re.findall(r"\(" + re.escape(helper) + r" [^()\s]+(?: [^()\s]+)*\)(?=\.)", part))):
                part = Turner(fns[head], place, muts, lambda s: said(f"{path}: {m}: {s}"), "⟪⟫").paths(part.replace(m + ".", "⟪⟫.")).replace("⟪⟫.", m + ".")

        def goal(m):
            it = fns[m[1]].need(m[2])
            return f"{m[1]}.Need-{it[1]}" if it else m[0]

        def place_of(m):
            it = after(m[1], m[2])
            if it is None:
                return m[0]
            row = fns[m[1]].row
            return f"{m[1]}.{row['places_by_name'][[p[0] for p in row['places']].index(it)]}"

        part = re.sub(r"\b(" + heads + r")\.Need-(" + N + r")", goal, part)
        part = re.sub(r"\b(" + heads + r")\.(" + N + r")", place_of, part)
        part = re.sub(r"\b(" + heads + r")\.(invariant|decreases)-(" + N + r")", lambda w: f"{w[1]}.{w[2]}-{fns[w[1]].loops.get(norm(w[3]), w[3])}", part)
        out.append(part)
    text = "".join(out)
    text = re.sub(r"(?<=[^\s(){};,])\.(pre|inv|type-inv)(?![^\s(){}.;,])", lambda w: "." + WORDS[w[1]], text)
    if text != was:
        open(path, "w", encoding="utf-8").write(text)
    return text != was


def main(argv):
    names, crates = argv[0], argv[1:]
    muts = sources()
    for crate in crates:
        d = json.load(open(os.path.join(names, crate, "names.json")))
        root = f"crates/{crate}/proofs/"
        keys = {k: v for k, v in d.items() if "Lts" in k}
        for path in sorted([p for p in glob.glob(root + "**/Proof.antt", recursive=True) if not ONLY or ONLY in p]):
            folder = os.path.dirname(path)[len(root) :].replace("/", ".")
            base = f"Rattle-{crate}-proofs.{folder}.Lts"

            def function(key):
                it = os.path.join(names, crate, "all", f"Rattle-{crate}-proofs", folder.replace(".", "/"), key.rsplit(".", 1)[1] + ".antt")
                return Function(keys[key], open(it, encoding="utf-8").read() if os.path.exists(it) else "")

            for file in [path, *sorted(glob.glob(os.path.dirname(path) + "/Proof/*.antt"))]:
                text = open(file, encoding="utf-8").read()
                fns = {}
                for m in re.finditer(r"(?m)^use Rattle\." + crate + r"\.proofs\.(" + re.escape(folder) + r")\.(" + N + r") as (" + N + r")", text):
                    key = base if m[2] == "Tie" else base.replace("Lts", m[2])
                    key = next((k for k in keys if norm(k) == norm(key)), key)
                    if key in keys:
                        fns[m[3]] = function(key)
                if fns:
                    turn_file(file, fns, muts, lambda s: print("left: " + s))
                elif "Need-" in text:
                    print(f"left: {file}: whose goals? there are", [k for k in keys if folder in k])
    return 0


if __name__ == "__main__":
    raise SystemExit(main(sys.argv[1:]))
