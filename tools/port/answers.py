#!/usr/bin/env python3
"""Turns a crate's proofs/F/Proof.antt, which walk the code by an older kit's names, into Invariants.antt and Answers.antt.

usage: python3 tools/port/answers.py CRATE NAMES.json     at the top of the repository

NAMES.json is what `rt check --generated DIR --old-names` writes in the crate's folder. An answer that only says `search rules` is left out:
the check searches by itself. What a file's text does not show (branches' names, values of a match) is left to mend by hand.
"""
import json
import os
import re
import sys

NAME = r"[A-Za-z_][\w'₀-₉·-]*"


def norm(s):
    s = s.replace("-", "_").lower()
    return s[:-4] if s.endswith("_lem") else s


def clause_of(fields, segments):
    """Clauses were nested to the right: which one the first segments name, and what is left of them."""
    i, at = 0, 0
    while at < len(fields) - 1:
        if i >= len(segments) or segments[i] not in ("0", "1"):
            return None, segments
        if segments[i] == "0":
            return fields[at], segments[i + 1 :]
        at, i = at + 1, i + 1
    return fields[at], segments[i:]


class Function:
    def __init__(self, m):
        self.m = m
        self.field, self.callee, self.clauses, self.typed, self.inner = {}, {}, {}, {}, {}
        for place, names in zip(m["places"], m["clauses"]):
            old, new = place[2]
            if old:
                if norm(old) in self.field and self.field[norm(old)] != new:
                    print("   two names for", old, self.field[norm(old)], new)
                self.field.setdefault(norm(old), new)
                if place[3]:
                    self.callee[new] = place[3]
                if names and names.get("fields"):
                    self.clauses[new] = names["fields"]
            for old2, new2 in place[4]:
                self.inner.setdefault(new, {})[norm(old2)] = new2
        for pairs in m["typed"]:
            for var, place in pairs:
                self.typed[norm(place)] = var
        self.arms = {}
        for arm in m["arms"]:
            for new, old, path in arm[2] if arm else []:
                if path:
                    self.arms.setdefault(norm(old), []).append((path, [arm[0], new]))
        self.used = set()
        self.place = {norm(p[0]): n for p, n in zip(m["places"], m["places_by_name"])}
        self.loops = {}
        for (names, variables), changed in zip(m["loops"], m["changed"]):
            self.loops[norm(names[0])] = (names[1], variables, changed)
            self.field.setdefault(norm(names[0]), names[1])
        self.needs = {norm(o): n for o, n in m["needs"]}
        self.needs_new = {norm(n): n for _, n in m["needs"]}

    def goal(self, label, typename):
        for key, table in ((label, self.needs), (typename, self.needs), (typename, self.needs_new), (label, self.needs_new)):
            if norm(key) in table:
                return table[norm(key)]
        return None

    def chain(self, segments, place=None):
        """The segments of a projection with today's names, and how many `before` it began with."""
        n = 0
        while n < len(segments) and segments[n] == "before":
            n += 1
        rest = segments[n:]
        if not rest:
            return n, []
        rest[0] = rest[0].strip("«»")
        s, k = rest[0], norm(rest[0])
        if s == "good":
            rest[0] = "well_formed"
        tail = rest[1:]
        if k in self.typed and tail[:1] == ["given"]:
            return n, ["type_inv", self.typed[k]] + tail[1:]
        if s in ("requires", "pre"):
            pre = self.m.get("pre")
            fields = pre.get("fields") if isinstance(pre, dict) else pre
            name, left = clause_of(fields, tail) if fields else (None, tail)
            return n, ["requires"] + ([name] if name else []) + left
        for path, new in sorted(self.arms.get(k, []), key=lambda a: -len(a[0])):
            if tail[: len(path)] == path:
                return n, new + tail[len(path) :]
        if k not in self.field:
            return n, rest
        step = self.field[k]
        at = self.parent(place, n) if place else None
        while at:
            found = next(p for p in self.m["places"] if p[0] == at)
            if norm(found[2][0]) == k:
                step = found[2][1]
                break
            at = found[1]
        out = [step]
        if tail and re.fullmatch(r"keys\d*", tail[0]):
            return n, out + ["is"] + tail[1:]
        if tail and norm(tail[0]) in self.inner.get(step, {}):
            return n, out + [self.inner[step][norm(tail[0])]] + tail[1:]
        if tail[:1] == ["ensures"] and step in self.clauses:
            name, left = clause_of(self.clauses[step], tail[1:])
            return n, out + ["ensures"] + ([name] if name else []) + left
        if tail and tail[0] in ("new", "last", "auto", "kept") and step in self.callee:
            i, at = 1, 0
            while i < len(tail) and tail[i] == "1":
                at, i = at + 1, i + 1
            if i < len(tail) and tail[i] == "0":
                i += 1
            names = self.m["params"].get(self.callee[step], [])
            if i > 1 and at < len(names):
                return n, out + ["new" if tail[0] in ("new", "last") else "auto", names[at]] + tail[i:]
        return n, out + tail

    def parent(self, place, n):
        """The place n steps before one, by the old names."""
        parents = {p[0]: p[1] for p in self.m["places"]}
        while n and place:
            place, n = parents.get(place), n - 1
        return place

    def body(self, t, heads, walks, goal=None):
        """A term with today's names. heads: the variables that are places, with the place's old name; walks: helpers that only step back.
        In a goal's answer its variable is flat: a place before it, where a lemma takes one, is `(goal.at.G c).PLACE`."""
        was = None
        while was != t:
            was = t
            for name, n in walks.items():
                t = re.sub(r"\(" + name + r" (" + NAME + r"(?:\.[\w'-]+)*)\)", lambda m: m[1] + ".before" * n, t)
                t = re.sub(r"(?<![\w'.-])" + name + r" (" + NAME + r"(?:\.[\w'-]+)*)", lambda m: m[1] + ".before" * n, t)
        alias, bound, plain, whole = {h: (h, 0) for h in heads}, {}, set(), {}
        # `let l = c.before.before in`
        while True:
            m = re.search(r"let ([\w'-]+) = (" + NAME + r")((?:\.before)*) in(?=\s)\s*", t)
            m = next((m for m in re.finditer(r"let ([\w'-]+) = (" + NAME + r")((?:\.before)*) in(?=\s)\s*", t) if m[2] in alias), None)
            if not m:
                break
            head, n = alias[m[2]]
            alias[m[1]] = (head, n + m[3].count(".before"))
            t = t[: m.start()] + t[m.end() :]

        def one(m):
            name = m[1]
            segments = m[2].split(".")[1:] if m[2] else []
            if name in bound and segments and name not in alias:
                old = self.chain([bound[name]] + segments)[1]
                return ".".join([name] + old[1:])
            n, rest = self.chain(segments, self.parent(heads[alias[name][0]], alias[name][1]) if name in alias else None)
            let = re.search(r"let ([\w'-]+) = $", m.string[: m.start()])
            if let and len(rest) == 1 and rest[0] in self.field.values() and name in alias:
                bound[let[1]] = next(o for o, v in self.field.items() if v == rest[0])
            if let and rest and name in alias:
                plain.add(let[1])
                if len(rest) == 2 and rest[1] == "ensures" and rest[0] in self.clauses:
                    whole[let[1]] = self.clauses[rest[0]]
            if name in whole and segments:
                field, left = clause_of(whole[name], segments)
                return ".".join([name] + ([field] if field else []) + left)
            if name in plain and name not in alias:
                return m[0]
            if name not in alias and segments[:1] != ["before"] and name != "w":
                return m[0]
            if name not in alias:
                return name + "".join("." + s for s in ["before"] * n + rest)
            head, k = alias[name]
            if rest:
                return head + "." + ".".join(rest)
            if n + k == 0 and not goal:
                return head
            place = self.parent(heads[head], n + k)
            if goal and place:
                self.used.add(self.place.get(norm(place), place))
                return f"(goal.at.{goal} {head}).{self.place.get(norm(place), place)}"
            return head + ".before" * (n + k)

        return re.sub(r"(?<![\w'.·◌-])(" + NAME + r"|\))((?:\.[«\w'»-]+)*)(?![\w'·◌])", one, t)

    def types(self, t):
        """tie.X inv dec, in the type of a helper."""
        t = re.sub(r"\(tie\.([\w-]+)((?: (?:invariant|decreases)_\w+)+)\)", lambda m: "tie." + m[1], t)

        def one(m):
            name = self.place.get(norm(m[1]), m[1])
            self.used.add(name)
            return name

        return re.sub(r"tie\.([\w-]+)((?: (?:invariant|decreases)_\w+)*)", one, t)


def split(text):
    """Header comment, use lines, blocks (comment, name, text)."""
    lines = text.split("\n")
    head = []
    i = 0
    while i < len(lines) and lines[i].startswith("--"):
        head.append(lines[i])
        i += 1
    uses, blocks, comment, current = [], [], [], None
    while i < len(lines):
        l = lines[i]
        if l.startswith("use "):
            uses.append(l)
        elif l.startswith("--"):
            comment.append(l)
            current = None
        elif not l.strip():
            if current is not None and current["kind"] == "module":
                current["lines"].append(l)
        elif re.match(r"module _", l):
            current = {"kind": "module", "name": "_", "comment": comment, "lines": [l]}
            comment = []
            blocks.append(current)
        elif m := re.match(r"(?:abbrev |unfoldable |pub )*(" + NAME + r") :(?:\s|$)", l):
            current = {"kind": "decl", "name": m[1], "comment": comment, "lines": [l]}
            comment = []
            blocks.append(current)
        elif re.match(r"(pub )?(record|data) ", l):
            current = {"kind": "type", "name": l.split()[1] if not l.startswith("pub") else l.split()[2], "comment": comment, "lines": [l]}
            comment = []
            blocks.append(current)
        else:
            if current is None:
                print("   stray line:", l)
                current = {"kind": "decl", "name": "?", "comment": comment, "lines": []}
                blocks.append(current)
            current["lines"].append(l)
        i += 1
    return head, uses, blocks


TOKEN = re.compile(r"(?<![\w'·◌.-])" + NAME)


def words(t):
    return set(TOKEN.findall(t))


def parts_of(inside):
    """What stands between a tuple's commas."""
    parts, deep, start = [], 0, 0
    for j, ch in enumerate(inside):
        if ch in "([{":
            deep += 1
        elif ch in ")]}":
            deep -= 1
        elif ch == "," and deep == 0:
            parts.append(inside[start:j])
            start = j + 1
    parts.append(inside[start:])
    return [p.strip() for p in parts if p.strip()]


def tuple_to_record(body, fields):
    """The last parenthesised tuple of a body, as a record, where it has as many parts as the goal has clauses."""
    t = body.rstrip()
    if not t.endswith(")"):
        return None
    deep, k = 0, len(t) - 1
    while k >= 0:
        deep += (t[k] == ")") - (t[k] == "(")
        if deep == 0:
            break
        k -= 1
    parts = parts_of(t[k + 1 : -1])
    while len(parts) < len(fields) and parts[-1].startswith("(") and closing(parts[-1], 0) == len(parts[-1]) and len(more := parts_of(parts[-1][1:-1])) > 1:
        parts = parts[:-1] + more
    if len(parts) != len(fields):
        return None
    return t[:k] + "record { " + "; ".join(f"{f} = {p}" for f, p in zip(fields, parts)) + " }"


def closing(t, i):
    """The place behind the parenthesis that closes the one at i."""
    deep = 0
    for j in range(i, len(t)):
        deep += (t[j] in "([{") - (t[j] in ")]}")
        if deep == 0:
            return j + 1


def joins(t, module):
    """`⊎_elim (λ w. A) (λ w. B) c.if-x.branch`, where two branches join, as an `elim`."""
    names, again = set(), True
    while again:
        again = False
        for k in reversed([m.start() for m in re.finditer("⊎_elim", t)]):
            arms, i = [], k + len("⊎_elim")
            while len(arms) < 2 and (gap := re.match(r"\s+(?=\()", t[i:])):
                j = closing(t, i + gap.end())
                arms.append(re.match(r"\(λ (\w+)\.\s*(.*)\)$", t[i + gap.end() : j], re.S))
                i = j
            over = re.match(r"\s+([\w'.()-]+?)\.(if-[\w'+-]*)\.branch(?![\w'-])", t[i:])
            if len(arms) < 2 or not all(arms) or not over:
                continue
            cases = []
            for arm, way, old, fact in zip(arms, ("then", "else"), ("taken|true", "left|false"), ("true", "false")):
                body = re.sub(r"(?<![\w'.-])" + arm[1] + r"\.0\.(?:" + old + r")(?![\w'-])", f"{arm[1]}.{over[2]}.{fact}", arm[2])
                cases.append(f"{way}-{over[2][3:]} {arm[1]} ↦ {body}")
                names.add(f"{way}-{over[2][3:]}")
            t = t[:k] + f"elim {over[1]}.{over[2]}.branch [ {cases[0]} | {cases[1]} ]" + t[i + over.end() :]
            again = True
            break
    if names:
        line = re.search(r"(?m)^use " + re.escape(module) + r"\.Goals\.\{([^}]*)\}", t)
        if line:
            t = t[: line.start(1)] + ", ".join(sorted(names | set(line[1].split(", ")))) + t[line.end(1) :]
        else:
            t = t.replace(f"use {module}.Goals as goal", f"use {module}.Goals.{{{', '.join(sorted(names))}}}\nuse {module}.Goals as goal")
    return t


def sections(t, fn):
    """A section over a place names earlier places, as `start = w.before.before`. Today the place itself has their facts."""
    for m in list(re.finditer(r"(?m)^module _ \((\w+) : ([\w-]+)\) where\n((?:(?:  .*)?\n)*)", t)):
        var, place, body = m[1], m[2], m[3]
        backs, grown = [], True
        while grown:
            grown = False
            for b in re.finditer(r"(?m)^  abbrev ([\w']+) : [\w-]+\n  \1 = ([\w']+)(?:\.before)+\n\n?", body):
                if b[2] == var or b[2] in backs:
                    backs.append(b[1])
                    body, grown = body[: b.start()] + body[b.end() :], True
                    break
        if not backs:
            continue
        any_back = "(?:" + "|".join(map(re.escape, backs)) + ")"
        body = re.sub(r"(?<![\w'.-])" + any_back + r"\.", var + ".", body)
        head, _, tail = t.partition(m[0])
        there = r"\(goal\.at\.[\w-]+ (\w+)\)\.[\w-]+"
        own = "|".join(re.escape(n) for n in re.findall(r"(?m)^  (?:abbrev |pub )*(" + NAME + r") :", m[3]))
        tail = re.sub(r"(?<![\w'.-])(" + own + r") \(goal\.at\.([\w-]+) (\w+)\)\.[\w-]+", rf"\1 (goal.at.\2 \3).{place}", tail)
        tail = re.sub(r"\(" + any_back + " " + there + r"\)\.", r"\1.", tail)
        tail = re.sub(r"(let \w+ = )" + any_back + " " + there + r" in", r"\1\2 in", tail)
        t = head + f"module _ ({var} : {place}) where\n" + body + tail
    for k, name in fn.field.items():
        if k.startswith("loop"):
            t = re.sub(r"(?<=[\w)])\." + k + r"\.(?=inv|\w)", f".{name}.", t)
    t = re.sub(r"(?<=[\w)])\.inv(?![\w-])", ".invariant", t)
    t = re.sub(r"(?<=-test)\.taken(?![\w-])", ".true", t)
    t = re.sub(r"(?<=[\w)])\.pre(?![\w-])", ".requires", t)
    pre = fn.m.get("pre")
    fields = pre.get("fields") if isinstance(pre, dict) else pre
    for d in re.finditer(r"let (\w+) = \w+\.requires in", t):
        if fields:
            t = re.sub(r"(?<![\w'.-])" + d[1] + r"\.([0-9])(?=\.)", lambda s: f"{d[1]}.{fields[int(s[1])]}" if int(s[1]) < len(fields) else s[0], t)
    return t


def convert(crate, key, m, path):
    with open(path, encoding="utf-8") as f:
        head, uses, blocks = split(f.read())
    fn = Function(m)
    folder = os.path.dirname(path)
    module = "Rattle." + key.split("-")[1] + ".proofs." + ".".join(key.split(".")[1:-1])
    uses = [u for u in uses if not re.search(r"\.(Statement|Tie)(\.\{| as)", u)]
    rename, goals, invariants, helpers = {}, [], [], []
    for b in blocks:
        text = "\n".join(b["lines"])
        need = re.match(r"(?:pub )?" + NAME + r" :\s*tie\.Need-([\w-]+)", text)
        inv = re.match(r"(?:abbrev |pub )*" + NAME + r" :\s*tie\.(invariant|decreases)-([\w-]+)", text)
        if b["kind"] == "decl" and (b["name"].endswith("_spec") and "statement" in text):
            continue
        if b["kind"] == "decl" and inv:
            label, variables, changed = fn.loops.get(norm(inv[2]), (inv[2], [], []))
            b["new"] = f"{inv[1]}-{label}"
            b["vars"], b["changed"], b["which"] = variables, changed, inv[1]
            rename[b["name"]] = b["new"]
            invariants.append(b)
        elif b["kind"] == "decl" and need:
            g = fn.goal(b["name"], need[1])
            if g is None:
                print("   no goal for", b["name"], need[1])
                continue
            b["new"], b["old"] = g, next((o for o, n in m["needs"] if n == g), g)
            rename[b["name"]] = g
            goals.append(b)
        else:
            helpers.append(b)

    places = {norm(p[0]): p[0] for p in m["places"]}
    walks, walked = {}, []
    for h in helpers:
        text = "\n".join(h["lines"])
        w = re.search(r"(?m)^" + re.escape(h["name"]) + r" (\w+) = (\w+)((?:\.before)+)\s*$", text)
        if h["kind"] == "decl" and w and w[1] == w[2] and text.count("\n") == 1:
            walks[h["name"]] = w[3].count(".before")
            walked.append(h)
    helpers = [h for h in helpers if h not in walked]

    def renamed(t):
        return TOKEN.sub(lambda w: rename.get(w[0], w[0]), t)

    def rewrite(t, heads=None, goal=None):
        if heads is None:
            heads = {v: places[norm(p)] for vs, p in re.findall(r"\(([\w' ]+) : tie\.([\w-]+)", t) for v in vs.split() if norm(p) in places}
            # the binder of a clause by the order of the signature
            sig = re.search(r":\s*(tie\.[\w-]+.*?)(?:\n" + r"[\w'-]+ |$)", t, re.S)
            m2 = re.match(r"(?:abbrev |pub )*([\w'-]+) :\s*tie\.([\w-]+)(?: (?:invariant|decreases)_\w+)* →", t)
            if m2 and norm(m2[2]) in places:
                c = re.search(r"(?m)^" + re.escape(m2[1]) + r" ([\w']+)", t[t.index("\n") :] if "\n" in t else "")
                if c:
                    heads[c[1]] = places[norm(m2[2])]
        t = fn.types(t)
        t = re.sub(r"(?<=[\w)])((?: (?:invariant|decreases)_\w+){2,})", "", t)
        t = fn.body(t, heads, walks, goal)
        return renamed(t)

    # invariants
    out_inv, inv_words = [], set()
    for b in invariants:
        text = "\n".join(b["lines"])
        body_start = re.search(r"(?m)^" + re.escape(b["name"]) + r"((?:\s+[\w'₀-₉]+)*)\s*=", text[text.index("\n") :] if "\n" in text else text)
        if not body_start:
            print("   cannot read", b["name"])
            continue
        binders = body_start[1].split()
        body = (text[text.index("\n") :])[body_start.end() :]
        if len(binders) != len(b["vars"]) + sum(1 for c in b["changed"] if c):
            binders = [x for x in binders if not re.fullmatch(r"t\d+", x)]
        names, now = {}, []
        for v, c in zip(b["vars"], b["changed"]):
            if c:
                now.append(v)
        slots = [f"l.initial.{v}" if c else f"l.{v}" for v, c in zip(b["vars"], b["changed"])] + [f"l.{v}" for v in now]
        if len(slots) != len(binders):
            print("   binders", b["name"], binders, b["vars"])
        for name, slot in zip(binders, slots):
            names[name] = slot
        body = fn.body(body, {}, {})
        body = TOKEN.sub(lambda w: names.get(w[0], rename.get(w[0], w[0])), body)
        b["text"] = f"abbrev pub {b['new']} : goal.{b['new']}\n{b['new']} l ={body}"
        inv_words |= words(body)
    # helpers that invariants use
    in_inv, grown = set(), True
    while grown:
        grown = False
        for h in helpers:
            if h["name"] in inv_words and h["name"] not in in_inv:
                in_inv.add(h["name"])
                inv_words |= words("\n".join(h["lines"]))
                grown = True
    if invariants:
        out_inv += head
        out_inv += uses + [f"use {module}.Given as goal", ""]
        for b in blocks:
            if b in helpers and b["name"] in in_inv:
                text = "\n".join(b["lines"])
                if not re.match(r"(abbrev pub|unfoldable pub|pub )", text):
                    text = re.sub(r"^abbrev ", "abbrev pub ", text) if text.startswith("abbrev ") else "pub " + text
                if b["kind"] == "type":
                    text = re.sub(r"(?m)^  (?!pub )([\w'₀-₉]+(?: [\w'₀-₉]+)*) :", r"  pub \1 :", text)
                out_inv += b["comment"] + [rewrite(text), ""]
            elif b in invariants and "text" in b:
                out_inv += b["comment"] + [b["text"], ""]
        with open(os.path.join(folder, "Invariants.antt"), "w", encoding="utf-8") as f:
            f.write("\n".join(out_inv).rstrip() + "\n")
    # answers
    fn.used = set()
    kept, used = [], set()
    for b in goals:
        text = "\n".join(b["lines"])
        rest = text[text.index("\n") + 1 :] if "\n" in text else ""
        rest = re.sub(r"^(?:[ \t]+[^\n]*\n)+", "", rest)
        m2 = re.search(r"(?m)^" + re.escape(b["name"]) + r" (\w+)(?: κs)?\s*=", rest)
        if not m2:
            print("   cannot read the answer", b["name"])
            b["rest"] = rest
            kept.append(b)
            continue
        unfolding = rest[: m2.start()]
        body = rest[m2.end() :]
        b["trivial"] = body.strip() in ("search rules", "search needs")
        fields = m["asked"].get(b["old"]) or m["asked"].get(norm(b["old"]))
        if fields:
            new = tuple_to_record("=" + body, fields)
            whole = re.search(r"(?:^|\s)([\w'.-]+\.ensures)\s*$", body)
            if new:
                body = new[1:]
            elif whole:
                body = body[: whole.start(1)] + "record { " + "; ".join(f"{f} = {whole[1]}.{f}" for f in fields) + " }"
            elif not b["trivial"]:
                print("   clauses to write by hand:", b["new"], fields)
        at = next((a[0] for a, n in zip(m["asked_at"], m["needs"]) if n[1] == b["new"]), None)
        b["answer"] = f"pub {b['new']} : goal.{b['new']}\n{unfolding}{b['new']} {m2[1]} ={rewrite(body, {m2[1]: at}, b['new'])}"
        b["words"] = words(b["answer"])
        kept.append(b)
    # a trivial answer stays where another uses it
    live, grown = [b for b in kept if not b.get("trivial")], True
    while grown:
        grown = False
        everything = set()
        for b in live:
            everything |= b.get("words", set())
        for h in helpers:
            everything |= words(rewrite("\n".join(h["lines"])))
        for b in kept:
            if b not in live and b["new"] in everything:
                live.append(b)
                grown = True
    used = set()
    for b in live:
        used |= b.get("words", set())
    in_ans, grown = set(), True
    while grown:
        grown = False
        for h in helpers:
            t = rewrite("\n".join(h["lines"]))
            names = {h["name"]} if h["kind"] != "module" else set(re.findall(r"(?m)^  (?:abbrev |pub )*(" + NAME + r") :", t))
            if names & used and h["name"] + str(id(h)) not in in_ans:
                in_ans.add(h["name"] + str(id(h)))
                used |= words(t)
                grown = True
    if live:
        out = [] if invariants else list(head)
        shared = sorted(n for n in in_inv if n in used)
        given = sorted(b["new"] for b in invariants if b["new"] in used)
        text = "\n".join(rewrite("\n".join(b["lines"])) for b in helpers if b["name"] + str(id(b)) in in_ans and b["name"] not in in_inv)
        out += uses
        if fn.used:
            out.append(f"use {module}.Goals.{{{', '.join(sorted(fn.used))}}}")
        if shared or given:
            out.append(f"use {module}.Invariants.{{{', '.join(shared + given)}}}")
        out += [f"use {module}.Goals as goal", ""]
        for b in blocks:
            if b in helpers and b["name"] + str(id(b)) in in_ans and b["name"] not in in_inv:
                out += b["comment"] + [rewrite("\n".join(b["lines"])), ""]
            elif b in live:
                out += b["comment"] + [b.get("answer", b.get("rest", "")), ""]
        with open(os.path.join(folder, "Answers.antt"), "w", encoding="utf-8") as f:
            f.write(joins(sections("\n".join(out).rstrip() + "\n", fn), module))
    os.remove(path)


def main(argv):
    crate, file = argv
    with open(file, encoding="utf-8") as f:
        table = json.load(f)
    for key, m in table.items():
        if not key.startswith(f"Rattle-{crate}-proofs.") or not key.endswith(".Lts"):
            continue
        path = os.path.join("crates", crate, "proofs", *key.split(".")[1:-1], "Proof.antt")
        if os.path.isfile(path):
            print(path)
            convert(crate, key, m, path)
    return 0


if __name__ == "__main__":
    raise SystemExit(main(sys.argv[1:]))
