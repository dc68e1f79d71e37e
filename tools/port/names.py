#!/usr/bin/env python3
"""Brings the repository's own definitions and lemmas to today's spelling: names of values are in snake case, types and modules stay.

usage: python3 tools/port/names.py            at the top of the repository, once, after port.py
       python3 tools/port/names.py --list     says which names it would turn, and changes nothing

A name is turned where it begins with a small letter and has a capital or a dash. Names of the kit's libraries, which files import by
name, and names that the kit makes stay. Functions of src/ keep their names: they have neither capitals nor dashes.
"""
import collections
import os
import re
import sys

NAME = r"[A-Za-z_][A-Za-z0-9_'₀-₉·-]*"
TOKEN = re.compile(r"(?<![\w'₀-₉·◌-])" + NAME)
USE = re.compile(r"^\s*(?:ghost |pub )?use\s+([\w.+'·-]+)\.\{([^}]*)\}", re.M)
DECLARED = re.compile(r"^\s*(?:abbrev\s+|unfoldable\s+|pub\s+)*(" + NAME + r")\s+:\s", re.M)
# names that would be a word of the language, of the library or of another name here
SPECIAL = {
    "firstOf": "earliest_of",
    "ground": "cause",
}
# lemmas whose snake-case name is that of the definition that they are about: std's rule adds _lem
LEMMAS = """body-length by-triple deal-told event-at half-of heard-after in-front in-phase inverse-total is-asleep job-sent job-told
last-length level-match message-fits message-of most-jobs new-inverse new-left new-mask new-power new-product new-right new-value
next-at open-key opened-low own-tape round-fits same-box section-length square-word square-words start-ground
tapes-sent tapes-told threefold-group wake-ground zero-at zeros-to""".split()
SPECIAL |= {n: n.replace("-", "_") + "_lem" for n in LEMMAS}
# the same for lemmas that are in snake case already, in the files that declare or import them
SNAKE_LEMMAS = ["in_order", "low_bit", "said_at", "same_key", "same_turn"]


def snake(name):
    if name in SPECIAL:
        return SPECIAL[name]
    name = name.replace("getD", "get_or")
    name = re.sub(r"(?<=[a-z0-9])(?=[A-Z])", "_", name)
    return name.replace("-", "_").lower() if re.search("[A-Z]", name) else name.replace("-", "_")


def wanted(name):
    return name in SPECIAL or name[0].islower() and bool(re.search("[A-Z-]", name))


def files(end):
    for folder, dirs, names in os.walk("crates"):
        dirs[:] = sorted(d for d in dirs if d not in ("out", "target"))
        for f in sorted(names):
            if f.endswith(end):
                yield os.path.join(folder, f)


def own_crates():
    return {c for c in os.listdir("crates") if os.path.isdir(os.path.join("crates", c))}


def read(p):
    with open(p, encoding="utf-8") as f:
        return f.read()


def comment_free(t):
    return re.sub(r"(?m)--(?=\s|$).*$", "", t)


def library_names():
    own, names = own_crates(), set()
    for p in [*files(".antt"), *files(".rt")]:
        for m in USE.finditer(read(p)):
            parts = m[1].split(".")
            if not (parts[0] == "Rattle" and len(parts) > 1 and parts[1] in own):
                names |= {n.strip().split(" as ")[0] for n in m[2].split(",") if n.strip()}
    return names


def turned_text(t, keep, known=None, comments="--"):
    """t with its names turned; in a comment only those with a capital that are declared somewhere."""
    imported = {n.strip() for m in USE.finditer(t) for n in m[2].split(",")} | set(DECLARED.findall(t))

    def turn(m):
        name, before = m[0], m.string[: m.start()]
        if name in SNAKE_LEMMAS and comments == "--" and name in imported and not before.endswith("."):
            return name + "_lem"
        if name in keep or not wanted(name) or before.endswith("tie."):
            return name
        if known is not None and name not in known:
            return name
        if name in LEMMAS and before.endswith("."):
            return name.replace("-", "_")
        return snake(name)

    def turn_word(m):
        return snake(m[0]) if re.search("[A-Z]", m[0]) and wanted(m[0]) and m[0] in DECLARED_NAMES and m[0] not in keep else m[0]

    out = []
    for line in t.split("\n"):
        at = re.search(r"(?:^|(?<=\s))" + comments + r"(?=\s|$)", line) if comments else None
        code, comment = (line[: at.start()], line[at.start() :]) if at else (line, "")
        out.append(TOKEN.sub(turn, code) + TOKEN.sub(turn_word, comment))
    return "\n".join(out)


DECLARED_NAMES = set()


def main(argv):
    keep = library_names()
    names, where = set(), collections.defaultdict(set)
    for p in files(".antt"):
        t = comment_free(read(p))
        for m in TOKEN.finditer(t):
            if wanted(m[0]) and m[0] not in keep and not t[: m.start()].endswith("tie."):
                names.add(m[0])
        for m in DECLARED.finditer(t):
            where[m[1]].add(p)
    together = collections.defaultdict(set)
    for n in names:
        together[snake(n)].add(n)
    alltokens = set()
    for p in files(".antt"):
        alltokens |= set(TOKEN.findall(comment_free(read(p))))
    for new, old in sorted(together.items()):
        if len(old) > 1 or (new in alltokens and new not in names):
            print("falls together:", new, "<-", *sorted(old), "| already there" if new in alltokens else "")
    if "--list" in argv:
        for n in sorted(names):
            print(n, snake(n))
        return 0
    declared = {n for n in names if n in where}
    DECLARED_NAMES.update(declared)
    for p in [*files(".antt"), *files(".rt"), *files(".edit")]:
        t = read(p)
        if p.endswith(".antt"):
            new = turned_text(t, keep)
        else:
            new = turned_text(t, keep | {"ground"}, declared, "//" if p.endswith(".rt") else "#")
        if new != t:
            with open(p, "w", encoding="utf-8") as f:
                f.write(new)
    # documents: names between backticks
    docs = ["README.md"] + [os.path.join(d, f) for d, _, fs in os.walk("docs") for f in fs if f.endswith(".md")]
    for p in docs:
        t = read(p)
        new = re.sub(r"`[^`\n]*`", lambda m: turned_text(m[0], keep | {"ground"}, declared, None), t)
        if new != t:
            with open(p, "w", encoding="utf-8") as f:
                f.write(new)
    return 0


if __name__ == "__main__":
    raise SystemExit(main(sys.argv[1:]))
