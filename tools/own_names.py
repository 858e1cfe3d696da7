#!/usr/bin/env python3
"""Brings the repository's own definitions and lemmas to the kit's spelling: a name that a file of specs/ or proofs/ declares, begins small and
has a dash or a capital is written in snake case, everywhere it stands: in specs, proofs and clauses, in must-fail edits, and in backticks in
comments and pages. Run once, at the top, behind the kit's port.py. Types, modules and what Rattle itself makes keep their names.

Where a definition and a lemma would get one name, the lemma's ends in `_lem`; so does a lemma's that would be called as a function or a crate is.

usage: python3 tools/own_names.py [--list]
"""

import os
import re
import sys

NAME = r"[^\s(){}\[\],;.\"`:]+"
TOKEN = re.compile(r"([^\s(){}\[\],;.\"`]+)")
DECLARED = re.compile(rf"^[ \t]*(?:(?:pub|abbrev|unfoldable) )*({NAME})((?: {NAME})*) :(?= |$)", re.M)
FIELD = re.compile(rf"[;{{][ \t]*(?:pub )?({NAME}) :(?= )")
FUNCTION = re.compile(r"\bfn ([a-z_0-9]+)")
TAKEN = re.compile(r"\buse ([^\s{;]+)\.\{([^}]*)\}")
# Rattle's own words: what a function's proof file has to call its invariants and measures.
MADE = re.compile(r"^(invariant|decreases)-")

# Lemmas that have a definition's new name already: the folders in which each stands, and its new name.
BEFORE = {
    "asks_nothing": ["rows"],
    "is_live": ["finding", "closing", "book_laws"],
    "no_room": ["number"],
    "not_ascii": ["listing", "encoder"],
    "too_long": ["listing", "encoder"],
    "front_of": ["book_laws", "rows"],
}


def texts(top, endings):
    for folder, dirs, files in os.walk(top):
        dirs[:] = sorted(d for d in dirs if d not in ("out", ".git", "target"))
        for f in sorted(files):
            if f.endswith(endings):
                yield os.path.join(folder, f)


def read(path):
    with open(path, encoding="utf-8") as f:
        return f.read()


def write(path, text):
    with open(path, "w", encoding="utf-8") as f:
        f.write(text)


def snake(name):
    name = re.sub(r"([A-Z]+)([A-Z][a-z])", r"\1_\2", name)
    name = re.sub(r"([a-z0-9'])([A-Z])", r"\1_\2", name)
    return re.sub(r"__+", "_", name.replace("-", "_")).lower()


def is_wanted(name):
    return re.match(r"[a-z]", name) and not MADE.search(name) and snake(name) != name


def declared(files):
    """The names to turn, each with the file that declares it first; a function's own proof file declares nothing that counts."""
    names = {}
    for p in files:
        if re.search(r"/proofs/.+/(Proof|Answers|Invariants)\.antt$", p):
            continue
        t = re.sub(r"--[^\n]*", "", read(p))
        for m in DECLARED.finditer(t):
            for n in [m[1], *m[2].split()]:
                if is_wanted(n):
                    names.setdefault(n, p)
        for m in FIELD.finditer(t):
            if is_wanted(m[1]):
                names.setdefault(m[1], p)
    return names


def outside(files, crates):
    """What some file takes from outside the repository."""
    found = set()
    for p in files:
        for m in TAKEN.finditer(read(p)):
            path = m[1].split(".")
            if path[0] != "Rattle" or path[1] not in crates:
                found |= {w.strip().split(" ")[0] for w in m[2].split(",")}
    return found


def chosen(top):
    inside = os.path.join(top, "crates")
    antt = list(texts(inside, (".antt",)))
    rust = list(texts(inside, (".rt",)))
    functions = {m[1] for p in rust for m in FUNCTION.finditer(read(p))}
    functions |= set(os.listdir(inside))
    there = {w for p in antt for w in TOKEN.findall(read(p))}
    library = outside(antt + rust, set(os.listdir(inside)))
    names, back = {}, {}
    for n, p in sorted(declared(antt).items(), key=lambda it: ("-" in it[0], it[0])):
        to = snake(n)
        if n in library:
            print(f"kept: {n} is a name of the library too ({p})")
            continue
        if to in back or "-" in n and to in functions:
            to += "_lem"
        if to in back or to in library or to in there and to not in functions and to not in BEFORE:
            print(f"kept: {n}: {to} stands already ({p})")
            continue
        names[n], back[to] = to, n
    return names


def turned(text, names):
    return TOKEN.sub(lambda m: names.get(m[1], m[1]), text)


def ticked(text, names):
    return re.sub(r"`([^`\n]*)`", lambda m: "`" + turned(m[1], names) + "`", text)


def turn(text, names, comment):
    """The names in code, and those that stand in backticks in a comment."""
    out = []
    for line in text.split("\n"):
        i = line.find(comment)
        head, tail = (line, "") if i < 0 else (line[:i], line[i:])
        out.append(turned(head, names) + ticked(tail, names))
    return "\n".join(out)


def edited(text, names):
    return "\n".join(turned(l, names) if re.match(r"(old|new): ", l) else ticked(l, names) for l in text.split("\n"))


def main(argv):
    top = os.getcwd()
    names = chosen(top)
    print(f"{len(names)} names")
    if "--list" in argv:
        for n in sorted(names):
            print(n, names[n])
        return 0
    for old, crates in BEFORE.items():
        if old not in names.values():
            continue
        for c in crates:
            for p in texts(os.path.join(top, "crates", c, "proofs"), (".antt",)):
                t = read(p)
                new = turn(t, {old: old + "_lem"}, "--")
                if new != t:
                    write(p, new)
    for p in texts(os.path.join(top, "crates"), (".antt", ".rt", ".edit")):
        t = read(p)
        new = edited(t, names) if p.endswith(".edit") else turn(t, names, "--" if p.endswith(".antt") else "//")
        if new != t:
            write(p, new)
    for p in [os.path.join(top, "README.md"), *texts(os.path.join(top, "docs"), (".md",))]:
        t = read(p)
        new = ticked(t, names)
        if new != t:
            write(p, new)
    return 0


if __name__ == "__main__":
    raise SystemExit(main(sys.argv[1:]))
