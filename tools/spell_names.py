#!/usr/bin/env python3
"""Spells the names of the repository's own definitions and lemmas as today's Rattle does: words in snake case.

usage: python3 tools/spell_names.py           at the top, once, after port.py
       python3 tools/spell_names.py --list    only lists the old and the new names

A name in camel case, of a definition or of a field, gets underscores. A dash stays only between two names of
definitions, of ours or of the library's (`length-placed`); a plain word is joined by an underscore (`placed_yes`). Where
a definition comes to a name that a lemma, a field or a variable has by now, that one gets `_lem`. Types, modules, goals
of proof files and every name of src/ stay as they are.

Written are .antt files, with camel case in their comments too, and in .rt and .edit files the names in camel case,
which stand in clauses, `ghost use` lines, edits of .antt files and comments. Which names collide depends on all the crates that are there.
"""

import os
import re
import sys

HEAD = re.compile(r"^((?:(?:abbrev|unfoldable|pub|axiom)\s+)*)(record\s+|data\s+)?([^\s:(){}.,;=]+)((?:\s*\(.*)?)\s*:\s(.*)$")
FIELD = re.compile(r"^\s+(?:pub )?([^\s:(){}.,;=λ]+) : ")
TOKEN = re.compile(r"[^\s(){}.,;«»\"⌜⌝\[\]|]+")
WORD = re.compile(r"[A-Za-z_][A-Za-z0-9_']*")
# Names of the library that a dash joins, as in `length-placed`.
STD = set("length take drop append map reverse add sub mul div mod pow succ suc zero one min max replicate get_or set eqb leb ltb and or not le lt eq cons nil bits any all".split())

# Names of the library that a definition of ours would fall together with.
LIBRARY = {"at_return", "fits_of"}


def files(end):
    for folder, dirs, names in os.walk("crates"):
        dirs[:] = sorted(d for d in dirs if d != "out")
        for n in sorted(names):
            if n.endswith(end):
                yield os.path.join(folder, n)


def text(path):
    with open(path, encoding="utf-8") as f:
        return f.read()


def snake(name):
    return re.sub(r"(?<=[a-z0-9])([A-Z])", lambda m: "_" + m[1].lower(), name)


def declared():
    """Names declared at a line's start, those of fields, and those of goals, which Rattle gives."""
    tops, fields, shown, goals = {}, set(), set(), set()
    for p in files(".antt"):
        inside = False
        for line in text(p).splitlines():
            m = HEAD.match(line)
            if m:
                inside = bool(m[2])
                if m[5].startswith(("tie.", "goal.")):
                    goals.add(m[3])
                else:
                    tops.setdefault(m[3], set()).add("/specs/" in p)
            elif line and not line[0].isspace():
                inside = False
            elif inside:
                m = FIELD.match(line)
                if m:
                    fields.add(m[1])
                    if "/specs/" in p:
                        shown.add(m[1])
    return tops, fields, shown, goals


def main():
    tops, fields, shown, goals = declared()
    own = {n for n, at in tops.items() if True in at} | shown
    new = {}
    for n in sorted(set(tops) | fields):
        if n in goals or n == "--" or not re.match(r"[A-Za-z]", n):
            continue
        s = snake(n) if n[0].islower() else n
        if "-" in s and s[0].islower():
            parts = s.split("-")
            spec = s.endswith("-spec")
            out = parts[0]
            for a, b in zip(parts, parts[1:]):
                known = {snake(x) for x in own} | STD
                keep = not spec and n not in fields and a in known and b in known and n in tops
                out += ("-" if keep else "_") + b
            s = out
        if s != n:
            new[n] = s
    # A name that another one has by now: a definition keeps it, and the lemma, the field or the variable gets `_lem`.
    bare = set()
    for p in files(".antt"):
        for line in text(p).split("\n"):
            if not line.lstrip().startswith("--"):
                bare |= {m[0] for m in TOKEN.finditer(line) if m.start() == 0 or line[m.start() - 1] != "."}
    taken, moved = {}, {}
    for n, s in sorted(new.items(), key=lambda x: (x[0] not in own or x[0] in shown, x[0] not in own, x[0])):
        if s in bare and s not in new and n in own and s not in own and s not in LIBRARY:
            moved[s] = s + "_lem"
        elif s in taken or s in bare and s not in new and s not in moved:
            new[n] = s + "_lem"
        taken[new[n]] = n
    if "--list" in sys.argv:
        for n, s in sorted((new | moved).items()):
            print(n, s)
        return
    for p in files((".antt",)):
        old = text(p)
        made = "\n".join(rust(line, new) if line.lstrip().startswith("--") else TOKEN.sub(lambda m: named(m, line, new, moved, fields), line) for line in old.split("\n"))
        if made != old:
            with open(p, "w", encoding="utf-8") as f:
                f.write(made)
    for p in files((".rt", ".edit")):
        old = text(p)
        made = "\n".join(rust(line, new) for line in old.split("\n"))
        if made != old:
            with open(p, "w", encoding="utf-8") as f:
                f.write(made)


def named(m, line, new, moved, fields):
    if m[0] in moved and (m.start() == 0 or line[m.start() - 1] != "." or m[0] in fields):
        return moved[m[0]]
    return new.get(m[0], m[0])


def rust(line, new):
    """A name in camel case is never one of Rust's: it stands in a clause, a `ghost use`, an edit of an .antt file or a comment."""
    parts = re.split(r'(b?"[^"]*")', line)
    return "".join(w if i % 2 else WORD.sub(lambda m: new.get(m[0], m[0]) if re.search(r"[a-z0-9][A-Z]", m[0]) and m[0][0].islower() else m[0], w) for i, w in enumerate(parts))


if __name__ == "__main__":
    main()
