#!/usr/bin/env python3
"""Brings the repository's own definitions and lemmas to snake case, once, after the kit's port.py.

usage: python3 tools/respell.py        at the top of the repository

- a word in mixed case becomes snake case: groupAt is group_at; in .antt and .rt files, their comments too
- a lemma whose name has dashes keeps a dash only between two names that are defined, as length-append; else it gets an
  underscore: same-goes is same_goes
- a lemma that would have the name of another definition gets _lem
Types, facts (upper camel case), names of src/ and local names with dashes stay. It prints what it renamed.
"""

import collections
import os
import re

DECLARED = re.compile(r"^(?:abbrev |unfoldable )*(?:pub )?([^\s:(){}]+) :(?!:)(.*)", re.M)
FIELD = re.compile(r"^  (?:pub )?([a-z][\w'-]*) :(?!:)", re.M)
WORD = re.compile(r"[^\W\d][\w'₀-₉]*(?:-[\w'₀-₉]+)*")
MIXED = re.compile(r"[a-z_][a-z0-9_'-]*[A-Z]")
USE = re.compile(r"^(?:ghost )?use (\S+?)\.\{([^}]*)\}", re.M)


def files(ending):
    for d, dirs, fs in os.walk("crates"):
        dirs[:] = sorted(x for x in dirs if x != "out")
        for f in sorted(fs):
            if f.endswith(ending):
                yield os.path.join(d, f)


def read(p):
    with open(p, encoding="utf-8") as f:
        return f.read()


def code(t):
    return re.sub(r"--[^\n]*", "", t)


def snake(n):
    n = n.replace("getD", "get_or")
    n = re.sub(r"([a-z0-9'])([A-Z])", r"\1_\2", n)
    return n.lower()


def is_goal(p, said):
    return p.endswith("Proof.antt") and re.match(r"\s*(tie|statement|Rattle\.)", said)


texts = {p: read(p) for p in files(".antt")}
sources = {p: read(p) for p in files(".rt")}
own = tuple("Rattle." + c + "." for c in os.listdir("crates"))

defined, lemmas, library = set(), set(), set()
for p, t in texts.items():
    for n, said in DECLARED.findall(code(t)):
        if is_goal(p, said) or n.startswith(("◌", "_")):
            continue
        defined.add(n)
        if "-" in n:
            lemmas.add(n)
    defined.update(FIELD.findall(code(t)))
    for path, names in USE.findall(t):
        if not path.startswith(own):
            library.update(w.strip() for w in names.split(","))
functions = set()
for t in sources.values():
    functions.update(re.findall(r"\bfn (\w+)", t))

mixed = {n for t in list(texts.values()) + list(sources.values()) for n in WORD.findall(re.sub(r'"[^"\n]*"', "", t)) if MIXED.match(n)}
mixed = {n for n in mixed if n not in library and (n in defined or "-" not in n)}
new = {n: snake(n) for n in mixed if "-" not in n}
names = {new.get(n, n) for n in defined | library | set(functions)} | {"length", "take", "drop", "map", "true", "false", "T", "All", "add", "mul", "sub", "suc", "zero", "nil", "cons", "append", "get_or", "set", "min", "max", "not", "and", "or", "eq", "le", "lt", "leb", "ltb", "eqb", "cond"}
taken = {new.get(n, n) for n in (defined | library) - lemmas} | functions


def joined(n):
    parts = n.split("-")
    parts = [new.get(x, snake(x) if MIXED.match(x) else x) for x in parts]
    r = parts[0]
    for a, b in zip(parts, parts[1:]):
        r += ("-" if a in names and b in names and len(a) > 1 or a == "T" else "_") + b
    return r


for n in sorted(lemmas):
    if n in library:
        continue
    r = joined(n)
    while r in taken and r != n:
        r += "_lem"
    taken.add(r)
    if r != n:
        new[n] = r
# a lemma that has the name that a definition gets now
for n in sorted(defined - mixed - lemmas):
    if n in {new[m] for m in mixed if m in new}:
        new[n] = n + "_lem"
back = collections.defaultdict(set)
for n, r in new.items():
    back[r].add(n)
for r, ns in sorted(back.items()):
    if len(ns) > 1 or (r in defined and r not in new):
        print("falls together:", r, sorted(ns))


def turned(t, only_mixed):
    def one(m):
        w = m.group(0)
        if w in new and (w in mixed or not only_mixed):
            before = t[m.start() - 1: m.start()]
            if before == "." and w not in mixed and w not in lemmas:
                return w
            return new[w]
        if "-" in w and MIXED.search(w) and w not in library:
            return "-".join(new.get(x, x) if x in mixed else x for x in w.split("-"))
        return w
    return WORD.sub(one, t)


def write(p, t):
    with open(p, "w", encoding="utf-8") as f:
        f.write(t)


count = 0
for p, t in texts.items():
    lines = []
    for line in t.split("\n"):
        c = line.find("--")
        if c >= 0:
            lines.append(turned(line[:c], False) + turned(line[c:], True))
        else:
            lines.append(turned(line, False))
    r = "\n".join(lines)
    if r != t:
        count += 1
        write(p, r)
for p, t in sources.items():
    r = "".join(x if i % 2 else turned(x, True) for i, x in enumerate(re.split(r'(b?"(?:[^"\\\n]|\\.)*")', t)))
    if r != t:
        count += 1
        write(p, r)
for n in sorted(new):
    print(n, new[n])
print(len(new), "names,", count, "files")
