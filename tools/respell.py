#!/usr/bin/env python3
"""Spells the repository's own definitions, fields and lemmas in snake case, and the modules of laws in camel case.

usage: python3 tools/respell.py [--dry]      at the top of the repository, once, after port.py

Names with a dash that are defined in specs/ and in the lemma files of proofs/ get an underscore for each dash, in .antt and
.rt files and in edits; goals and steps that Rattle names keep theirs. Strings of .rt files stay. It prints what it renames,
and any new name that was there before (a name that falls together with another).
"""

import os
import re
import sys

DRY = "--dry" in sys.argv
TOKEN = r"(?<![\w'\-]){}(?![\w'\-])"
DEFINED = re.compile(r"^\s*(?:(?:abbrev|unfoldable|pub|data|record|open|\|)\s+)*([^\s(){};,.λ|]+)\s+(?:\{[^}]*\}\s*|\([^)]*\)\s*)*:\s")
BARE = re.compile(r"^\s*(?:(?:abbrev|unfoldable|pub)\s+)+([^\s(){};,.λ|:]+)\s*$")
ANSWERS = ("Answers.antt", "Invariants.antt", "Proof.antt")
# names that no longer name anything of the library, or that spell a constructor
SPECIAL = {"getD-digits": "slice_index_digits"}


def texts(kinds):
    for folder, dirs, files in os.walk("crates"):
        dirs[:] = sorted(d for d in dirs if d != "out")
        for f in sorted(files):
            if f.endswith(kinds):
                yield os.path.join(folder, f)


def read(p):
    with open(p, encoding="utf-8") as f:
        return f.read()


own = set()
for p in texts((".antt",)):
    if os.path.basename(p) in ANSWERS:
        continue
    for line in read(p).splitlines():
        m = DEFINED.match(line) or BARE.match(line)
        if m:
            own.add(m.group(1))
turn = {n: SPECIAL.get(n, n.replace("-", "_")) for n in own if "-" in n}

everything = {p: read(p) for p in texts((".antt", ".rt", ".edit"))}
words = {}
for p, t in everything.items():
    for w in re.findall(r"[^\s(){}\[\];,.λ|:&*<>=!\"\u2261\u2192\u00d7+]+", t):
        words.setdefault(w, set()).add(p)
library = set()
for p, t in everything.items():
    for m in re.finditer(r"use (Rattle\.std|mathlib|Prim|borrow)[\w.]*\.\{([^}]*)\}", t):
        library |= {w.split(" as ")[-1].strip() for w in m.group(2).split(",")}
for old, new in sorted(turn.items()):
    print(old, "->", new)
    if new in words:
        print("  look: stands already in", ", ".join(sorted(words[new])[:6]))
    if old in library:
        print("  look: a library's name too")
    if sum(v == new for v in turn.values()) > 1:
        print("  look: two names fall together")

ONE = re.compile(TOKEN.format("(" + "|".join(sorted(map(re.escape, turn), key=len, reverse=True)) + ")"))
STRING = re.compile(r'"(?:[^"\\\n]|\\.)*"')


def turned(t, rt):
    t = re.sub(r"(specs\.)laws(\.)", r"\1Laws\2", t)
    if not rt:
        return ONE.sub(lambda m: turn[m.group(1)], t)
    out, at = [], 0
    for s in STRING.finditer(t):
        out += [ONE.sub(lambda m: turn[m.group(1)], t[at:s.start()]), s.group(0)]
        at = s.end()
    return "".join(out) + ONE.sub(lambda m: turn[m.group(1)], t[at:])


if not DRY:
    for p, t in everything.items():
        n = turned(t, not p.endswith(".antt"))
        if p.endswith("/specs/Lib.antt"):
            n = re.sub(r"\bmod laws\b", "mod Laws", n)
        if n != t:
            with open(p, "w", encoding="utf-8") as f:
                f.write(n)
    for c in sorted(os.listdir("crates")):
        for old, new in (("laws.antt", "Laws.antt"), ("laws", "Laws")):
            old, new = os.path.join("crates", c, "specs", old), os.path.join("crates", c, "specs", new)
            if os.path.exists(old):
                os.rename(old, new)
