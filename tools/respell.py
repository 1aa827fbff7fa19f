#!/usr/bin/env python3
"""Brings the names of this repository's definitions and lemmas to today's spelling: words in snake case, types in camel case.

usage: python3 tools/respell.py [--dry]      at the top of the repository, once, after the kit's own script

A name is this repository's if a file of crates/*/specs or crates/*/proofs declares it at the head of a line (a goal that an answers file answers is
not: the compiler makes that name). A name that a file takes from a library is left alone there. Names in src/ that the code declares, strings, inputs
and outputs stay. It stops where two names would fall together.
"""

import os
import re
import sys
from collections import defaultdict

TOKEN = re.compile(r"[^\s(){}\[\],;.λ:«»\"|∷]+")
HEAD = re.compile(r"^(\s*)(?:(?:pub|abbrev|unfoldable|record|data|ruleset)\s+)*([^\s:(){}.,;λ=«»\"]+)\s*((?:[({][^)}]*[)}]\s*)*):(?![=:])")
LIBRARY = re.compile(r"(?:ghost )?use (?:Rattle\.std|Rattle\.core|borrow|denote|mathlib|Prim|lib|native)\b[^{;\n]*\{([^}]*)\}")
# names that the plain rule would make fall together, or that read wrongly by it
BY_HAND = {
    "Tet-edge": "IsTetEdge",
    "eq-edge": "eq_edge_from",
    "eq-point": "eq_point_from",
}


def files():
    for folder, dirs, names in os.walk("crates"):
        dirs[:] = sorted(d for d in dirs if d != "out")
        for f in sorted(names):
            if f.endswith((".antt", ".rt")):
                yield os.path.join(folder, f)


def camel(name):
    return "".join(p[:1].upper() + p[1:] for p in name.split("-"))


def snake(name):
    name = name.replace("-", "_")
    return re.sub(r"(?<=[a-z0-9])([A-Z])(?=[a-z0-9_]|$)", lambda m: "_" + m.group(1).lower(), name)


def spelled(name):
    if name in BY_HAND:
        return BY_HAND[name]
    if re.match(r"[A-Z][a-z]", name):
        return camel(name) if "-" in name else name
    return snake(name)


def made(path, line):
    return os.path.basename(path) in ("Answers.antt", "Invariants.antt") and re.search(r":\s*(goal|given|need)\.", line)


def declared(texts):
    own = defaultdict(set)
    for p, t in texts.items():
        if not p.endswith(".antt"):
            continue
        outside = taken(t)
        for line in t.split("\n"):
            m = HEAD.match(line)
            if not m or made(p, line) or m.group(2) in outside or line.lstrip().startswith("--"):
                continue
            own[m.group(2)].add(p)
    return own


def taken(text):
    out = set()
    for m in LIBRARY.finditer(text):
        out |= {w.strip().split(" as ")[-1].strip() for w in m.group(1).split(",")}
    return out


def turn(path, text, names):
    outside = taken(text)

    def word(m):
        w = m.group(0)
        return names[w] if w in names and w not in outside else w

    if path.endswith(".antt"):
        return TOKEN.sub(word, text)
    out, depth = [], 0
    for line in text.split("\n"):
        # in code the words with a dash stand in ghost lines and clauses alone
        code = line.split("//")[0]
        if re.search(r"\b(ghost|requires|ensures)\b", code) or "{" in code and re.search(r"[≡→×λ]", code) or re.search(r"[A-Za-z]-[A-Za-z≡]", code):
            line = TOKEN.sub(word, code) + line[len(code):]
        out.append(line)
    return "\n".join(out)


def main():
    texts = {p: open(p, encoding="utf-8").read() for p in files()}
    own = declared(texts)
    names = {n: spelled(n) for n in own if spelled(n) != n}
    every = defaultdict(set)
    for p, t in texts.items():
        for w in TOKEN.findall(t):
            every[w].add(p)
    clash = {}
    back = defaultdict(set)
    for n, m in names.items():
        back[m].add(n)
    for m, ns in back.items():
        if len(ns) > 1:
            clash[m] = sorted(ns)
    for n, m in names.items():
        # a function of the code and its definition may have one name: a clause means the definition
        if m in every and any(p.endswith(".antt") and "." + m not in texts[p] for p in every[m] & every[n]):
            clash.setdefault(m, []).append(f"{n} beside {m} in {sorted(every[m] & every[n])[:3]}")
    for m, why in sorted(clash.items()):
        print("together:", m, why)
    if "--dry" in sys.argv:
        for n in sorted(names):
            print(n, "->", names[n])
        return
    if clash:
        raise SystemExit("names fall together: settle them in BY_HAND")
    n = 0
    for p, t in texts.items():
        new = turn(p, t, names)
        if new != t:
            open(p, "w", encoding="utf-8").write(new)
            n += 1
    print(f"{len(names)} names, {n} files")


main()
