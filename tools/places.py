#!/usr/bin/env python3
"""Lists the places in src/ where an older form may stand: `python3 tools/places.py [FOLDER]`, FOLDER being a checkout.

One heading a kind of place, one line a place: file, line, text. It finds candidates by their spelling; whether one is a place is told by
reading it."""
import re
import sys
from collections import Counter, defaultdict
from pathlib import Path

top = Path(sys.argv[1] if len(sys.argv) > 1 else ".")
files = sorted(top.glob("crates/*/src/*.rt"))
texts = {f: f.read_text() for f in files}


def lines(pattern, skip=None):
    """The lines that the pattern is found in."""
    for f, text in texts.items():
        for n, line in enumerate(text.split("\n"), 1):
            if line.lstrip().startswith("//"):
                continue
            if re.search(pattern, line) and not (skip and re.search(skip, line)):
                yield f"{f.relative_to(top)}:{n}: {line.strip()}"


def heading(name, found):
    found = list(found)
    print(f"== {name}: {len(found)}")
    for line in found:
        print(f"  {line}")


def functions():
    """Each function: its file, name, parameters and contract."""
    head = re.compile(r"\bfn (\w+)[^(]*(?:<[^>]*>)?\(([^)]*)\)(.*?)(?=\n\s*\{|;\n)", re.S)
    for f, text in texts.items():
        for m in head.finditer(text):
            yield f, m.group(1), m.group(2), m.group(3)


def repeated_requires():
    """What a function asks for, in the words of three or more."""
    asked = defaultdict(set)
    for f, name, _, contract in functions():
        for m in re.finditer(r"requires\s+\w*\s*\{(.*)\}", contract):
            asked[re.sub(r"\.(now|old)\b", "", m.group(1).strip())].add(f"{f.relative_to(top)}:{name}")
    for fact, where in sorted(asked.items(), key=lambda p: -len(p[1])):
        if len(where) >= 3:
            yield f"{len(where)} x {fact}: {', '.join(sorted(where))}"


def travelling():
    """Pairs of parameters that stand together in four or more functions."""
    pairs = defaultdict(set)
    for f, name, params, _ in functions():
        words = re.findall(r"(\w+): (&?(?:mut )?[^,]+)", params)
        words = [(w, re.sub(r"\s+", " ", t).strip()) for w, t in words if w not in ("self", "rt", "heap")]
        for i, a in enumerate(words):
            for b in words[i + 1:]:
                pairs[(f"{a[0]}: {a[1]}", f"{b[0]}: {b[1]}")].add(f"{f.relative_to(top)}:{name}")
    for (a, b), where in sorted(pairs.items(), key=lambda p: -len(p[1])):
        if len(where) >= 4:
            yield f"{len(where)} x ({a}, {b})"


heading("1. enums", lines(r"^\s*(pub(\(\w+\))? )?enum "))
heading("1. numbers for kinds", lines(r"^\s*(Side|OtherShape|RatioPart)\(u8\)|match \w+\[0\]"))
heading("1. an arm or test that hands on a failure", lines(
    r"None => (return )?None|Err\((\w+)\) => (return )?(Ok\()?Err\(\2\)|Err\(_\) => None|return (Ok\()?Err\(why\)|else \{\s*$(?<=let Ok)"
    r"|let (Some|Ok)\(.*\) = .* else"))
heading("2. free functions and types, to be read for twins", lines(r"^\s*(pub(\(\w+\))? )?(const )?(fn|struct|enum|const) \w+"))
heading("3. loops with an index or a hand-kept count", lines(r"^\s*(while|loop)\b|^\s*for \w+ in .*\.\.|\+= 1;", skip=r"in 0\.\.rounds"))
heading("4. by hand: equality, printing, conversion, blank values", lines(
    r"fn (same|eq|cmp|partial_cmp|clone|fmt|from|try_from|default)\b|format!|^\s*(pub )?const (NO_|NOWHERE|BLANK)|refused \{|256 \* u16"))
heading("5. facts asked for by three or more functions", repeated_requires())
heading("5. parameters that travel together", travelling())
heading("6. a buffer or slice with a length or place beside it", lines(r"^\s*(pub(\(\w+\))? )?(items|count|written|free|at): |: \[[A-Za-z<>]+; (12|19)\]"))
heading("6. tables of constants", lines(r"^\s*(pub )?const \w+: &?\["))
heading("7. function pointers, dyn, switches on a step", lines(r"\bdyn\b|: fn\(|\bmode\b|\bstep: "))
