#!/usr/bin/env python3
"""Brings the repository's own names in specs/, proofs/ and clauses to one spelling: words in snake case, types and modules in camel case.

usage: python3 tools/respell.py [LIST]        at the top of the repository, once, right after the kit's port.py; LIST gets the names, old and new

A name is the repository's own if a file of specs/ or proofs/ declares it. Names that begin with a capital keep it. Functions of src/, exported names,
strings, inputs and outputs keep theirs. Names that would fall together in one file are printed, and end the run before anything is written.
"""

import os
import re
import sys

# Names that would fall together with another one of their file get one of their own
with open(os.path.join(os.path.dirname(os.path.realpath(__file__)), "respell.tsv"), encoding="utf-8") as f:
    OTHER = dict(line.rstrip("\n").split("\t") for line in f)

TOKEN = re.compile(r"[^\s(){}\[\];.,@\"`⌜⌝]+")
DECLARED = re.compile(r"^\s*(?:(?:pub|abbrev|unfoldable|ruleset)\s+)*([^\s(){}\[\];.,@\"`:]+)\s*(?::\s|=\s*\()", re.M)
SEVERAL = re.compile(r"^\s*(?:pub\s+)?((?:[^\s(){}\[\];.,@\"`:=]+ )+[^\s(){}\[\];.,@\"`:=]+) : ", re.M)
BOUND = re.compile(r"(?:[({]|let |λ )([^(){}:=.→]+?)\s*(?::|=|\.)")


def own(name):
    return re.fullmatch(r"[A-Za-zα-ω][\w'₀-₉≡≤⊎⊆∧∨¬≢<+*-]*", name) and "◌" not in name


def spelled(name):
    if name in OTHER:
        return OTHER[name]
    if name[0].isupper() and "-" not in name:
        return name
    words = []
    for part in name.split("-"):
        if part and part[0].isupper() and re.fullmatch(r"[A-Z]\w*", part):
            words.append(part)
        else:
            words.append(re.sub(r"(?<=[a-z0-9'])([A-Z])", lambda m: "_" + m.group(1).lower(), part))
    return "_".join(words)


def files(root):
    for folder, dirs, names in os.walk(os.path.join(root, "crates")):
        dirs[:] = sorted(d for d in dirs if d not in ("out", "must-fail"))
        for n in sorted(names):
            if n.endswith((".antt", ".rt")):
                yield os.path.join(folder, n)


def imported(text):
    """Names that a file takes from the kit."""
    kit = set()
    for m in re.finditer(r"^\s*(?:ghost |pub )*use ([\w.'·]+)\.\{([^}]*)\}", text, re.M):
        path = m.group(1)
        if not (path.startswith("Rattle.") and path.split(".")[1] in CRATES):
            kit |= {n.strip().split(" as ")[-1] for n in m.group(2).split(",")}
    return kit


def without_strings(line):
    return re.split(r'("(?:[^"\\]|\\.)*")', line)


root = os.getcwd()
CRATES = set(os.listdir(os.path.join(root, "crates")))
texts = {}
for p in files(root):
    with open(p, encoding="utf-8") as f:
        texts[p] = f.read()

names = set()
for p, t in texts.items():
    if p.endswith(".antt") and not p.endswith("/Proof.antt"):
        code = re.sub(r"^\s*--.*$", "", t, flags=re.M)
        found = {m.group(1) for m in DECLARED.finditer(code)}
        for m in SEVERAL.finditer(code):
            found |= set(m.group(1).split())
        for m in BOUND.finditer(code):
            found |= set(m.group(1).split())
        names |= {n for n in found if own(n)}

kits = set().union(*(imported(t) for t in texts.values()))
turned = {n: spelled(n) for n in names if spelled(n) != n and n not in kits}
bad = 0
for p, t in texts.items():
    there = set()
    for line in t.split("\n"):
        body = re.split(r"(?:^|\s)(?:--|//)\s", line)[0]
        if p.endswith(".antt"):
            there |= set(TOKEN.findall(body)) if not p.endswith("/Proof.antt") else set()
        else:
            there |= set(TOKEN.findall(body)) & set(turned)
    if p.endswith(".rt"):
        # of the code only parameters hide a name of a clause
        there |= {n for m in re.finditer(r"\bfn \w+(?:<[^>]*>)?\(([^)]*)\)", t) for n in re.findall(r"(\w+):", m.group(1))}
    after = {}
    for n in there:
        after.setdefault(turned.get(n, n), set()).add(n)
    for new, olds in sorted(after.items()):
        if len(olds) > 1:
            bad += 1
            print(f"{os.path.relpath(p, root)}: {', '.join(sorted(olds))} would all be {new}")
if bad:
    print(f"{bad} places where names fall together: nothing was written")
    sys.exit(1)


def turn(text):
    return TOKEN.sub(lambda m: turned.get(m.group(0), m.group(0)), text)


count = 0
for p, t in texts.items():
    mark = "--" if p.endswith(".antt") else "//"
    lines = []
    for line in t.split("\n"):
        m = re.search(r"(?:^|(?<=\s))" + mark + r"(?=\s|$)", line)
        body, note = (line[: m.start()], line[m.start():]) if m else (line, "")
        parts = without_strings(body)
        body = "".join(s if i % 2 else turn(s) for i, s in enumerate(parts))
        note = re.sub(r"`[^`]*`", lambda q: turn(q.group(0)), note)
        lines.append(body + note)
    new = "\n".join(lines)
    if new != t:
        count += 1
        with open(p, "w", encoding="utf-8") as f:
            f.write(new)
print(f"{len(turned)} names spelled anew in {count} files")
if len(sys.argv) > 1:
    with open(sys.argv[1], "w", encoding="utf-8") as f:
        f.writelines(f"{a}\t{b}\n" for a, b in sorted(turned.items()))
