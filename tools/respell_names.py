#!/usr/bin/env python3
"""Spells the repository's own definitions and lemmas as today's Rattle does: words in snake case, facts in camel case.

usage: python3 tools/respell_names.py [--list]      at the top of the repository, once, after the kit's port.py

A name is the repository's own where one of its .antt files defines it. A goal that Rattle names (an answer's
`pub x : goal.x`), a name that a file imports from outside the repository, and all Rust text keep theirs.
--list prints the names and what they become, and writes nothing.
"""
import os
import re
import sys

NAME = r"[^\W\d_][\w'₀-₉]*(?:-[\w'₀-₉]+)+"
TOKEN = re.compile(r"(?<![\w'-])" + NAME + r"(?![\w'-])")
DEFINED = re.compile(r"^\s*(?:(?:pub|abbrev|unfoldable|data|record)\s+)*(" + NAME + r")\s*(?=[:({])", re.M)
BOUND = re.compile(r"\blet\s+(" + NAME + r")\s*(?=[:=])")
VARIANT = re.compile(r"^\s*\|\s*(" + NAME + r")\s*:", re.M)
GOAL = re.compile(r"^\s*(?:abbrev\s+)?pub\s+(" + NAME + r")\s*:\s*(?:goal|given|rules|needs?|goals)\.", re.M)
IMPORT = re.compile(r"^\s*(?:ghost\s+)?use\s+(?!Rattle\.(%s)\.)[\w.'-]+\.\{([^}]*)\}", re.M)


def texts(root):
    for folder, dirs, files in os.walk(os.path.join(root, "crates")):
        dirs[:] = sorted(d for d in dirs if d != "out")
        for f in sorted(files):
            if f.endswith((".rt", ".antt")):
                yield os.path.join(folder, f)


def respelled(name):
    parts = name.split("-")
    if name[0].isupper():
        return "".join(p[:1].upper() + p[1:] for p in parts)
    return "_".join(parts)


def main():
    crates = "|".join(sorted(os.listdir("crates")))
    outside = re.compile(IMPORT.pattern % crates, re.M)
    files = {}
    for path in texts("."):
        with open(path, encoding="utf-8") as f:
            files[path] = f.read()
    own, goals, taken = {}, set(), {}
    for path, text in files.items():
        if not path.endswith(".antt"):
            continue
        goals |= set(GOAL.findall(text))
        for pattern in (DEFINED, BOUND, VARIANT):
            for name in pattern.findall(text):
                own.setdefault(name, path)
    own = {n: p for n, p in own.items() if n not in goals}
    known = set()
    for text in files.values():
        known |= set(re.findall(r"[^\W\d][\w'₀-₉]*", text))
    for name in sorted(own):
        new = respelled(name)
        if new in known or new in taken:
            print(f"look: {name} becomes {new}, which stands already: {own[name]}")
        taken[new] = name
    if "--list" in sys.argv:
        for name in sorted(own):
            print(f"{name} -> {respelled(name)}    {own[name]}")
        return
    for path, text in files.items():
        theirs = set()
        for m in outside.finditer(text):
            theirs |= {w.strip().split(" as ")[0] for w in m.group(2).split(",")}
        new = TOKEN.sub(lambda m: respelled(m.group(0)) if m.group(0) in own and m.group(0) not in theirs else m.group(0), text)
        if new != text:
            with open(path, "w", encoding="utf-8") as f:
                f.write(new)


main()
