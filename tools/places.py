#!/usr/bin/env python3
"""Counts and lists the lines of src/ whose form may be plainer, for docs/DESIGN-PASS.md: places.py [ROOT]."""
import collections
import itertools
import pathlib
import re
import sys

ROOT = pathlib.Path(sys.argv[1] if len(sys.argv) > 1 else ".")
FN = re.compile(r"^\s*(?:pub(?:\([a-z]+\))? )?fn (\w+)")
LINES = {
    "1a enums, each to be looked at": r"^(pub(\([a-z]+\))? )?enum \w+",
    "1b flags with a value beside them": r"\(bool, |\bfn (stands|kept)\b",
    "1c numbers for kinds, codes and refusals": r"\b(number|byte|letter|form|code): (u8|usize)\b",
    "1d functions that answer a number that says nothing": r"\(\) -> u8$",
    "3a loops over a range": r"^\s*for .* in .*\.\.(?!\])|\bwhile |\bloop \{",
    "3b loops that end in an answer or a count": r"^\s+return (true|false|Some\(\w+\));$|^\s+(count|sum) \+= ",
    "4 conversions and printing by name": r"\bfn (of(_\w+)?|in_file|at_place|pair_of|read_literal|form_kind|rule|digits|number|name|text|is_several|fault)\b",
    "6 lengths beside buffers, and marks beside rows": r"^\s*len: usize,|\blive: (&\[bool\]|\[bool)",
    "7 trait objects and function pointers": r"\bdyn |\bfn\(",
}


def code(path):
    return [re.sub(r"//.*", "", line).rstrip() for line in path.read_text().split("\n")]


def heads(path):
    """Each function's name, with its text up to the body."""
    name, head = None, []
    for line in code(path):
        found = FN.match(line)
        if found:
            name, head = found.group(1), []
        if name:
            head.append(line)
            if line.endswith("{") or line.endswith("{}") or line.endswith(";"):
                yield name, head
                name = None


def repeated(files):
    """Clauses, and groups of parameters, of three functions or more; a group within a larger one of the same functions is left out."""
    clauses, groups = collections.defaultdict(set), collections.defaultdict(set)
    for path in files:
        where = path.relative_to(ROOT / "crates").as_posix().replace("/src/", "/")
        for name, head in heads(path):
            for line in head:
                clause = re.match(r"\s*(?:requires|ensures)\s*\w*\s*\{(.*)\}\s*$", line)
                if clause:
                    clauses[clause.group(1).strip()].add(f"{where}:{name}")
            text = " ".join(head)
            inner = re.split(r"ensures|requires|where", text[text.find("(") :])[0]
            names = sorted(set(re.findall(r"(?<![\w:<])(\w+): ([^,()]+)", inner)))
            for k in range(2, len(names) + 1):
                for group in itertools.combinations(names, k):
                    groups[group].add(f"{where}:{name}")
    for clause, where in sorted(clauses.items()):
        if len(where) >= 3:
            yield f"{{ {clause} }}: {', '.join(sorted(where))}"
    large = {group: where for group, where in groups.items() if len(where) >= 3}
    for group, where in sorted(large.items()):
        if not any(set(group) < set(other) and where == large[other] for other in large):
            yield f"{', '.join(f'{n}: {t.strip()}' for n, t in group)}: {', '.join(sorted(where))}"


def main():
    files = sorted(ROOT.glob("crates/*/src/**/*.rt"))
    for title, pattern in LINES.items():
        found = [
            f"{path.relative_to(ROOT)}:{number}: {line.strip()}"
            for path in files
            for number, line in enumerate(code(path), 1)
            if re.search(pattern, line)
        ]
        print(f"{title}: {len(found)}", *found, sep="\n  ")
    found = list(repeated(files))
    print(f"5 clauses and parameters of three functions or more: {len(found)}", *found, sep="\n  ")


main()
