#!/usr/bin/env python3
"""Lists the places in src/ where an older form of the language may stand, for the page docs/DESIGN-PASS.md.

usage: tools/places.py [POINT ..]    the points 1 to 8 of that page; all where none is named

A line that is listed is to be read: whether it is a place is said on the page.
"""

import collections
import pathlib
import re
import sys

TOP = pathlib.Path(__file__).resolve().parent.parent
SOURCES = sorted(TOP.glob("crates/*/src/**/*.rt"))

TITLES = {
    1: "own Option or Result, a flag beside a value, numbers for kinds",
    2: "twins",
    3: "loops that count by hand",
    4: "equality, order, copying, conversion and printing by hand",
    5: "facts in three contracts or more, parameters that travel together",
    6: "buffers with a length beside, parallel arrays, hand searches, arenas",
    7: "switches on a step, tables of functions",
    8: "proofs",
}

LINES = {
    1: r"^(pub(\(crate\))? )?enum |^ +(pub(\(crate\))? )?\w+: bool\b|, bool\)|-> Option<\(|\bfn number\b",
    3: r"\b(while|loop)\b|\bfor \w+ in [^{]*\.\.|\+= 1;",
    4: r"^impl.* (PartialEq|Eq|PartialOrd|Ord|Clone|Copy|Default|Debug|Display|From<.*>|TryFrom<.*>|Drop)( |<\w+> )?for\b"
       r"| as (usize|u8|u16|u32|u64|Points)\b",
    6: r"\[\w+; *\w+\]|&mut \[|\bcount: usize|\blength: usize|\bmiddle\b",
    7: r"\bdyn\b|\bfn\(|\bFn(Mut|Once)?\(|\bmatch (step|call|state)\b",
}


def lines(path):
    """The lines of a source that are code, with their numbers."""
    for number, line in enumerate(path.read_text().splitlines(), 1):
        if not line.lstrip().startswith(("//", "ghost use")):
            yield number, line


def name(path):
    return path.relative_to(TOP / "crates")


def by_line(point):
    return [f"{name(path)}:{number}: {line.strip()}" for path in SOURCES for number, line in lines(path) if re.search(LINES[point], line)]


def twins():
    """Functions and types whose names stand more than once, tests and traits' own functions left out."""
    seen = collections.defaultdict(list)
    for path in SOURCES:
        if path.name == "tests.rt":
            continue
        for number, line in lines(path):
            found = re.match(r"\s*(?:pub(?:\(crate\))? )?(fn|struct|enum|trait) (\w+)", line)
            if found and found[2] not in ("main", "fmt", "from"):
                seen[found[1], found[2]].append(f"{name(path)}:{number}")
    return [f"{kind} {word}: {', '.join(places)}" for (kind, word), places in sorted(seen.items()) if len(places) > 1]


def facts():
    """Clauses that stand in three contracts or more, and pairs of parameters that stand in three functions or more."""
    clauses, pairs = collections.Counter(), collections.Counter()
    for path in SOURCES:
        for number, line in lines(path):
            found = re.match(r"\s*(?:requires|ensures)\*?(?: \w+)? \{ (.*) \}", line)
            if found:
                clauses[found[1]] += 1
        for found in re.finditer(r"\bfn \w+(?:<[^(]*>)?\(([^)]*)\)", path.read_text()):
            names = [part.split(":")[0].replace("mut ", "").strip() for part in found[1].split(",") if ":" in part]
            pairs.update((a, b) for i, a in enumerate(names) for b in names[i + 1:])
    return [f"{count} contracts: {clause}" for clause, count in clauses.most_common() if count > 2] + [
        f"{count} functions: {a}, {b}" for (a, b), count in pairs.most_common() if count > 2]


def proofs():
    """Lines and answers of each crate's proofs."""
    rows = []
    for crate in sorted(TOP.glob("crates/*")):
        files = sorted(crate.glob("proofs/**/*.antt"))
        if files:
            answers = sum(len(re.findall(r"(?m)^pub \S+ : goal\.|^\S+ : goal\.", path.read_text())) for path in files)
            rows.append(f"{crate.name}: {sum(len(path.read_text().splitlines()) for path in files)} lines, {answers} answers")
    return rows


def main():
    for point in [int(word) for word in sys.argv[1:]] or sorted(TITLES):
        found = {2: twins, 5: facts, 8: proofs}.get(point, lambda: by_line(point))()
        print(f"{point}. {TITLES[point]}: {len(found)}")
        print("".join(f"   {line}\n" for line in found))


if __name__ == "__main__":
    main()
