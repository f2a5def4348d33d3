#!/usr/bin/env python3
"""Brings the repository's own definitions and lemmas to snake case, in specs/, proofs/, clauses, edits and pages.

usage: tools/respell.py [FOLDER]   the repository; this folder where none is named

A name is turned where a file of specs/ or proofs/ declares it and a part of it, between dashes, has a hump: `isIn` becomes `is_in`,
`firstNo-yes` becomes `first_no-yes`. In src/ each name that begins low and has a hump is a clause's own, as `weight as weightOf`, and
is turned too. Types, modules and the names of the code keep theirs. Run after the kit's own script, once.
"""

import pathlib
import re
import sys

DECLARED = re.compile(r"^\s*(?:(?:abbrev|unfoldable|pub|record|data)\s+)*([A-Za-z][\w'\-]*)(?:\s+[({].*[)}])?\s+:\s")
NAME = re.compile(r"(?<![\w'\-])[A-Za-z][\w'\-]*")


def snake(name):
    """The name with each lower-case part in snake case."""
    parts = []
    for part in name.split("-"):
        if part[:1].islower():
            part = re.sub(r"(?<=[a-z0-9])([A-Z])", lambda m: "_" + m.group(1).lower(), part)
            part = part.lower() if part.isascii() else part
        parts.append(part)
    return "-".join(parts)


def declared(top):
    names = set()
    for path in sorted(top.glob("crates/*/*/**/*.antt")):
        if "out" in path.parts:
            continue
        for line in path.read_text().splitlines():
            found = DECLARED.match(line)
            if found and not line.lstrip().startswith("use "):
                names.add(found.group(1))
    return names


def main():
    top = pathlib.Path(sys.argv[1] if len(sys.argv) > 1 else ".")
    names = declared(top)
    turned = {name: snake(name) for name in names if snake(name) != name}
    # Names that would fall together stay as they are, and are said.
    taken = {}
    for name in sorted(names):
        taken.setdefault(turned.get(name, name), []).append(name)
    for new, olds in sorted(taken.items()):
        if len(olds) > 1:
            print(f"respell: left alone, since they would all be {new}: {', '.join(olds)}")
            for old in olds:
                turned.pop(old, None)
    paths = [
        path
        for pattern in ("crates/*/*/**/*.antt", "crates/*/src/**/*.rt", "crates/*/must-fail/*.edit", "docs/*.md", "README.md")
        for path in sorted(top.glob(pattern))
        if "out" not in path.parts
    ]
    changed = 0
    for path in paths:
        old = path.read_text()
        new = NAME.sub(lambda m: turned.get(m.group(0), snake(m.group(0)) if path.suffix == ".rt" else m.group(0)), old)
        if new != old:
            path.write_text(new)
            changed += 1
    print(f"respell: {len(turned)} names in {changed} files")


if __name__ == "__main__":
    main()
