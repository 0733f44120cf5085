#!/usr/bin/env python3
"""Brings the repository's own definitions and lemmas to today's spelling, once: a name in lower camel case becomes snake case.

usage: python3 tools/spelling.py [FOLDER]     (FOLDER: a checkout after port.py; else the current folder)

It reads the names that .antt files below crates/ declare, and writes them anew in .rt, .antt, .edit files below crates/ and in docs/.
Where the plain spelling is taken by another name, APART has the one that it gets. It stops where two names would fall together.
"""
import os
import re
import sys

# the plain spelling is a lemma's, an alias of a proof or a field of the code
APART = {
    "allHold": "hold_each",
    "areaOf": "extended_area",
    "byValue": "of_value",
    "entryIn": "entry_from",
    "placedBy": "placed_from",
    "sectorSize": "sector_size_of",
    "storeAt": "stored_at",
}
DECLARED = re.compile(r"^\s*(?:(?:unfoldable|abbrev|pub)\s+)*([A-Za-z_][\w'\-₀-₉→]*)\s*:\s", re.M)


def one(part):
    if not re.match(r"[a-z]", part) or not re.search(r"[A-Z]", part):
        return part
    return re.sub(r"(?<=[a-z0-9'])([A-Z])", r"_\1", part).lower()


def snake(name):
    return "-".join(one(p) for p in name.split("-"))


def files(root, ends):
    for folder, dirs, names in os.walk(root):
        dirs[:] = sorted(d for d in dirs if d not in ("out", ".git", "target"))
        for n in sorted(names):
            if n.endswith(ends):
                yield os.path.join(folder, n)


def main(top):
    declared = set()
    for p in files(os.path.join(top, "crates"), (".antt",)):
        with open(p, encoding="utf-8") as f:
            declared |= set(DECLARED.findall(f.read()))
    new = {}
    for n in sorted(declared):
        to = APART.get(n, snake(n))
        if to != n:
            new[n] = to
    seen = {}
    for n, to in new.items():
        if to in declared or to in seen:
            sys.exit(f"spelling: {n} and {seen.get(to, to)} would fall together as {to}")
        seen[to] = n
    token = re.compile(r"(?<![\w'\-₀-₉])(" + "|".join(sorted(map(re.escape, new), key=len, reverse=True)) + r")(?![\w'₀-₉]|-\w)")
    count = 0
    for p in [*files(os.path.join(top, "crates"), (".antt", ".rt", ".edit")), *files(os.path.join(top, "docs"), (".md",))]:
        with open(p, encoding="utf-8") as f:
            t = f.read()
        u = token.sub(lambda m: new[m[1]], t)
        if u != t:
            with open(p, "w", encoding="utf-8") as f:
                f.write(u)
            count += 1
    print(f"spelling: {len(new)} names, {count} files")


main(sys.argv[1] if len(sys.argv) > 1 else ".")
