#!/usr/bin/env python3
"""Brings the names of this repository's definitions, fields and lemmas to snake case.

usage: python3 tools/respell.py [--list]      at the top of the repository

A name counts as the repository's own where a file of specs/ or proofs/ declares it and the file at hand declares it too,
imports it from a crate of the repository, or cites it as a field of a record. Names that the toolchain makes or its
library has stay, as do types and modules, and everything in src/ but what its contracts cite. Two names that would fall
together stop the script before it writes anything.
"""

import collections
import os
import re
import sys

NAME = r"[^\s:(){}\[\]=;,.«»\"]+"
DECLARED = re.compile(rf"^\s*(?:pub\s+)?(?:(?:abbrev|unfoldable)\s+)?(?:pub\s+)?({NAME})\s*:\s+(.*)")
RECORD = re.compile(r"^\s*pub record ")
IMPORT = re.compile(r"^\s*(?:ghost )?use ([\w.+-]+)\.\{([^}]*)\}")
MADE = re.compile(r"^(?:goal|given|Goals|Given)\.")
TOKEN = re.compile(r"(\.?)((?:[^\W\d]|◌)[\w'◌-]*)")


def files():
    for folder, dirs, names in os.walk("crates"):
        dirs[:] = sorted(d for d in dirs if d != "out")
        for name in sorted(names):
            if name.endswith((".antt", ".rt")):
                yield os.path.join(folder, name)


# lemmas that would have the name of the definition that they are about
LEMMAS = {n: n.replace("-", "_") + "_lem" for n in ("all-below", "bit-xor", "lost-sum", "packet-or")}


def snake(name):
    """The name in snake case; a type keeps its capital."""
    if name in LEMMAS:
        return LEMMAS[name]
    name = name.replace("getD", "get_or").replace("-", "_")
    if name[0].isupper():
        return name
    return re.sub(r"(?<=[a-z0-9])([A-Z])", lambda m: "_" + m.group(1).lower(), name)


def declared(text):
    """The names that a file of specs/ or proofs/ declares, and those of them that are fields of a record."""
    names, fields, depth = set(), set(), None
    for line in text.split("\n"):
        indent = len(line) - len(line.lstrip())
        if RECORD.match(line):
            depth = indent
            continue
        if depth is not None and line.strip() and indent <= depth:
            depth = None
        m = DECLARED.match(line)
        if m and not MADE.match(m.group(2)):
            names.add(m.group(1))
            if depth is not None:
                fields.add(m.group(1))
    return names, fields


def imported(text, own):
    """The names that a file imports: from the repository's crates, and from elsewhere."""
    ours, others = set(), set()
    for line in text.split("\n"):
        m = IMPORT.match(line)
        if m:
            crate = m.group(1).split(".")[1] if m.group(1).startswith("Rattle.") else ""
            to = ours if crate in own else others
            to.update(n.strip().split(" as ")[0] for n in m.group(2).split(","))
    return ours, others


def main():
    own = set(os.listdir("crates"))
    texts = {p: open(p, encoding="utf-8").read() for p in files()}
    here = {p: declared(t) if p.endswith(".antt") else (set(), set()) for p, t in texts.items()}
    names = set().union(*(n for n, _ in here.values()))
    fields = set().union(*(f for _, f in here.values()))
    turns = {n: snake(n) for n in names if snake(n) != n}
    bad = [f"{n} and {m} fall together" for n, m in turns.items() if m in names]
    groups = collections.defaultdict(set)
    for n, m in turns.items():
        groups[m].add(n)
    for p, text in texts.items():
        ours, others = imported(text, own)
        bad += [f"{p}: {n} falls together with an imported name" for n in ours | here[p][0] if n in turns and turns[n] in others]
    bad += [f"{', '.join(sorted(g))} fall together" for g in groups.values() if len(g) > 1]
    if "--list" in sys.argv:
        print("\n".join(f"{n} {m}" for n, m in sorted(turns.items())))
    if bad:
        print("\n".join(sorted(bad)), file=sys.stderr)
        if "--list" not in sys.argv:
            raise SystemExit(1)
    if "--list" in sys.argv:
        return
    for p, text in texts.items():
        ours, others = imported(text, own)
        known = here[p][0] | ours

        def turn(m):
            dot, name = m.groups()
            if name not in turns or name in others:
                return m.group(0)
            if dot or name not in known:
                return dot + turns[name] if name in fields else m.group(0)
            return turns[name]

        new = TOKEN.sub(turn, text)
        if new != text:
            with open(p, "w", encoding="utf-8") as f:
                f.write(new)


if __name__ == "__main__":
    main()
