#!/usr/bin/env python3
"""Brings the names of definitions and lemmas of this repository to today's spelling.

usage: python3 tools/respell.py [--list]      at the top of a checkout, once, after the kit's port.py

A name is a definition's, a lemma's, a constructor's, a field's or a parameter's that stands before a colon in specs/ or proofs/. A dash inside such
a name becomes an underscore, a type's name becomes upper camel case. A dash beside an operator stays (introduced-++). Names of goals,
which the check makes from the code's own names, are no names of these, and neither are the library's. With --list it prints the
renamings and writes nothing. It stops if two names fall together.
"""
import os
import re
import sys

TOKEN = re.compile(r"[^\s(){}\[\];,.\"@|⌜⌝:=λ→«»]+")
HEAD = re.compile(r"^\s*(?:abbrev\s+pub\s+|pub\s+abbrev\s+|unfoldable\s+|pub\s+|abbrev\s+|data\s+|record\s+|constructor\s+)*([^\s(){}\[\];,.\"@|:=λ→«»]+)\s*(?:[({][^)}]*[)}]\s*)*:(?!=)\s*(.*)$")
BOUND = re.compile(r"(?:\blet |[({])([^\s(){}\[\];,.\"@|:=λ→«»]+) :(?!:)")
DASH = re.compile(r"(?<=[\w'])-(?=[\w'])")


def files(kinds):
    for folder, dirs, names in os.walk("crates"):
        dirs[:] = sorted(d for d in dirs if d != "out")
        for name in sorted(names):
            if name.endswith(kinds):
                yield os.path.join(folder, name)


def text(path):
    with open(path, encoding="utf-8") as f:
        return f.read()


def spelled(name):
    if name[0].isupper():
        return "".join(part[:1].upper() + part[1:] for part in name.split("-"))
    return DASH.sub("_", name)


def declared():
    """The names that are ours, and every name that stands anywhere."""
    ours, seen = set(), set()
    for path in files((".antt",)):
        for line in text(path).splitlines():
            # a path names functions, which may be spelled as a definition is
            seen.update(TOKEN.findall(re.sub(r"^\s*use [^{]*", "", line)))
            if line.lstrip().startswith("--"):
                continue
            ours.update(BOUND.findall(line))
            head = HEAD.match(line)
            if not head:
                continue
            name, kind = head.groups()
            # an answer's or an invariant's name is the check's
            if re.match(r"(goal|need|given|needs|goals|Goals)\b", kind) or re.match(r"\w+\.[A-Z][\w-]*[Gg]oal", kind):
                continue
            ours.add(name)
    return ours, seen


def library():
    """The names that some file takes from the library."""
    taken = set()
    for path in files((".antt", ".rt")):
        for line in text(path).splitlines():
            use = re.match(r"\s*(?:ghost )?use (Rattle\.std|borrow|lib|Prim|native|mathlib)\S*\{([^}]*)\}", line)
            if use:
                taken.update(w.strip().split(" as ")[-1] for w in use.group(2).split(","))
    return taken


def main():
    ours, seen = declared()
    taken = library()
    renamed = {n: spelled(n) for n in ours if "-" in n and spelled(n) != n and n not in taken}
    clash = {n: r for n, r in renamed.items() if r in seen or list(renamed.values()).count(r) > 1}
    if "--list" in sys.argv:
        for n in sorted(renamed):
            print(n, renamed[n])
        return 0
    if clash:
        print("these would fall together:", clash)
        return 1
    for path in files((".antt", ".rt")):
        old = text(path)
        new = "".join(turned(line, renamed, path.endswith(".rt")) for line in old.splitlines(keepends=True))
        if new != old:
            with open(path, "w", encoding="utf-8") as f:
                f.write(new)
    return 0


def turned(line, renamed, source):
    code = not source or line.lstrip().startswith(("ghost", "ensures", "requires", "invariant")) or "{ " in line
    return TOKEN.sub(lambda t: renamed.get(t.group(), t.group()), line) if code else line


if __name__ == "__main__":
    raise SystemExit(main())
