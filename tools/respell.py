#!/usr/bin/env python3
"""Gives the definitions and lemmas of this repository today's spelling.

usage: python3 tools/respell.py      at the top of the repository, once, right after the toolchain's port.py

Functions, lemmas and labels become snake case, types and facts camel case. Only names that a
specs/ or proofs/ file of this repository declares are turned; what Rattle makes of a goal, names of
the library, names of src/, strings and inputs stay. Names that would fall together are in APART.
"""

import os
import re

# A lemma that would get its function's name gets `_lem`.
APART = {
    name: name.replace("-", "_") + "_lem"
    for name in (
        "number-at truth-at join-spares window-spares column-fault field-fault depth-fault "
        "is-record with-row part-from"
    ).split()
}

DECLARED = re.compile(
    r"^\s*(?:(?:pub|abbrev|unfoldable|irreducible) )*(?:record |data )?([^\s:(){}.,;=]+)"
    r"(?:\s*[({][^)}]*[)}])*\s*:(?!=)\s*(.*)$"
)
GOAL = re.compile(r"(?:goal|need)\.")
WORD = re.compile(r'"(?:[^"\\]|\\.)*"|//.*|[^\W\d][\w\'-]*')
SPAN = re.compile(r"`[^`\n]+`")


def files(*ends):
    for folder, dirs, names in os.walk("crates"):
        dirs[:] = sorted(d for d in dirs if d != "out")
        for name in sorted(names):
            if name.endswith(ends):
                yield os.path.join(folder, name)


def read(path):
    with open(path, encoding="utf-8") as f:
        return f.read()


def spelled(name):
    """The name in today's spelling."""
    if name in APART:
        return APART[name]
    if name[0].isupper():
        return "".join(part[:1].upper() + part[1:] for part in re.split("[-_]", name))
    return re.sub("([a-z0-9])([A-Z])", lambda m: m[1] + "_" + m[2].lower(), name).replace("-", "_")


def declared():
    """The names that this repository declares, and those of them that Rattle made."""
    own, made = {}, set()
    for path in files(".antt"):
        for line in read(path).splitlines():
            found = DECLARED.match(line)
            if not found:
                continue
            name, kind = found.groups()
            if GOAL.match(kind):
                made.add(name)
            else:
                own.setdefault(name, path)
    return own, made


def turns():
    own, made = declared()
    turned = {n: spelled(n) for n in own if n not in made and n[0].isalpha() and spelled(n) != n}
    taken = {}
    for name in list(own):
        taken.setdefault(turned.get(name, name), []).append(name)
    for new, olds in sorted(taken.items()):
        if len(olds) > 1:
            print("falls together:", new, [(o, own[o]) for o in olds])
    return turned


def turn(text, turned):
    return WORD.sub(lambda m: turned.get(m[0], m[0]), text)


def main():
    turned = turns()
    for path in files(".antt", ".rt"):
        old = read(path)
        new = turn(old, turned)
        if new != old:
            with open(path, "w", encoding="utf-8") as f:
                f.write(new)
    for path in ["README.md"] + sorted("docs/" + n for n in os.listdir("docs") if n.endswith(".md")):
        old = read(path)
        new = SPAN.sub(lambda m: turn(m[0], turned), old)
        if new != old:
            with open(path, "w", encoding="utf-8") as f:
                f.write(new)
    print(len(turned), "names turned")


if __name__ == "__main__":
    main()
