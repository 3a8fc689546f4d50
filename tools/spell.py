#!/usr/bin/env python3
"""Spells this repository's own definitions and lemmas in snake case, after port.py; types, facts and modules keep their capitals.

usage: tools/spell.py       at the top of the repository, once

A name of specs/ or of a lemma file of proofs/ is turned: workLeft is work_left, and-left is and_left. A lemma that would then have the
name of a definition gets _lem. std's getD is get_or, so is its part of a lemma's name. The must-fail edits are turned with the text. Names
in Rust, exported names, strings, inputs and outputs stay.
"""

import collections
import os
import re
import sys

NAME = r'[^\s(){}.;,@"«»⌜⌝]+'
WORDS = "pub|abbrev|unfoldable|data|record"
DECLARED = re.compile(rf"^\s*((?:(?:{WORDS})\s+)*)({NAME})(?:\s+\{{[^{{}}\n]*\}}|\s+\([^()\n]*\))*\s+:\s", re.M)
TOKEN = re.compile(NAME)
USE = re.compile(r"^(?:ghost )?use ([\w.]+)\.\{([^}]*)\}", re.M)
GENERATED = ("Proof.antt", "Answers.antt", "Invariants.antt")


def texts():
    for folder, dirs, files in os.walk("crates"):
        dirs[:] = sorted(d for d in dirs if d != "out")
        for f in sorted(files):
            if f.endswith((".antt", ".rt", ".edit")):
                yield os.path.join(folder, f)


def read(path):
    with open(path, encoding="utf-8") as f:
        return f.read()


def snake(name):
    if not name[0].isupper():
        name = name.replace("getD", "get_or")
        name = re.sub(r"(?<=[a-z0-9])[A-Z]", lambda m: "_" + m[0].lower(), name)
    return name.replace("-", "_")


def main():
    if not os.path.isdir("crates"):
        raise SystemExit("spell: run it at the top of the repository")
    where = collections.defaultdict(set)
    for path in texts():
        if path.endswith(".antt") and not path.endswith(GENERATED):
            for m in DECLARED.finditer(re.sub(r"--.*", "", read(path))):
                where[m[2]].add("specs" if "/specs/" in path else "proofs")
    groups = collections.defaultdict(list)
    for name in sorted(where):
        groups[snake(name)].append(name)
    turned = {}
    for new, names in groups.items():
        # of names that fall together a definition of specs/ has the plain name, else the one that had it, else one with no dash
        names.sort(key=lambda n: ("specs" not in where[n], n != new, "-" in n, n))
        for i, name in enumerate(names):
            to = new if i == 0 else new + "_lem"
            if i > 1 or (i and to in groups):
                raise SystemExit(f"spell: {names} fall together")
            if to != name:
                turned[name] = to
    print(f"spell: {len(turned)} names")
    for name, to in sorted(turned.items()):
        if to.endswith("_lem"):
            print(f"spell: {name} is {to}")
    ours = set(os.listdir("crates"))
    changed = 0
    for path in texts():
        old = read(path)
        # a name that the file has from a library stays
        lent = {"Rattle"}
        for m in USE.finditer(old):
            if not (m[1].startswith("Rattle.") and m[1].split(".")[1] in ours):
                lent |= {name.strip() for name in m[2].split(",")}
        new = TOKEN.sub(lambda m: m[0] if m[0] in lent else turned.get(m[0], m[0]), old)
        if new != old:
            changed += 1
            with open(path, "w", encoding="utf-8") as f:
                f.write(new)
    print(f"spell: {changed} files")


if __name__ == "__main__":
    sys.exit(main())
