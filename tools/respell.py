#!/usr/bin/env python3
"""Brings the names of definitions, lemmas, fields and constructors to one spelling: words in snake case.

usage: python3 tools/respell.py [--dry]     at the top of the repository, once, after port.py

A name that begins with a capital is a type or a fact and keeps its spelling. So do functions of src/, exported names,
strings, inputs and outputs, and goals, which are named by the code. Only names that a file of specs/, or one right in proofs/,
declares are turned. Where a lemma's name falls together with a definition's, the lemma's ends in _lem.
"""

import os
import re
import sys

ENDS = r"\s(){}\[\],;.λ:=→×\"`«»"
TOKEN = re.compile(rf"[^{ENDS}]+")
DECLARED = re.compile(r"^[ ]*(?:(?:abbrev|unfoldable|pub|postulate|private)\s+)*([^\s(){}\[\],;.:]+)(?: \{[^}]*\})*\s+:\s")
RULESET = re.compile(r"^(?:pub )?ruleset ([^\s=]+)")


def snake(name):
    if not re.fullmatch(r"[A-Za-z0-9_'ℓ₀-₉-]+", name) or not name[0].islower():
        return name
    name = name.replace("-", "_")
    return re.sub(r"(?<=[a-z0-9])([A-Z])", lambda m: "_" + m.group(1).lower(), name)


def files(root, endings):
    for folder, dirs, names in os.walk(root):
        dirs[:] = sorted(d for d in dirs if d not in ("out", ".git", "target"))
        for n in sorted(names):
            if n.endswith(endings):
                yield os.path.join(folder, n)


def read(path):
    with open(path, encoding="utf-8") as f:
        return f.read()


def lemma_file(path):
    parts = path.split(os.sep)
    at = parts.index("crates")
    return parts[at + 2] == "specs" or (parts[at + 2] == "proofs" and len(parts) == at + 4)


def declared(root):
    names = {}
    for p in files(os.path.join(root, "crates"), ".antt"):
        if not lemma_file(p):
            continue
        for line in read(p).splitlines():
            if line.lstrip().startswith(("--", "use ", "pub use ", "module ", "let ")):
                continue
            for m in (DECLARED.match(line), RULESET.match(line)):
                if m and len(line) - len(line.lstrip()) <= 12:
                    names.setdefault(m.group(1), set()).add(p)
    return names


def crate_names(root):
    return set(os.listdir(os.path.join(root, "crates")))


def foreign(root):
    """Names that come from a library that is not of this repository."""
    own = crate_names(root)
    found = set()
    for p in files(os.path.join(root, "crates"), (".antt", ".rt")):
        for m in re.finditer(r"use ([\w.·'-]+)\.\{([^}]*)\}", read(p)):
            parts = m.group(1).split(".")
            if parts[0] == "Rattle" and len(parts) > 1 and parts[1] in own:
                continue
            for n in m.group(2).split(","):
                found.add(n.strip().split(" as ")[0])
    return found


# A lemma whose name falls together with a definition's, or a field with a lemma's in its own file, gets _lem.
ALSO = {"not_full": "not_full_lem", "front_length": "front_length_lem"}


# Words of the library that edits cite.
LIBRARY = {"getD": "get_or"}


def table(root):
    """Old names and new ones. Where a definition `entryBits` and a lemma `entry-bits` fall together, the lemma is `entry_bits_lem`."""
    names, outside = declared(root), foreign(root)
    turned, look = {}, []
    for n in sorted(names, key=lambda n: ("-" in n, n)):
        new = snake(n)
        if new == n:
            continue
        taken = new in turned.values() or ("-" in n and new in names) or new in outside
        turned[n] = new + "_lem" if taken else new
        if taken:
            look.append((n, turned[n], new + " is taken"))
        if n in outside:
            look.append((n, turned[n], "a library has it too"))
    turned |= {o: n for o, n in ALSO.items() if o in names and any(o == v for v in turned.values())}
    return turned, look


def turn(text, names):
    return TOKEN.sub(lambda m: names.get(m.group(0), m.group(0)), text)


def turn_edit(text, names, now):
    """An edit, which port.py leaves alone: its names too, and projections without a space."""
    def word(m):
        w = m.group(0)
        return w if w in now else snake(w) if snake(w) in now else LIBRARY.get(w, w)

    text = TOKEN.sub(word, turn(text, names))
    if re.search(r"(?m)^file: (specs|proofs)/", text):
        text = re.sub(r" \.(?=[a-z0-9])", ".", text)
    return text


def main():
    root = os.getcwd()
    names, left = table(root)
    for old, new, why in left:
        print(f"look: {old} -> {new}: {why}")
    print(f"{len(names)} names")
    if "--dry" in sys.argv:
        for o, n in sorted(names.items()):
            print(o, n)
        return
    for p in files(os.path.join(root, "crates"), (".antt", ".rt")):
        write(p, turn(read(p), names))
    now = set(declared(root)) | {n for n in names.values()}
    for p in files(os.path.join(root, "crates"), ".edit"):
        write(p, turn_edit(read(p), names, now))


def write(p, new):
    if new != read(p):
        with open(p, "w", encoding="utf-8") as f:
            f.write(new)


main()
