#!/usr/bin/env python3
"""Respells this repository's own definitions and laws: words in snake case, types and modules in camel case.

usage: python3 tools/port/respell.py [FOLDER]     once, after the kit's port.py; rewrites files in place
       python3 tools/port/respell.py --list       the names, old and new, and names that would fall together

Names that crates/*/specs and crates/*/proofs define are turned wherever they stand in .antt, .rt, .edit and .md files.
Functions of src/, exported names, strings, inputs and outputs have no name in mixed case, and stay.
"""

import glob
import os
import re
import sys

NAME = r"[^\W\d][\w'\-₀-₉]*"
TOKEN = re.compile(NAME)
DEFINED = re.compile(r"^\s*(?:pub |abbrev |unfoldable |data |record |ruleset )*(" + NAME + r")(?: [^\n=]*)? :(?: |$)", re.M)
# Fields of records that contracts cite: Rust identifiers.
FIELDS = ["across-phase", "down-phase", "luma-right", "cb-right", "cr-right", "in-range", "on-left", "on-right", "same-cols", "wide-some", "high-some"]
# Where the plain rule would let a name fall together with another one.
BY_HAND = {"getD-listOf": "get_or-list_of"}
# Laws that have the new name of the definition that they are about.
LAWS = ["each_at", "pair_read", "all_left", "same_bits", "scaled_at", "toward_zero"]


def snake(part):
    """A part of a name between dashes; a part that begins with a capital is a type, and stays."""
    if not re.match(r"[a-z].*[A-Z]", part):
        return part
    return re.sub(r"_*([A-Z])", lambda m: "_" + m[1].lower(), part)


def files(root, *endings):
    for e in endings:
        yield from sorted(p for p in glob.glob(os.path.join(root, "crates", "**", "*" + e), recursive=True) if "/out/" not in p)


def names(root):
    found = set()
    for p in files(root, ".antt"):
        with open(p, encoding="utf-8") as f:
            found |= set(DEFINED.findall(re.sub(r"--.*", "", f.read())))
    turned = {n: "-".join(snake(x) for x in n.split("-")) for n in found}
    turned = {n: m for n, m in turned.items() if n != m}
    turned.update({n: n.replace("-", "_") for n in FIELDS})
    turned.update(BY_HAND)
    turned.update({n: n + "_lem" for n in LAWS})
    return turned


def clashes(root, turned):
    """New names that some .antt or .rt file already has, and old names that become one."""
    new = {}
    for n, m in turned.items():
        new.setdefault(m, []).append(n)
    out = [f"{m}: {', '.join(sorted(ns))} become one" for m, ns in sorted(new.items()) if len(ns) > 1]
    for p in files(root, ".antt", ".rt"):
        with open(p, encoding="utf-8") as f:
            text = re.sub(r"(--|//).*", "", f.read())
        out += [f"{m}: stands already in {os.path.relpath(p, root)}" for m in sorted(set(TOKEN.findall(text)) & set(new))]
    return out


def main(argv):
    listing = "--list" in argv
    rest = [a for a in argv if a != "--list"]
    root = os.path.abspath(rest[0] if rest else ".")
    turned = names(root)
    if listing:
        print("\n".join(f"{n} {m}" for n, m in sorted(turned.items())))
        print("\n".join(clashes(root, turned)))
        return 0
    pages = [os.path.join(root, "README.md"), *sorted(glob.glob(os.path.join(root, "docs", "*.md")))]
    changed = 0
    for p in [*files(root, ".antt", ".rt", ".edit"), *pages]:
        with open(p, encoding="utf-8") as f:
            old = f.read()
        new = TOKEN.sub(lambda m: turned.get(m[0], m[0]), old)
        if new != old:
            changed += 1
            with open(p, "w", encoding="utf-8") as f:
                f.write(new)
    print(f"{len(turned)} names, {changed} files")
    return 0


if __name__ == "__main__":
    raise SystemExit(main(sys.argv[1:]))
