#!/usr/bin/env python3
"""Respells this repository's `if◌then◌else◌` as `when◌then◌else◌`: the name is the library's today, and `rt ci` refuses another definition of it.

usage: python3 tools/port/when.py [FOLDER]     once, after respell.py; rewrites files in place
"""

import os
import re
import sys

from respell import TOKEN, files

OLD, NEW = "if◌then◌else◌", "when◌then◌else◌"


def code_of(line, mark):
    """The line's code and its comment."""
    i = line.find(mark)
    return (line, "") if i < 0 else (line[:i], line[i:])


def main(argv):
    root = os.path.abspath(argv[0] if argv else ".")
    changed = 0
    for p in files(root, ".antt", ".rt", ".edit"):
        with open(p, encoding="utf-8") as f:
            old = f.read()
        if OLD not in old and not p.endswith(".edit"):
            continue
        lines = []
        for line in old.replace(OLD, NEW).split("\n"):
            code, comment = code_of(line, "--") if p.endswith(".antt") else (line, "")
            clause = p.endswith(".antt") or (p.endswith(".rt") and re.match(r"\s*(requires|ensures)\b", line)) or (p.endswith(".edit") and re.match(r"(old|new): ", line) and "file: src/" not in old)
            if clause:
                code = TOKEN.sub(lambda m: "when" if m[0] == "if" else m[0], code)
            lines.append(code + comment)
        new = "\n".join(lines)
        if new != old:
            changed += 1
            with open(p, "w", encoding="utf-8") as f:
                f.write(new)
    print(f"{changed} files")
    return 0


if __name__ == "__main__":
    raise SystemExit(main(sys.argv[1:]))
