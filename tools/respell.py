#!/usr/bin/env python3
"""Brings the repository's own definitions and lemmas to today's spelling: words in snake case, types in camel case.

usage: python3 tools/respell.py [FOLDER]     FOLDER: the top of a checkout, by default the one that this file is in

The names and their new spellings are in respell.tsv beside this file. A name is turned where it stands alone, in the
.rt and .antt files of crates/ and in must-fail edits; in a file that imports the same name from a library it is left.
Run it once, after the kit's own scripts. A second run finds nothing.
"""

import os
import re
import sys

HERE = os.path.dirname(os.path.realpath(__file__))
# What may stand in a name. A name is turned only where none of these stands beside it.
LETTER = r"[^\s(){}\[\];,.:→\"`⟦⟧]"
IMPORT = re.compile(r"use (?:Rattle\.(?:std|core)|native|lib|Prim|borrow|logic|denote|mathlib)[\w.·]*\.\{([^}]*)\}")


def table():
    with open(os.path.join(HERE, "respell.tsv"), encoding="utf-8") as f:
        return dict(line.rstrip("\n").split("\t") for line in f if line.strip())


def main(argv):
    top = argv[0] if argv else os.path.dirname(HERE)
    names = table()
    word = re.compile(LETTER + "+")
    changed = 0
    for folder, dirs, files in os.walk(os.path.join(top, "crates")):
        dirs[:] = sorted(d for d in dirs if d != "out")
        for name in sorted(files):
            if not name.endswith((".rt", ".antt", ".edit")):
                continue
            path = os.path.join(folder, name)
            with open(path, encoding="utf-8") as f:
                before = f.read()
            library = {x.strip().split(" as ")[0] for m in IMPORT.finditer(before) for x in m[1].split(",")}
            after = word.sub(lambda m: m[0] if m[0] in library else names.get(m[0], m[0]), before)
            if after != before:
                with open(path, "w", encoding="utf-8") as f:
                    f.write(after)
                changed += 1
    print(f"respell: {changed} files")


if __name__ == "__main__":
    main(sys.argv[1:])
