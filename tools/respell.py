#!/usr/bin/env python3
"""Brings this repository's own names of definitions and lemmas to the spelling of today's Rattle.

usage: python3 tools/respell.py [ROOT]

Each line of respelled.txt beside this script is an old name and the new one: facts and types in upper camel case, all
else in snake case, but for a dash that joins the names of two functions, as in length-laid. The names are turned in
crates/: in .antt files, in clauses of .rt files and in must-fail edits, and neither in comments nor in strings. Code has
none of the old names, since a dash is no letter there. It was run once, right after the toolchain's own script.
"""

import os
import re
import sys

HERE = os.path.dirname(os.path.realpath(__file__))
WORD = re.compile(r"[^\s(){}.,;:λ⌜⌝\[\]|«»\"`]+")
SKIPPED = {
    ".antt": re.compile(r"--[ !|].*|--$", re.M),
    ".rt": re.compile(r"//.*|b?\"(?:[^\"\\]|\\.)*\""),
    ".edit": re.compile(r"b?\"(?:[^\"\\]|\\.)*\""),
}


def table():
    with open(os.path.join(HERE, "respelled.txt"), encoding="utf-8") as lines:
        return dict(line.split() for line in lines if line.strip())


def turned(text, skipped, names):
    """The text with the names turned, but for the parts that are skipped."""
    parts, at = [], 0
    for m in skipped.finditer(text):
        parts += [WORD.sub(lambda w: names.get(w[0], w[0]), text[at : m.start()]), m[0]]
        at = m.end()
    return "".join(parts) + WORD.sub(lambda w: names.get(w[0], w[0]), text[at:])


def main(root):
    names = table()
    for folder, dirs, files in os.walk(os.path.join(root, "crates")):
        dirs[:] = sorted(d for d in dirs if d != "out")
        for file in sorted(files):
            skipped = SKIPPED.get(os.path.splitext(file)[1])
            if skipped is None:
                continue
            path = os.path.join(folder, file)
            with open(path, encoding="utf-8") as f:
                text = f.read()
            new = turned(text, skipped, names)
            if new != text:
                with open(path, "w", encoding="utf-8") as f:
                    f.write(new)


if __name__ == "__main__":
    main(sys.argv[1] if len(sys.argv) > 1 else os.path.dirname(HERE))
