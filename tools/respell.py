#!/usr/bin/env python3
"""Respells the repository's own definitions and lemmas by the table tools/respell.txt.

usage: tools/respell.py        once, at the top of a checkout in which port.py ran

A line of the table is OLD NEW, or OLD NEW FILE.. for a name that changes in those files alone. Names are replaced as whole
words in the .antt and .rt files and the must-fail edits of crates/, and between backticks in the pages.
"""

import os
import re
import sys

HERE = os.path.dirname(os.path.abspath(__file__))
WORD = re.compile(r"""[^\s(){}\[\];,.@"`]+""")


def table():
    everywhere, within = {}, {}
    with open(os.path.join(HERE, "respell.txt"), encoding="utf-8") as f:
        for line in f:
            old, new, *files = line.split()
            if files:
                for path in files:
                    within.setdefault(path, {})[old] = new
            else:
                everywhere[old] = new
    return everywhere, within


def respelled(text, words, fields):
    def new(m):
        if not fields and m.start() > 0 and text[m.start() - 1] == ".":
            return m.group()
        return words.get(m.group(), m.group())

    return WORD.sub(new, text)


def main():
    top = os.path.dirname(HERE)
    everywhere, within = table()
    changed = 0
    for folder, dirs, files in os.walk(top):
        dirs[:] = [d for d in dirs if d not in (".git", "out", "target")]
        for name in files:
            path = os.path.join(folder, name)
            here = os.path.relpath(path, top)
            code = here.startswith("crates/") and name.endswith((".antt", ".rt", ".edit"))
            if not code and not name.endswith(".md"):
                continue
            with open(path, encoding="utf-8") as f:
                text = f.read()
            new = text
            if code:
                new = respelled(new, within.get(here, {}), False)
                new = respelled(new, everywhere, True)
            else:
                new = re.sub(r"`[^`\n]+`", lambda m: respelled(m.group(), everywhere, True), new)
            if new != text:
                with open(path, "w", encoding="utf-8") as f:
                    f.write(new)
                changed += 1
    print(f"{changed} files respelled", file=sys.stderr)


main()
