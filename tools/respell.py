#!/usr/bin/env python3
"""Gives the repository's own definitions and lemmas the spelling of today's Rattle: words in snake case, as `emptyBoard` to `empty_board`.

usage: tools/respell.py     at the top of the repository, once, after port.py

The table tools/respell.tsv has a row for each name: old, a tab, new; a third column keeps the row to that file. A lemma whose name would
fall together with a definition's ends in _lem. Turned are whole names in crates/ (.antt, .rt, .edit), .ci/ and include/, and in the pages
(README.md, docs/) those between backticks. Code of src/ has no name of the table; its clauses and comments have.
"""
import os
import re
import sys

HERE = os.path.dirname(os.path.realpath(__file__))
NAME = re.compile(r"(?<![\w'′\-])[a-zA-Z][\w'′]*(?:-[\w'′]+)*(?![\w'′])")
SPAN = re.compile(r"`[^`\n]*`")


def table():
    everywhere, here = {}, {}
    with open(os.path.join(HERE, "respell.tsv"), encoding="utf-8") as f:
        for line in f:
            old, new, *where = line.rstrip("\n").split("\t")
            if where:
                here.setdefault(where[0], {})[old] = new
            else:
                everywhere[old] = new
    return everywhere, here


def texts(top):
    for root in ("crates", ".ci", "include", "docs"):
        for folder, dirs, files in os.walk(os.path.join(top, root)):
            dirs[:] = [d for d in dirs if d != "out"]
            for name in files:
                path = os.path.relpath(os.path.join(folder, name), top)
                if root != "crates" or name.endswith((".antt", ".rt", ".edit")):
                    yield path
    yield "README.md"


def main():
    everywhere, here = table()
    turned = 0
    for path in texts("."):
        rows = {**everywhere, **here.get(path, {})}
        with open(path, encoding="utf-8") as f:
            old = f.read()
        change = lambda m: rows.get(m.group(0), m.group(0))
        if path.endswith(".md"):
            new = SPAN.sub(lambda m: NAME.sub(change, m.group(0)), old)
        else:
            new = NAME.sub(change, old)
        if new != old:
            turned += 1
            with open(path, "w", encoding="utf-8") as f:
                f.write(new)
    print(f"respell: {turned} files turned")
    return 0


if __name__ == "__main__":
    sys.exit(main())
