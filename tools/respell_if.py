#!/usr/bin/env python3
"""Gives our choice between two values a name of its own, `If◌then◌else◌`: today's library has an `if◌then◌else◌`, which chains and unfolds otherwise.

usage: tools/respell_if.py     at the top of the repository; a second run changes nothing

Turned are the name itself, and `if` where a line of code of a file that has the name begins a choice; comments and strings stay.
"""
import os
import re
import sys

OLD, NEW = "if◌then◌else◌", "If◌then◌else◌"
CHOICE = re.compile(r"(?<![\w'.`-])if(?=[ \n])")

CLAUSE = re.compile(r"(?m)^ +(?:ensures|requires)\b.*$")


def turned(text):
    lines = []
    for line in text.split("\n"):
        code, dash, comment = line.partition("--")
        lines.append(CHOICE.sub("If", code.replace(OLD, NEW)) + dash + comment)
    return "\n".join(lines)


def main():
    changed = 0
    for folder, dirs, files in os.walk("crates"):
        dirs[:] = [d for d in dirs if d != "out"]
        for name in files:
            path = os.path.join(folder, name)
            if not name.endswith((".antt", ".rt", ".edit")):
                continue
            with open(path, encoding="utf-8") as f:
                old = f.read()
            new = old
            if name.endswith(".antt") and (OLD in old or NEW in old):
                new = turned(old)
            elif name.endswith(".rt"):
                new = CLAUSE.sub(lambda m: CHOICE.sub("If", m.group(0)), old.replace(OLD, NEW)) if OLD in old else old
            elif name.endswith(".edit"):
                into_antt = False
                lines = []
                for line in old.split("\n"):
                    if line.startswith("file:"):
                        into_antt = line.endswith(".antt")
                    if into_antt and line.startswith(("old:", "new:")):
                        line = CHOICE.sub("If", line.replace(OLD, NEW))
                    lines.append(line)
                new = "\n".join(lines)
            if new != old:
                changed += 1
                with open(path, "w", encoding="utf-8") as f:
                    f.write(new)
    print(f"respell_if: {changed} files turned")
    return 0


if __name__ == "__main__":
    sys.exit(main())
