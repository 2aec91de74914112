#!/usr/bin/env python3
"""Respells the names of this repository's own definitions and lemmas, once, after the language changed its spelling.

usage: python3 tools/port_names.py [ROOT]

tools/port_names.txt has a line for each name, the old and the new one. A name is turned wherever it stands as a whole in
specs/, in proofs/ and in the ghost lines and clauses of src/; comments and strings too, where they cite it. Functions of
src/ keep their names. In an answer a name that the checker makes, which is the one after `c.` or `goal.`, stays.
"""

import glob
import os
import re
import sys

HERE = os.path.dirname(os.path.realpath(__file__))
WORD = re.compile(r"(?<![\w'◌-])(?:(c|goal)\.)?([A-Za-z_][\w'◌]*(?:-[\w'◌]+)*)")


def table():
    with open(os.path.join(HERE, "port_names.txt"), encoding="utf-8") as lines:
        return dict(line.split() for line in lines)


def turned(text, names):
    def one(found):
        made, word = found.groups()
        if made:
            return found.group(0)
        return names.get(word, word)

    return WORD.sub(one, text)


def main(argv):
    root = argv[0] if argv else os.path.dirname(HERE)
    names = table()
    files = glob.glob(root + "/crates/*/s*/**/*.antt", recursive=True)
    files += glob.glob(root + "/crates/*/proofs/**/*.antt", recursive=True)
    files += glob.glob(root + "/crates/*/src/*.rt")
    changed = 0
    for path in sorted(files):
        with open(path, encoding="utf-8") as f:
            old = f.read()
        new = turned(old, names)
        if new != old:
            changed += 1
            with open(path, "w", encoding="utf-8") as f:
                f.write(new)
    print(f"{changed} files changed")


if __name__ == "__main__":
    main(sys.argv[1:])
