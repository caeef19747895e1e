#!/usr/bin/env python3
"""Brings the names of this repository's own definitions and lemmas to the spelling of today's library.

usage: python3 tools/respell.py [FOLDER]    once, after the kit's port.py, at the top of the repository or of FOLDER

A word is in snake case, a dash joins two names, and a fact keeps the capital of its type. tools/respell-names.txt has a
line for each name: the one that port.py leaves, and the one that stands now. Names that the checker makes for its goals are
not among them. Functions, constants and texts of the programs keep their names: of a source file only what stands in a
clause or in a `ghost` item is read, and of an edit nothing.
"""

import os
import re
import sys

TOKEN = re.compile(r"(?<![\w'·◌«-])(\.?)([A-Za-z][\w'-]*)(?![\w'◌»])")
GHOST = re.compile(r"\bghost use [^;]*;|\b(?:requires|ensures)\*?\s*(?:\w+\s*)?\{|\bghost \w+\s*[:=]\s*\{")


def names():
    here = os.path.dirname(os.path.realpath(__file__))
    with open(os.path.join(here, "respell-names.txt"), encoding="utf-8") as f:
        return dict(line.split() for line in f)


def respelled(text, table):
    return TOKEN.sub(lambda m: m[1] + table.get(m[2], m[2]), text)


def closing(text, at):
    deep = 0
    for i in range(at, len(text)):
        deep += (text[i] == "{") - (text[i] == "}")
        if deep == 0:
            return i + 1
    return len(text)


def source(text, table):
    """A source file, of which only clauses and ghost items are respelled."""
    done, at = [], 0
    for m in GHOST.finditer(text):
        if m.start() < at:
            continue
        end = m.end() if m[0].endswith(";") else closing(text, m.end() - 1)
        done += [text[at : m.start()], respelled(text[m.start() : end], table)]
        at = end
    return "".join(done) + text[at:]


def main(top):
    table = names()
    for folder, folders, files in os.walk(os.path.join(top, "crates")):
        folders[:] = sorted(f for f in folders if f != "out")
        for name in sorted(files):
            turn = {".rt": source, ".antt": respelled}.get(os.path.splitext(name)[1])
            if turn is None:
                continue
            path = os.path.join(folder, name)
            with open(path, encoding="utf-8") as f:
                old = f.read()
            new = turn(old, table)
            if new != old:
                with open(path, "w", encoding="utf-8") as f:
                    f.write(new)


if __name__ == "__main__":
    main(sys.argv[1] if len(sys.argv) > 1 else ".")
