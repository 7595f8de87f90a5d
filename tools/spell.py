#!/usr/bin/env python3
"""Brings the repository's own definitions and lemmas to snake case, by the table beside this script.

usage: python3 tools/spell.py            at the top of the repository: respells every .antt file, and the clauses and ghost lines of every .rt file
       python3 tools/spell.py --table T  with the table T

A line of the table is OLD, a tab, NEW. A name stands between what separates names in a proof file; a name of which OLD is only a part stays.
What stands in code, in strings and in must-fail edits stays too. Run it once: some new names stand as old ones in the table.
"""

import os
import re
import sys

HERE = os.path.dirname(os.path.realpath(__file__))
NAME = re.compile(r"[^\s(){}\[\],;.\"`|◌]+")


def respelled(text, table):
    return NAME.sub(lambda m: table.get(m.group(0), m.group(0)), text)


def clauses(text, table):
    """Respells the ghost lines of a source, and what stands in the braces of its clauses."""
    out, i = [], 0
    start = re.compile(r"^ *ghost use [^;]*;|\b(requires|ensures)( \w+)? \{", re.M)
    while m := start.search(text, i):
        out.append(text[i : m.start()])
        end = m.end()
        if m.group(1):
            depth = 1
            while depth:
                depth += {"{": 1, "}": -1}.get(text[end], 0)
                end += 1
        out.append(respelled(text[m.start() : end], table))
        i = end
    return "".join(out) + text[i:]


def main():
    path = sys.argv[2] if sys.argv[1:2] == ["--table"] else os.path.join(HERE, "spelling.tsv")
    with open(path, encoding="utf-8") as f:
        table = dict(line.rstrip("\n").split("\t") for line in f)
    for folder, dirs, files in os.walk("crates"):
        dirs[:] = sorted(d for d in dirs if d != "out")
        for name in sorted(files):
            turn = {".antt": respelled, ".rt": clauses}.get(os.path.splitext(name)[1])
            if turn:
                p = os.path.join(folder, name)
                with open(p, encoding="utf-8") as f:
                    old = f.read()
                new = turn(old, table)
                if new != old:
                    with open(p, "w", encoding="utf-8") as f:
                        f.write(new)


main()
