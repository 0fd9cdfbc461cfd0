#!/usr/bin/env python3
"""Respells this repository's definitions, lemmas and local names in snake case.

usage: tools/respell.py        at the top, once, right after port.py

Each line of tools/respelled.txt is an old and a new spelling. Whole names are replaced in the .antt files and in the
clauses of the .rt files. A name after a dot is one that the toolchain makes (`c.pairs-fit`), unless a record, a type
with variants or a module of ours stands before the dot. Code, comments and strings keep their spelling.
"""
import glob
import os
import re

HERE = os.path.dirname(os.path.abspath(__file__))
TABLE = dict(line.split() for line in open(os.path.join(HERE, "respelled.txt"), encoding="utf-8"))
# fields of our own records, and what else of ours is written with something before the dot
FIELDS = {"activity-table", "acts-are", "acts-long", "cells-read", "few-pairs", "or-few", "pair-table", "pairs-are", "pairs-long"}
OWNERS = {"Crowded", "Misplaced", "Unpaired", "ledgers", "points"}
NAME = re.compile(r"([^\s(){}\[\];,.@]+\.)?([^\s(){}\[\];,.@]+)")


def respelled(text):
    def one(found):
        before, name = found.group(1) or "", found.group(2)
        start = found.start(2)
        dotted = start > 0 and text[start - 1] == "."
        if name in TABLE and (not dotted or name in FIELDS or before[:-1] in OWNERS):
            name = TABLE[name]
        if before[:-1] in TABLE and text[:found.start()][-1:] != ".":
            before = TABLE[before[:-1]] + "."
        return before + name

    return NAME.sub(one, text)


def lines_of_antt(text):
    # a comment keeps its words, but for names in `..`
    def line(l):
        if l.lstrip().startswith("--"):
            return re.sub(r"`([^`]+)`", lambda m: "`" + TABLE.get(m.group(1), m.group(1)) + "`", l)
        return respelled(l)

    return "\n".join(line(l) for l in text.split("\n"))


def lines_of_rt(text):
    out, inside = [], False
    for l in text.split("\n"):
        s = l.strip()
        if re.match(r"(pub )?ghost |requires|ensures", s):
            inside = True
        out.append(respelled(l) if inside and not s.startswith("//") else l)
        if inside and (s.endswith("}") or s.endswith(";") or s.endswith(",")):
            inside = False
    return "\n".join(out)


def main():
    for path in sorted(glob.glob("crates/*/**/*.antt", recursive=True) + glob.glob("crates/*/src/**/*.rt", recursive=True)):
        old = open(path, encoding="utf-8").read()
        new = lines_of_antt(old) if path.endswith(".antt") else lines_of_rt(old)
        if new != old:
            open(path, "w", encoding="utf-8").write(new)


main()
