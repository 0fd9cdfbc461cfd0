#!/usr/bin/env python3
"""Turns names that the toolchain makes, in a crate's answers and invariants, to the spelling it makes today.

usage: tools/made_names.py CRATE        at the top

`rt check --generated` lists the names of each function's steps and goals. A name in proofs/F/ that differs from just one
of them in dashes and underscores alone is that one.
"""
import glob
import json
import os
import re
import subprocess
import sys
import tempfile

TOKEN = re.compile(r"[^\s(){}\[\];,.@]+")


def strings(value):
    if isinstance(value, str):
        yield value
    elif isinstance(value, list):
        for v in value:
            yield from strings(v)
    elif isinstance(value, dict):
        for k, v in value.items():
            yield k
            yield from strings(v)


def main():
    crate = sys.argv[1]
    folder = tempfile.mkdtemp()
    subprocess.run(["rt", "check", "--generated", folder, "--old-names"], cwd=f"crates/{crate}", capture_output=True)
    made = json.load(open(os.path.join(folder, "names.json"), encoding="utf-8"))
    for path in sorted(glob.glob(f"crates/{crate}/proofs/**/*.antt", recursive=True)):
        if os.path.basename(path) not in ("Answers.antt", "Invariants.antt", "Proof.antt"):
            continue
        key = f"Rattle-{crate}-proofs." + os.path.dirname(path)[len(f"crates/{crate}/proofs/"):].replace("/", ".")
        names = set()
        for k, v in made.items():
            if k == key or k.startswith(key + "."):
                for s in strings(v):
                    names.update(re.split(r"[.\s]+", s))
        names |= {way + n[2:] for n in names if n.startswith("if-") for way in ("then", "else")}
        alike = {}
        for n in names:
            alike.setdefault(n.replace("_", "-"), set()).add(n)

        def name(t):
            to = alike.get(t.replace("_", "-"), set())
            return next(iter(to)) if "-" in t and t not in names and len(to) == 1 else t

        def one(found):
            # a branch is named after the ways that lead to it
            return "".join(name(part) for part in re.split(r"(-via-|\+)", found.group(0)))

        text = open(path, encoding="utf-8").read()
        new = TOKEN.sub(one, text)
        if new != text:
            open(path, "w", encoding="utf-8").write(new)
            print(path)


main()
