#!/usr/bin/env python3
"""Lists the goals of a crate at which the checker's search took the most steps, the longest first.

usage: tests/tools/slow_goals.py CRATE [COUNT]      after a check of the crate; COUNT is 20 by default

Each module with such goals has a line with the million steps of its searches (2 to 3 million are a second), and so has
each goal. An answer by hand instead of such a search makes the crate faster to prove. The steps are read from
crates/CRATE/out/incremental. Their format is the kit's own: if a kit has another one, nothing is listed.
"""
import glob
import os
import re
import sys

RECORD = re.compile(rb'\{"aux":(\[.*?\]),"[^{}]*?"steps":\[([\d,]+)\]')
GOAL = re.compile(rb'"Rattle-\w+-proofs\.([^"]+?)\.where\.')


def searched(file):
    """Of each goal of a module that was searched its name and the steps."""
    with open(file, "rb") as it:
        for aux, steps in RECORD.findall(it.read()):
            name = GOAL.search(aux)
            if name:
                yield name[1].decode(errors="replace"), sum(map(int, steps.split(b",")))


def main(words):
    os.chdir(os.path.join(os.path.dirname(os.path.abspath(__file__)), "../.."))
    if not 1 <= len(words) <= 2 or not words[-1].isdecimal() == (len(words) == 2):
        sys.exit(__doc__)
    count = int(words[1]) if len(words) == 2 else 20
    found = {}
    for file in glob.glob(f"crates/{words[0]}/out/incremental/*/records/*Proof.decls.oantt"):
        for name, steps in searched(file):
            found[name] = max(steps, found.get(name, 0))
    modules = {}
    for name, steps in found.items():
        module = name.partition(".Proof.")[0]
        modules[module] = modules.get(module, 0) + steps
    for title, of in (("modules", modules), ("goals", found)):
        print(f"{title}, in millions of steps:")
        for name, steps in sorted(of.items(), key=lambda it: -it[1])[:count]:
            print(f"{steps / 1e6:8.1f} {name.replace('.Proof.', ': ')}")


if __name__ == "__main__":
    main(sys.argv[1:])
