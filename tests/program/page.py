#!/usr/bin/env python3
"""Builds and runs the blocks of Rattle of the pages that a user reads, and compares what each prints.

usage: tests/program/page.py ROOM      ROOM is a folder to build in, as builder/room.py takes it

The pages are crates/tulvorn/README.md, whose blocks marked `rust` are Rattle and the first the head of a program, and
README.md and docs/GUIDE.md, whose blocks marked `rust rattle` are, and of which lines `use ..` go to the head. The
other blocks of a page, one after the other, are the body of a function. TEXT is the module of the page. A block prints
what the next block marked `text` has, if one follows before the next block of Rattle. All are one program of one room,
built without a proof.
"""
import os
import re
import sys

import run

sys.path.insert(0, f"{run.TOP}/builder")
import room  # noqa: E402

BREAK = "===="
USES = "test_page: tulvorn anyhow hex\n"
PAGES = ["README.md", "docs/GUIDE.md"]
REFERENCE = "crates/tulvorn/README.md"


def all_blocks(page):
    """The blocks of a page: how each is marked, and its text."""
    return re.findall(r"^```([^\n]*)\n(.*?)^```$", run.text_of(f"{run.TOP}/{page}"), re.M | re.S)


def blocks_of(page, kind):
    """The blocks that are marked so, each with what it prints."""
    found, is_open = [], False
    for marked, text in all_blocks(page):
        if marked == kind:
            found.append([text, ""])
            is_open = True
        elif marked == "text" and is_open:
            found[-1][1], is_open = text, False
    return found


def module_of(page):
    """The module of a page: of the guide its own, else examples/rows.asn."""
    own = [text for kind, text in all_blocks(page) if kind == "asn1" and "DEFINITIONS" in text]
    return own[0] if own else run.text_of(f"{run.TOP}/examples/rows.asn")


def hoisted(code):
    """The lines of a block that go to the head of a program, and the others."""
    heads = re.findall(r"^use .*\n", code, re.M)
    return "".join(heads), re.sub(r"^use .*\n", "", code, flags=re.M)


def in_rattle(codes):
    """The blocks inside a function, as they are, since a text may have several lines. A line prints where each ends."""
    return "".join(f'{code}    println!(rt; "{BREAK}")?;\n' for code in codes)


def function(page, blocks):
    """The file of a page whose blocks are the body of a function."""
    heads, bodies = zip(*[hoisted(code) for code, _ in blocks])
    text = module_of(page).replace("\\", "\\\\").replace('"', '\\"')
    head = f"//! The blocks of {page}.\n\n{''.join(heads)}\nconst TEXT: &str = \"{text}\";\n"
    if "Result" not in heads[0].partition("anyhow::")[2].partition(";")[0]:
        head = head.replace("use anyhow::Context;", "use anyhow::{Context, Result};")
    start = "pub fn shown(rt: &HostRuntime) -> Result<()> {\n    let alloc = rt.alloc();\n"
    return f"{head}\n{start}{in_rattle(bodies)}    Ok(())\n}}\n"


def programs():
    """The files of the program, and what each of its blocks has to print."""
    head, *tasks = blocks_of(REFERENCE, "rust")
    pages = {f"page_{index}": (page, blocks_of(page, "rust rattle")) for index, page in enumerate(PAGES)}
    calls = "".join(f"    {name}::shown(&rt)?;\n" for name in pages)
    modules = "".join(f"mod {name};\n" for name in pages)
    body = calls + in_rattle(code for code, _ in tasks)
    main = f"//! The blocks of {REFERENCE}.\n#![tactic(auto)]\n\n{modules}\n{head[0]}\n"
    main += f"fn main(rt: HostRuntime) -> Result<()> {{\n{body}    Ok(())\n}}\n"
    files = {f"{name}.rt.in": function(page, blocks) for name, (page, blocks) in pages.items()}
    wanted = [printed for _, blocks in pages.values() for _, printed in blocks] + [printed for _, printed in tasks]
    return {"main.rt.in": main, **files, "uses": USES}, wanted


def compare(test, name, found, wanted):
    """Compares what the blocks of a program print with what they have to print, and that nothing follows."""
    found = found.split(f"{BREAK}\n")
    for index, want in enumerate([*wanted, ""]):
        have = found[index] if index < len(found) else "nothing\n"
        test.add(have == want, f"{name}, block {index + 1} prints\n{have}and not\n{want}")


def rattle(test):
    files, wanted = programs()
    folder = f"{test.words[0]}/page"
    os.makedirs(folder, exist_ok=True)
    for name, text in files.items():
        run.write(f"{folder}/{name}", text)
    is_built = room.main(["build", test.words[0], folder]) == 0
    if test.add(is_built, "the blocks are not built"):
        ran = run.run([f"{test.words[0]}/test_page"])
        compare(test, "Rattle", ran.out.decode() if ran.status == 0 else f"status {ran.status}", wanted)


if __name__ == "__main__":
    run.script(__doc__, rattle)
