#!/usr/bin/env python3
"""Inputs for tests/fuzz/calls.sh, of the rows of tests/programs/rows: a file for each input, in a folder for each kind.

usage: tests/fuzz/corpus.py FOLDER

The first octet of a message or of JSON chooses the type of the program tests/fuzz/calls; a row of whatever type is tried as
one of each fourth of them.
"""
import os
import sys

TOP = os.path.dirname(os.path.dirname(os.path.dirname(os.path.abspath(__file__))))
TYPES = 16
LONG = 100


def written(folder, kind, inputs):
    os.makedirs(f"{folder}/{kind}")
    for index, text in enumerate(sorted(inputs)):
        with open(f"{folder}/{kind}/{index:04}", "wb") as it:
            it.write(text)


def main(folder):
    with open(f"{TOP}/tests/programs/rows/stdin", encoding="utf-8") as it:
        module, _, rows = it.read().partition("====\n")
    octets, values, modules = set(), set(), set()
    for index, row in enumerate(rows.splitlines()):
        kind, *cells = (it.strip() for it in row.split("|"))
        kinds = range(index % 4, TYPES, 4)
        messages = {"value": cells[2:4], "per": cells[1:2], "oer": cells[1:2]}.get(kind, [])
        for number, cell in enumerate(messages):
            if not set(cell) - set("0123456789abcdef") and len(cell) < 2 * LONG:
                high = 128 if kind == "oer" or number else 0
                octets |= {bytes([high + it]) + bytes.fromhex(cell) for it in kinds}
        if kind == "value" and len(cells[1]) < LONG:
            values |= {bytes([it]) + cells[1].encode() for it in kinds}
        if kind == "value" and cells[0][0].isupper() and len(cells[0]) < LONG:
            modules.add(f"M DEFINITIONS AUTOMATIC TAGS ::= BEGIN T ::= {cells[0]} END".encode())
    for line in module.splitlines():
        if "::=" in line and "DEFINITIONS" not in line and len(line) < 2 * LONG and line.count("{") == line.count("}"):
            modules.add(f"M DEFINITIONS AUTOMATIC TAGS ::= BEGIN {line} END".encode())
    written(folder, "octets", octets)
    written(folder, "json", values)
    written(folder, "module", modules)


if __name__ == "__main__":
    main(sys.argv[1])
