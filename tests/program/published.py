#!/usr/bin/env python3
"""Runs asn_tool on published modules: those of examples/published, and hostile texts.

usage: tests/program/published.py PROGRAM

published.txt has what each command answers to the examples. published_reports.txt has the reports of modules that are
too large, have faults or need others. published_texts.txt has the kinds of hostile texts. The program answers each, or
refuses it with a line. bench/hostile.py measures how its time grows with such a text.
"""
import os

from published_texts import kinds, written
from run import expand, script


def examples(test):
    os.chdir("examples/published")
    test.cases("published.txt")


def assignments(module):
    """The lines of a module that flatten wrote, without its first, its last and those of types."""
    return [it for it in module[1:-1] if not it.startswith("--")]


def one_type(test):
    """`flatten --type` writes the lines of a type and of those that it leads to, and reports on these."""
    os.chdir("examples/published")
    whole = test.run("flatten report.asn common.asn").out.decode().splitlines()
    for line in assignments(whole):
        name = line.partition(" ::=")[0]
        ran = test.run(f"flatten --type {name} report.asn common.asn")
        types, report = ran.out.decode().splitlines(), ran.err.decode().splitlines()
        test.add(ran.status == 0 and line in types and {*types} <= {*whole}, f"flatten --type {name}: {ran[:3]}")
        count = sum(int(it.rpartition(" ")[2]) for it in report if not it.startswith("not the same: "))
        many = len(assignments(types))
        test.add(count == many, f"flatten --type {name}: {many} types, and {count} in the report")


def hostile(test):
    for name, kind in kinds().items():
        size = 2 * kind.half
        ran = test.run(["flatten", "--report", "text", *written(kind, size)], ends=500, most=kind.most)
        first = ran.err.split(b"\n")[0]
        if kind.first:
            test.add(first.decode() == expand(kind.first, n=size), f"{name}: {first}")
        is_answer = ran.status in (0, 1) and ran.out.endswith(b"END\n")
        is_refusal = ran.status == 2 and (not ran.out and b".asn:" in first or first.startswith(b"not read: "))
        test.add(is_answer or is_refusal, f"{name}: {ran[:3]}")


script(__doc__, examples, "published_reports.txt", one_type, hostile)
