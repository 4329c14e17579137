#!/usr/bin/env python3
"""Measures how much stack each call of the library takes, for types of the greatest depth.

usage: bench/bindings/stack.py LIBRARY     the folder in which bindings/build.py left the library

For each call it prints the most bytes that any of the types below takes, and the type. Then it does so for texts that are
nested far deeper, which the library rejects. It needs gcc.
"""
import os
import subprocess
import sys
import tempfile

HERE = os.path.dirname(os.path.abspath(__file__))
HEADERS = f"{os.path.dirname(os.path.dirname(HERE))}/bindings/c"
COMPONENT = "(WITH COMPONENTS {{..., a {0}}})"
# a type around a type, a value around its value, and a constraint around its constraint
AROUND = {
    "SEQUENCE": ("SEQUENCE {{ a {0} }}", '{{"a":{0}}}', COMPONENT),
    "OPTIONAL": ("SEQUENCE {{ a {0} OPTIONAL, b BOOLEAN DEFAULT TRUE }}", '{{"a":{0}}}', COMPONENT),
    "addition": ("SEQUENCE {{ b BOOLEAN, ..., a {0} OPTIONAL }}", '{{"b":true,"a":{0}}}', COMPONENT),
    "CHOICE": ("CHOICE {{ a {0}, b NULL }}", '{{"a":{0}}}', "(WITH COMPONENTS {{a {0}, b}})"),
    "alternative after the extension mark": ("CHOICE {{ b NULL, ..., a {0} }}", '{{"a":{0}}}',
                                             "(WITH COMPONENTS {{b, a {0}}})"),
    "SEQUENCE OF": ("SEQUENCE OF {0}", "[{0}]", "(WITH COMPONENT {0})"),
    "SEQUENCE OF (SIZE (0..3))": ("SEQUENCE (SIZE (0..3)) OF {0}", "[{0}]", "(WITH COMPONENT {0})"),
}
# what is innermost, and a value of it
INNERMOST = {
    "INTEGER": ("INTEGER", "-7"),
    "ENUMERATED": ("ENUMERATED { x, y, ..., z }", '"z"'),
    "UTF8String": ("UTF8String", '"text"'),
    "IA5String": ("IA5String", '"text"'),
    "BIT STRING": ("BIT STRING", '"101"'),
    "OCTET STRING": ("OCTET STRING", '"00ff"'),
}
LEVELS = 64


def deep(around, innermost, levels):
    """A type of at most that many levels, whose kinds take turns, a value of it, and a constraint that the innermost
    INTEGER meets. A SEQUENCE OF takes two levels."""
    outside = []
    left = levels - 1
    while left >= (2 if (name := around[len(outside) % len(around)]).startswith("SEQUENCE OF") else 1):
        outside.append(AROUND[name])
        left -= 2 if name.startswith("SEQUENCE OF") else 1
    kind, value = INNERMOST[innermost]
    constraint = "(-9..-1 | 3)"
    for of_type, of_value, of_constraint in reversed(outside):
        kind, value, constraint = of_type.format(kind), of_value.format(value), of_constraint.format(constraint)
    return kind, value, constraint


def subjects():
    """The types, each with a name."""
    for around in [(it,) for it in AROUND] + [("addition", "SEQUENCE OF"), ("SEQUENCE", "CHOICE", "SEQUENCE OF"),
                                              ("alternative after the extension mark", "addition")]:
        for innermost in INNERMOST:
            kind, value, constraint = deep(around, innermost, LEVELS)
            yield f"{' and '.join(around)}, of {innermost}", (module(f"T ::= {kind}"), value)
            if innermost == "INTEGER":
                yield f"{' and '.join(around)}, under a constraint", (constrained(kind, constraint), value)


def constrained(kind, constraint):
    return module(f"T ::= {kind}\n--: T {constraint}\n")


def module(assignments):
    return f"M DEFINITIONS AUTOMATIC TAGS ::= BEGIN {assignments} END"


def refused():
    """Texts of modules and of JSON that are nested far deeper than a type may be, each with a name."""
    for kind, (of_type, of_value, _) in AROUND.items():
        before, after = of_type.format("#").split("#")
        yield f"100,000 times {kind}", (module(f"T ::= {before * 100000} INTEGER {after * 100000}"), "1")
        yield f"1,000,000 times {kind} begun", (f"M DEFINITIONS AUTOMATIC TAGS ::= BEGIN T ::= {before * 1000000}", "1")
        before, after = of_value.format("#").split("#")
        yield f"JSON, 100,000 times {kind}", (module("T ::= NULL"), f"{before * 100000}1{after * 100000}")
    parts = " ".join(f"A{it} ::= SEQUENCE {{ a A{it + 1}, b A{it + 1} }}" for it in range(29))
    yield "a type of 2^29 parts", (module(f"T ::= A0 {parts} A29 ::= NULL"), "1")
    yield "1,000,000 parentheses", (module(f"T ::= INTEGER {'(' * 1000000}"), "1")
    for count in (256, 1000000):
        nested = f"{'(' * count}ALL EXCEPT NULL{')' * count}"
        yield f"{count} parentheses of a constraint", (constrained("NULL", nested), "1")
        operands = " | ".join(["ALL EXCEPT NULL"] * min(count, 100000))
        yield f"{min(count, 100000)} operands of a constraint", (constrained("NULL", f"({operands})"), "1")
    chain = "\n".join(f"A{it} ::= A{it + 1}\n--: A{it} (1..5 | 7)" for it in range(256))
    yield "256 names with a constraint", (module(f"T ::= A0\n{chain}\nA256 ::= INTEGER"), "1")
    chain = " ".join(f"A{it} ::= A{it + 1}" for it in range(20000))
    yield "a chain of 20,000 references", (module(f"T ::= A0 {chain} A20000 ::= NULL"), "1")


def measure(folder, texts, more):
    """The bytes of stack that each call takes, by its name."""
    for file, text in zip(("module", "json"), texts, strict=True):
        with open(f"{folder}/{file}", "w", encoding="utf-8") as it:
            it.write(text)
    words = [f"{folder}/stack", f"{folder}/module", "T", f"{folder}/json", *more]
    ran = subprocess.run(words, stdout=subprocess.PIPE, text=True)
    lines = ran.stdout.splitlines()
    if ran.returncode:
        sys.exit(f"stack: {lines[-1:]}, with status {ran.returncode}")
    return {call: int(octets) for call, octets in (line.rsplit(": ", 1) for line in lines)}


def most_of(folder, subjects, more=()):
    """Prints for each call the most that one of the subjects takes, and the subject's name."""
    most = {}
    for name, texts in subjects:
        for call, octets in measure(folder, texts, more).items():
            most[call] = max(most.get(call, (0, "")), (octets, name))
    for call, (octets, name) in most.items():
        print(f"{call}: {octets} ({name})")


def main():
    if len(sys.argv) != 2:
        sys.exit(__doc__)
    out = os.path.abspath(sys.argv[1])
    with tempfile.TemporaryDirectory() as folder:
        source = [f"{HERE}/stack.c", f"{out}/libtulvorn.a", "-o", f"{folder}/stack"]
        build = ["gcc", "-std=c11", "-O2", "-Wall", "-Wextra", "-pthread", f"-I{out}", f"-I{HEADERS}", *source]
        subprocess.run(build, check=True)
        print(f"types of {LEVELS} levels:")
        most_of(folder, subjects())
        print("texts that are nested far deeper:")
        most_of(folder, refused(), ["-"])


if __name__ == "__main__":
    main()
