#!/usr/bin/env python3
"""Of how many single octets and pairs of octets are encodings, or begin with one, by the second implementation.

usage: tests/program/octet_counts.py

For each type of which the program tests/programs/hostile tries all octets and pairs, examples/reference.py encodes
every value that has at most two octets, and some beyond. The counts `taken` and `with octets left` are compared with
those that the program has to write.
"""
import itertools

from run import TOP, reference, script, text_of

reference = reference()
LETTERS = [chr(it) for it in range(128)]
UTF8 = [chr(it) for it in range(0x10000) if not 0xD800 <= it < 0xE000]
TRUTHS = [True, False]


def rows(parts, longest):
    """All rows of at most so many of the parts."""
    return [it for count in range(longest + 1) for it in itertools.product(parts, repeat=count)]


def texts(letters, longest):
    return ["".join(it) for it in rows(letters, longest)]


def octets(longest):
    return [bytes(it).hex() for it in rows(range(256), longest)]


def sequences(**components):
    """All values of a SEQUENCE, of the values of its components; None is an absent one."""
    every = itertools.product(*components.values())
    return [{name: value for name, value in zip(components, it) if value is not None} for it in every]


VALUES = {
    "BOOLEAN": TRUTHS,
    "NULL": [None],
    "INTEGER (0..5)": range(6),
    "INTEGER (-1..MAX)": range(-1, 70000),
    "INTEGER (0..7, ...)": range(-70000, 70000),
    "Colour": ["red", "green", "blue", "grey"],
    "BIT STRING (SIZE (0..3))": texts("01", 3),
    "OCTET STRING": octets(2),
    "IA5String (SIZE (0..3, ...))": texts(LETTERS, 2),
    "NumericString (SIZE (2))": [it for it in texts(" 0123456789", 2) if len(it) == 2],
    "UTF8String": ["", *UTF8],
    "Sample": sequences(id=range(8), ok=TRUTHS, flag=[*TRUTHS, None]),
    "One": sequences(a=TRUTHS, b=[*range(256), None]),
    "Tall": [{"height": it} for it in ("high", "low", "middle")],
    "SEQUENCE (SIZE (0..2)) OF BOOLEAN": [list(it) for it in rows(TRUTHS, 2)],
    "Letter": [{key: it} for key, some in zip("xyzw", ([None], TRUTHS, range(4), octets(2))) for it in some],
}


def type_of(types, name):
    if name in types:
        return types[name]
    return reference.Parser(f"M DEFINITIONS AUTOMATIC TAGS ::= BEGIN Row ::= {name} END").module()["Row"]


def counts(rules, ty, values):
    """How many encodings have no octets, one and two."""
    made = {rules.whole(ty, it) for it in values}
    return [sum(len(it) == length for it in made) for length in range(3)]


def octet_counts(test):
    types = reference.Parser(text_of(f"{TOP}/tests/programs/rows/stdin").partition("====\n")[0]).module()
    lines = text_of(f"{TOP}/tests/programs/hostile/stdout").splitlines()
    for name, values in VALUES.items():
        for rules in (reference.Per, reference.Oer):
            none, one, two = counts(rules(types), type_of(types, name), values)
            front = f"{name} in {rules.__name__.upper()}, "
            for wanted in (
                f"{front}octets: 256: {one} taken, {256 * none} with octets left,",
                f"{front}pairs: 65536: {two} taken, {65536 * none + 256 * one} with octets left,",
            ):
                test.add(any(it.startswith(wanted) for it in lines), f"not written: {wanted}")


script(__doc__, octet_counts, words=(0,))
