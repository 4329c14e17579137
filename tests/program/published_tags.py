#!/usr/bin/env python3
"""Compares the order of SET and CHOICE that `asn_tool flatten` gives with a second reading of their tags.

usage: tests/program/published_tags.py PROGRAM [SEED [COUNT]]

Types are made at random in three modules, of AUTOMATIC, IMPLICIT and EXPLICIT TAGS. They are SET and CHOICE with tags
of all classes and without, of simple types, of one another across the modules, of CHOICE types without a tag, and of
alternatives of these. They have additions, and COMPONENTS OF another SET. The type of the profile has the root in the
canonical order of tags (X.680), then the additions as they are. It has the remark that OER tells alternatives apart by
other tags if these are not 0, 1, .., or one of them is a CHOICE without a tag. It is refused if two of the root have
one tag.
"""
import random

from run import reference, script, write

REFERENCE = reference()
DEFAULTS = ("AUTOMATIC", "IMPLICIT", "EXPLICIT")
CLASSES = ("UNIVERSAL", "APPLICATION", "", "PRIVATE")
SIMPLE = {
    "BOOLEAN": 1, "INTEGER (0..7)": 2, "BIT STRING": 3, "OCTET STRING (SIZE (2))": 4, "NULL": 5,
    "ENUMERATED { x, y }": 10, "UTF8String": 12, "SEQUENCE { z NULL }": 16, "NumericString": 18,
    "PrintableString": 19, "IA5String": 22,
    "UTCTime": 23, "GeneralizedTime": 24, "VisibleString": 26,
}
TYPES = 1500


class Member:
    """A component or alternative: its name, its text, its tag as a class and a number, whether that is written, and
    whether it is a CHOICE that has no tag of its own."""

    def __init__(self, name, text, tag, is_written, is_choice=False):
        self.name, self.text, self.tag, self.is_written, self.is_choice = name, text, tag, is_written, is_choice


class Made:
    """A SET or CHOICE, or the like, with its root and its additions; a SET may begin with the COMPONENTS OF another."""

    def __init__(self, module, name, word, root, additions, other=None):
        self.module, self.name, self.word, self.own = module, name, word, root
        self.additions, self.other = additions, other
        written = any(it.is_written for it in root + (additions or []))
        self.is_automatic = DEFAULTS[module] == "AUTOMATIC" and not written
        self.root = (other.tagged()[: len(other.root)] if other else []) + root

    def tagged(self):
        """Its members with their tags, also where these are automatic."""
        members = self.root + (self.additions or [])
        if not self.is_automatic:
            return members
        return [Member(it.name, it.text, (2, index), False) for index, it in enumerate(members)]

    def reference(self, module):
        return self.name if self.module == module else f"M{self.module}.{self.name}"

    def tag(self):
        """Its own tag; of a CHOICE the least of the root's."""
        if self.word == "SET":
            return 0, 17
        if self.is_automatic:
            return 2, 0
        tags = [it.tag for it in self.root]
        return min(tags)

    def text(self):
        parts = [f"COMPONENTS OF {self.other.reference(self.module)}"] if self.other else []
        parts += [f"{it.name} {it.text}" for it in self.own]
        if self.additions is not None:
            parts.append("...")
            parts += [f"{it.name} {it.text}" for it in self.additions]
        return f"{self.name} ::= {self.word} {{ {', '.join(parts)} }}\n"

    def order(self):
        """The names of the root in the order of the profile; None where it is refused."""
        if self.is_automatic:
            return [it.name for it in self.root]
        tags = [it.tag for it in self.root]
        if len({*tags}) < len(tags):
            return None
        return [it.name for it in sorted(self.root, key=lambda it: it.tag)]

    def is_marked(self):
        """Whether OER tells alternatives apart by other tags than 0, 1, .."""
        if self.word == "SET" or self.is_automatic:
            return False
        if any(it.is_choice for it in self.root + (self.additions or [])):
            return True
        tags = sorted(it.tag for it in self.root) + [it.tag for it in self.additions or []]
        return tags != [(2, index) for index in range(len(tags))]


def tag_made(chance, way, index):
    """The text of a tag and the tag."""
    kind, number = (2, index) if way == "all" else (chance.choice((2, 2, 2, 1, 3)), chance.randint(0, 9))
    return f"[{CLASSES[kind]} {number}] ".replace("[ ", "["), (kind, number)


def member(chance, way, index, name, module, others):
    """A member with or without a tag: none has one, or some, or all have those that go on with their numbers."""
    choices = [it for it in others if it.word == "CHOICE"]
    kind, is_choice = chance.random(), False
    if others and kind < 0.2:
        other = chance.choice(others)
        text, tag, is_choice = other.reference(module), other.tag(), other.word == "CHOICE"
    elif choices and kind < 0.3:
        # an alternative of another type, with its tag
        other = chance.choice(choices)
        one = chance.choice(other.tagged())
        text, tag, is_choice = f"{one.name} < {other.reference(module)}", one.tag, one.is_choice
    else:
        text = chance.choice([*SIMPLE])
        tag = (0, SIMPLE[text])
    is_written = way == "all" or (way == "some" and chance.random() < 0.6)
    if is_written:
        front, tag = tag_made(chance, way, index)
        text = front + text
    return Member(name, text, tag, is_written, is_choice and not is_written)


def made(chance, count):
    """The texts of three modules, and their types."""
    types, names = [], 0
    for index in range(count):
        module, word = chance.randrange(3), chance.choice(("SET", "CHOICE", "CHOICE"))
        way = chance.choice(("none", "some", "some", "all", "all"))
        # a type that is refused would bar what holds it
        others = [it for it in types[-40:] if it.order() is not None]
        members = []
        for at in range(chance.randint(1, 6)):
            names += 1
            members.append(member(chance, way, at, f"m{names}", module, others))
        sets = [it for it in others if it.word == "SET" and len(it.root) < 9]
        other = chance.choice(sets) if word == "SET" and sets and chance.random() < 0.3 else None
        has_mark = chance.random() < 0.4
        split = chance.randint(1, len(members)) if has_mark else len(members)
        root, additions = members[:split], members[split:] if has_mark else None
        chance.shuffle(root)
        types.append(Made(module, f"T{index}", word, root, additions, other))
    texts = []
    for module, words in enumerate(DEFAULTS):
        texts.append(f"M{module} DEFINITIONS {words} TAGS ::= BEGIN\n")
        texts += [it.text() for it in types if it.module == module]
        texts.append("END\n")
    return "".join(texts), types


def compare(test, seed=1, many=TYPES):
    text, types = made(random.Random(seed), many)
    ran = test.run(["flatten", "--report", "text", write("tags.asn", text)])
    read, remark = REFERENCE.Parser(ran.out.decode()).module(), "OER tells the alternatives apart by other tags"
    said = {line.split(": ")[1] for line in ran.err.decode().splitlines() if line.endswith(remark)}
    lines = {line.split(" ", 1)[0]: line for line in text.splitlines()}
    for it in types:
        found, order = read.get(it.name), it.order()
        what = f"seed {seed}: M{it.module} {lines[it.name]}"
        if order is None or found is None:
            test.add(found is None and order is None, f"{what}: {found}, wanted {order}")
            continue
        names, more = [one[0] for one in found["root"]], [one[0] for one in found["more"] or []]
        well = names == order and more == [one.name for one in it.additions or []]
        well = well and (it.name in said) == it.is_marked()
        test.add(well, f"{what}: {names} {more}, wanted {order} {it.is_marked()}")


script(__doc__, lambda test: compare(test, *map(int, test.words[1:])), words=range(1, 4))
