#!/usr/bin/env python3
"""Compares the SEQUENCE types that `asn_tool flatten` gives with a second reading of them.

usage: tests/program/published_sequences.py PROGRAM [SEED [COUNT]]

Types are made at random in two modules, one with EXTENSIBILITY IMPLIED. They have components of simple types and of one
another, with OPTIONAL and DEFAULT, extension marks, additions, groups with and without versions, and a second mark with
components after it. They have COMPONENTS OF in the root, among the additions and in groups, and references to
parameterized types. The type of the profile is the one that is made together with the text, and so is the constraint
next to it. The report has the status that follows from its components.
"""
import json
import random

from published_sets import flattened
from run import reference, script, write

REFERENCE = reference()
STATUSES = ("same", "narrower", "wider", "owed", "per only", "refused")
# a simple type: as it is published, as it is in the profile, its status, and a DEFAULT with what becomes of it in the
# profile
SIMPLE = (
    ("BOOLEAN", "BOOLEAN", "same", "yes", "TRUE"),
    ("NULL", "NULL", "same", "NULL", None),
    ("INTEGER (0..7)", "INTEGER (0..7)", "same", "-- three -- three", "3"),
    ("INTEGER { a(3), b(5) } (a..b)", "INTEGER (3..5)", "same", "b", "5"),
    ("INTEGER (0..7, ...)", "INTEGER (0..7, ...)", "same", "3", None),
    ("INTEGER (1 | 9)", "INTEGER (1..9)", "same", "9", "9"),
    ("INTEGER", "INTEGER", "narrower", "-7", "-7"),
    ("OCTET STRING (SIZE (2))", "OCTET STRING (SIZE (2..2))", "same", "'ABCD'H", None),
    ("OCTET STRING (CONSTRAINED BY {})", "OCTET STRING", "wider", "'00'H", None),
    ("BIT STRING { f(0), g(1) } (SIZE (4))", "BIT STRING (SIZE (4..4))", "same", "{ f, g }", None),
    ("BIT STRING { f(0) }", "BIT STRING", "same", "{}", None),
    ("PrintableString", "VisibleString", "same", '"a, b }"', None),
    ("UTF8String (SIZE (1..9))", "UTF8String", "same", '"x"', None),
    ("UTCTime", "VisibleString", "same", '"700101000000Z"', None),
    ("C.&id ({Set})", "INTEGER (0..255)", "same", "7", "7"),
    ("C.&Type", "OCTET STRING", "wider", "NULL : NULL", None),
    ("SEQUENCE (SIZE (1..3)) OF BOOLEAN", "SEQUENCE (SIZE (1..3)) OF BOOLEAN", "same", "{ TRUE, FALSE }", None),
    ("CHOICE { x NULL, y BOOLEAN }", "CHOICE { x NULL, y BOOLEAN }", "same", "y : TRUE", None),
)
# what a constraint has of a simple type, and of a DEFAULT that it writes otherwise
PRINTABLE = """FROM (" " | "'"..")" | "+"..":" | "=" | "?" | "A".."Z" | "a".."z")"""
OWN = {
    "INTEGER (1 | 9)": "(1 | 9)",
    "BIT STRING { f(0) }": "CONSTRAINED BY {trimmed 0}",
    "PrintableString": PRINTABLE,
    "UTF8String (SIZE (1..9))": "SIZE (1..9)",
    "UTCTime": "CONSTRAINED BY {UTCTime}",
}
VALUE = {"yes": "TRUE", "-- three -- three": "3", "b": "5", "{ TRUE, FALSE }": "{TRUE, FALSE}"}
VALUE |= {"{ f, g }": "'1100'B", "{}": "''B"}
SOME = "CONSTRAINED BY {some component}"
# a DEFAULT that is not read: of an open type
UNREAD = "NULL : NULL"
BARRED = ("BMPString", "SET OF BOOLEAN", "EXTERNAL", "DATE", "Unknown", "Nowhere.T")
VALUES = """C ::= CLASS { &id INTEGER (0..255) UNIQUE, &Type } Set C ::= { ... }
yes BOOLEAN ::= TRUE three INTEGER ::= 3
Opt { X } ::= SEQUENCE { v X, n NULL OPTIONAL }
"""
TYPES = 1500


def worse(one, other):
    return max(one, other, key=STATUSES.index)


def within(entries):
    """The constraint of a SEQUENCE of entries, each a name and what a constraint demands of it: some demands or none."""
    texts = [f"{name} ({both(demands)})" for name, demands in entries if demands]
    return [f"WITH COMPONENTS {{{', '.join(['...', *texts])}}}"] if texts else []


def both(demands):
    """All of the demands as text. One alone has no parentheses."""
    return demands[0][1:-1] if len(demands) == 1 and demands[0][0] == "(" else " ^ ".join(demands)


def in_order(additions):
    """An addition that is not optional is present where a later one is: for each of these, a demand.

    `additions` are names, each with whether it has to be present."""
    names = [name for name, _ in additions]
    for at, (name, is_needed) in enumerate(additions[:-1]):
        if is_needed:
            later = ", ".join(f"{it} ABSENT" for it in names[at + 1 :])
            yield f"(WITH COMPONENTS {{..., {name} PRESENT}} | WITH COMPONENTS {{..., {later}}})"


class Part:
    """A component: its text, its line in the profile without OPTIONAL and DEFAULT, its status, need and DEFAULT."""

    def __init__(self, name, text, flat, status, need="", default=None, default_flat=None, demands=()):
        self.name, self.need, self.demands = name, need, [*demands]
        self.text = f"{name} {text}" + (f" DEFAULT {default}" if need == "DEFAULT" else f" {need}" * bool(need))
        self.flat, self.status = f"{name} {flat}", status
        # a DEFAULT that the profile does not have is OPTIONAL, as it is in a group that may be empty
        self.apart = " OPTIONAL" if need else ""
        self.suffix = f" DEFAULT {default_flat}" if need == "DEFAULT" and default_flat else " OPTIONAL" if need else ""
        is_unread = need == "DEFAULT" and default == UNREAD
        is_barred = need == "DEFAULT" and not is_unread
        self.demands_apart = self.demands + [f"ALL EXCEPT {VALUE.get(default, default)}"] * is_barred
        self.root_demands = self.demands if self.suffix[:8] == " DEFAULT" else self.demands_apart
        self.root_status = self.addition_status = worse(status, "wider") if is_unread else status


class Made:
    """A SEQUENCE: its text, the components of its root, its type in the profile, its status, and its nodes."""

    def __init__(self, module, name):
        self.module, self.name, self.root, self.status, self.nodes, self.depth = module, name, [], "same", 1, 1
        self.demands = []

    def reference(self, module):
        return self.name if self.module == module else f"M{self.module}.{self.name}"


class Maker:
    def __init__(self, chance):
        self.chance, self.types, self.count = chance, [], 0

    def need(self):
        return self.chance.choice(("", "", "OPTIONAL", "DEFAULT"))

    def part(self, one):
        """A component of a type: of a simple one, of another type or of a parameterized one."""
        self.count += 1
        name, kind, need = f"c{self.count}", self.chance.random(), self.need()
        others = [it for it in self.types[-30:] if it.nodes < 300 and it.depth < 12]
        if kind < 0.15 and others:
            other = self.chance.choice(others)
            one.nodes, one.depth = one.nodes + other.nodes, max(one.depth, other.depth + 1)
            need = "OPTIONAL" if need == "DEFAULT" else need
            return Part(name, other.reference(one.module), other.flat, other.status, need, demands=other.demands)
        if kind < 0.16:
            return Part(name, self.chance.choice(BARRED), "", "refused", "")
        text, flat, status, default, default_flat = self.chance.choice(SIMPLE)
        mark = ", ..." * one.module
        flat = flat.replace("y BOOLEAN", f"y BOOLEAN{mark}")
        demands = [OWN[text]] if text in OWN else []
        if kind < 0.26:
            need = "OPTIONAL" if need == "DEFAULT" else need
            text, flat = f"Opt {{{text}}}", f"SEQUENCE {{ v {flat}, n NULL OPTIONAL{mark} }}"
            demands = within([("v", demands)])
        return Part(name, text, flat, status, need, default, default_flat, demands)

    def included(self, one, used):
        """Sometimes a type for COMPONENTS OF, whose components have names that are not used yet."""
        others = [it for it in self.types[-30:] if it.status != "refused" and 0 < len(it.root) < 9]
        others = [it for it in others if not used & {part.name for part in it.root}]
        if self.chance.random() >= 0.08 or not others:
            return None
        other = self.chance.choice(others)
        used |= {part.name for part in other.root}
        one.nodes += other.nodes
        return other

    def components(self, one, most, used):
        """Components of a root, with COMPONENTS OF others whose names are not used yet: the texts and the parts."""
        texts, parts = [], []
        for _ in range(self.chance.randint(0, most)):
            other = self.included(one, used)
            if other:
                texts.append(f"COMPONENTS OF {other.reference(one.module)}")
                parts += other.root
            else:
                parts.append(self.part(one))
                texts.append(parts[-1].text)
        return texts, parts

    def group(self, one, number):
        """A group: its text, its line in the profile, whether it has to be present, and what a constraint demands of it."""
        other = self.included(one, set())
        parts = other.root if other else [self.part(one) for _ in range(self.chance.randint(1, 3))]
        said = f"COMPONENTS OF {other.reference(one.module)}" if other else ", ".join(it.text for it in parts)
        version = f"{number + 1}: " if self.chance.random() < 0.5 else ""
        for it in parts:
            one.status = worse(one.status, it.root_status)
        may_be_empty = all(it.need for it in parts)
        inner = ", ".join(it.flat + (it.apart if may_be_empty else it.suffix) for it in parts)
        flat = f"ext{number} SEQUENCE {{ {inner} }} OPTIONAL"
        demands = within((it.name, it.demands_apart if may_be_empty else it.root_demands) for it in parts)
        return f"[[ {version}{said} ]]", flat, not may_be_empty, [SOME] * may_be_empty + demands

    def additions(self, one, used):
        """Additions, groups and COMPONENTS OF others among them: their texts, their lines in the profile, their names with
        whether they have to be present, and what a constraint demands of them."""
        texts, flats, needs, demands, groups = [], [], [], [], 0
        for _ in range(self.chance.randint(0, 3)):
            if self.chance.random() < 0.5:
                groups += 1
                text, flat, is_needed, demanded = self.group(one, groups)
                texts.append(text)
                flats.append(flat)
                needs.append((f"ext{groups}", is_needed))
                demands.append(demanded)
                continue
            other = self.included(one, used)
            parts = other.root if other else [self.part(one)]
            texts.append(f"COMPONENTS OF {other.reference(one.module)}" if other else parts[0].text)
            for it in parts:
                one.status = worse(one.status, it.addition_status)
                flats.append(it.flat + " OPTIONAL")
                needs.append((it.name, not it.need))
                demands.append(it.demands_apart)
        return texts, flats, needs, demands

    def type(self):
        one = Made(self.chance.randrange(2), f"T{len(self.types)}")
        used = set()
        texts, one.root = self.components(one, 5, used)
        flats, needs, demands, is_marked = [], [], [], self.chance.random() < 0.6
        if is_marked:
            texts.append(self.chance.choice(("...", "... ! 5")))
            more, flats, needs, demands = self.additions(one, used)
            texts += more
            if self.chance.random() < 0.4:
                more, parts = self.components(one, 2, used)
                texts += ["...", *more]
                one.root = one.root + parts
        for it in one.root:
            one.status = worse(one.status, it.root_status)
        mark = ["..."] if is_marked or one.module else []
        one.flat = f"SEQUENCE {{ {', '.join([it.flat + it.suffix for it in one.root] + mark + flats)} }}"
        entries = [(it.name, it.root_demands) for it in one.root]
        entries += [(name, demanded) for (name, _), demanded in zip(needs, demands)]
        one.demands = [*in_order(needs), *within(entries)]
        one.text = f"{one.name} ::= SEQUENCE {{ {', '.join(texts)} }}"
        one.nodes += len(one.root) + 12
        self.types.append(one)


def words(text):
    return REFERENCE.TOKEN.findall(text)


def compare(test, seed=1, many=TYPES):
    maker, files = Maker(random.Random(seed)), []
    for _ in range(many):
        maker.type()
    for module, more in enumerate(("", " EXTENSIBILITY IMPLIED")):
        text = "".join(f"{one.text}\n" for one in maker.types if one.module == module)
        head = f"M{module} DEFINITIONS AUTOMATIC TAGS{more} ::= BEGIN\n"
        files.append(write(f"{module}.asn", f"{head}{VALUES}{text}END\n"))
    ran = test.run(["flatten", "--report", "json", *files])
    types, constraints = flattened(ran)
    said = {it["type"]: it["status"] for it in map(json.loads, ran.err.splitlines())}
    for one in maker.types:
        wanted = one.status, words(one.flat), f"({both(one.demands)})" if one.demands else None
        wanted = wanted if one.status != "refused" else ("refused", None, None)
        flat = words(types[one.name]) if one.name in types else None
        found = said[one.name], flat, constraints.get(one.name)
        what = f"{said[one.name]} {types.get(one.name)} {found[2]}, wanted {one.status} {one.flat} {wanted[2]}"
        test.add(found == wanted, f"seed {seed}: M{one.module} {one.text}: {what}")


script(__doc__, lambda test: compare(test, *map(int, test.words[1:])), words=range(1, 4))
