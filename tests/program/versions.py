#!/usr/bin/env python3
"""Walks pairs of types of which one is a later version of the other, two levels deep, with every subset of the
extension additions present, and compares what `newer` of the program answers with what examples/reference.py works out.

usage: tests/program/versions.py PROGRAM

Each type below has extension additions at both levels. Its versions have the first additions of each list and not the
others, at each place. Of each pair of versions, older and newer, the octets of all values of each are read by the
other, in both encoding rules; with `--json` too, which writes each addition that is skipped with its path. From that
`encode --newer` writes the octets of the value where nothing was skipped, and refuses the others.
"""
import itertools
import json

from run import reference, script

reference = reference()
INNER = [
    'SEQUENCE { p BOOLEAN, ..., q INTEGER (0..255) OPTIONAL, s NULL OPTIONAL }',
    'CHOICE { x NULL, y BOOLEAN, ..., z INTEGER (0..3), w OCTET STRING }',
    'ENUMERATED { red(9), green(0), ..., blue(2), grey(300) }',
]
OUTER = [
    'SEQUENCE { a BOOLEAN, r INNER OPTIONAL, ..., b INNER OPTIONAL, c BOOLEAN OPTIONAL }',
    'CHOICE { a BOOLEAN, r INNER, ..., b INNER, c SEQUENCE { i INNER, j BOOLEAN } }',
    'SEQUENCE OF INNER',
]
# the values of the types that have no parts
SIMPLE = {'BOOLEAN': [True], 'NULL': [None], 'INTEGER': [2], 'OCTET': ['AB']}


def text(ty):
    """The type in the notation."""
    def one(part):
        if ty['kind'] == 'ENUMERATED':
            return f'{part[0]}({part[1]})'
        return f'{part[0]} {text(part[1])}' + (' OPTIONAL' if part[2:3] == ('OPTIONAL',) else '')
    kind = ty['kind']
    if kind == 'LIST':
        return f'SEQUENCE OF {text(ty["of"])}'
    if kind in ('SEQUENCE', 'CHOICE', 'ENUMERATED'):
        parts = [one(part) for part in ty['root']]
        if ty['more'] is not None:
            parts += ['...'] + [one(part) for part in ty['more']]
        return f'{kind} {{ {", ".join(parts)} }}'
    low, high, _ = ty.get('range', (None, None, None))
    return {'OCTET': 'OCTET STRING', 'INTEGER': f'INTEGER ({low}..{high})'}.get(kind, kind)


def pairs(ty):
    """Each pair of versions of the type, of which the second has the additions of the first and perhaps more."""
    kind = ty['kind']
    if kind == 'LIST':
        return [tuple({**ty, 'of': of} for of in both) for both in pairs(ty['of'])]
    if kind not in ('SEQUENCE', 'CHOICE', 'ENUMERATED'):
        return [(ty, ty)]
    def of_parts(parts):
        if kind == 'ENUMERATED':
            return [(parts, parts)]
        each = [[[(part[0], version, *part[2:]) for version in both] for both in pairs(part[1])] for part in parts]
        return [([both[0] for both in chosen], [both[1] for both in chosen]) for chosen in itertools.product(*each)]
    found, more = [], ty['more']
    for older, newer in of_parts(ty['root']):
        if more is None:
            found.append(({**ty, 'root': older}, {**ty, 'root': newer}))
            continue
        for few in range(len(more) + 1):
            for early, late in of_parts(more[:few]):
                for many in range(few, len(more) + 1):
                    earlier, later = {'root': older, 'more': early}, {'root': newer, 'more': late + more[few:many]}
                    found.append(({**ty, **earlier}, {**ty, **later}))
    return found


def values(ty):
    """Values of the type, with each subset of the components that may be absent, each alternative and each item."""
    kind = ty['kind']
    if kind in SIMPLE:
        return SIMPLE[kind]
    if kind == 'LIST':
        return [list(items) for count in range(3) for items in itertools.product(values(ty['of']), repeat=count)]
    parts = ty['root'] + (ty['more'] or [])
    if kind == 'ENUMERATED':
        return [name for name, _ in parts]
    if kind == 'CHOICE':
        return [{name: value} for name, inner in parts for value in values(inner)]
    each = [[[]] * (need == 'OPTIONAL') + [[(name, v)] for v in values(inner)] for name, inner, need, _ in parts]
    return [dict(sum(entries, [])) for entries in itertools.product(*each)]


def taken_back(coder, ty, shown, fields):
    """What `encode --newer` makes of the value and what was skipped; of an unknown item only that it is refused."""
    if fields:
        return f'! skipped {fields[0]["path"]}'
    return '! shape ' if '"?' in json.dumps(shown) else coder.whole(ty, shown).hex()


class Walk:
    """The versions, each with a name, and for each receiver and each of the rules, octets and what is wanted: the line,
    the object, and what that is encoded as."""
    def __init__(self):
        self.names, self.given, self.pairs = {}, {}, 0

    def name(self, ty):
        return self.names.setdefault(text(ty), f'T{len(self.names)}')

    def add(self, ours, theirs):
        for rules, coder in (('per', reference.Per), ('oer', reference.Oer)):
            lines = self.given.setdefault((self.name(ours), rules), {})
            for value in values(theirs):
                receiver = reference.Receiver({}, coder({}))
                shown = receiver.received(ours, theirs, value)
                text = json.dumps({'value': shown, 'skipped': receiver.fields}, separators=(',', ':'))
                plain = json.dumps(shown, separators=(',', ':')) + ''.join(receiver.skipped)
                octets = coder({}).whole(theirs, value).hex()
                answer = plain, text, taken_back(coder({}), ours, shown, receiver.fields)
                assert lines.setdefault(octets, answer) == answer, (text(ours), octets)

    def module(self):
        types = ''.join(f'{name} ::= {ty}\n' for ty, name in self.names.items())
        return f'Versions DEFINITIONS AUTOMATIC TAGS ::= BEGIN\n{types}END\n====\n'


def compare(test, walk, name, rules, lines):
    """The answers to all messages that a type receives."""
    wanted = list(lines.values())
    for order, way, given, at in (
        ('newer', [], list(lines), 0),
        ('newer', ['--json'], list(lines), 1),
        ('encode', ['--newer'], [texts[1] for texts in wanted], 2),
    ):
        ran = test.run([order, '--type', name, '--rules', rules, *way], walk.module() + '\n'.join(given) + '\n')
        answers = ran.out.decode().split('\n')[:-1]
        wrong = [
            (line, answer, texts[at]) for line, texts, answer in zip(given, wanted, answers)
            if answer != texts[at] and not (texts[at] == '! shape ' and answer.startswith(texts[at]))
        ]
        is_well = ran.status <= (order == 'encode') and len(answers) == len(lines) and not wrong
        ty = next(ty for ty, other in walk.names.items() if other == name)
        test.add(is_well, f'{ty} {order} {way} {rules}: {ran[0]} {ran[2][:200]} {len(answers)} {wrong[:1]}')


def versions(test):
    messages = pairs_in_all = 0
    for outer, inner in itertools.product(OUTER, INNER):
        walk = Walk()
        of_type = pairs(reference.Parser(outer.replace('INNER', inner)).type())
        for older, newer in of_type:
            walk.add(older, newer)
            walk.add(newer, older)
        pairs_in_all += len(of_type)
        for (name, rules), lines in walk.given.items():
            compare(test, walk, name, rules, lines)
            messages += len(lines)
    print(f'{pairs_in_all} pairs of types, {messages} messages in both encoding rules, plain, as objects and back')


script(__doc__, versions)
