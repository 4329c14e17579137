#!/usr/bin/env python3
"""Values of types at the limits of the profile and around them, in both encoding rules: the program and
examples/reference.py.

usage: tests/program/limits.py PROGRAM [COUNT [SEED]]

The limits are those of crates/asn_limits/src/lib.rt, and the reference has to have the same. The types are INTEGER with
bounds at and near powers of two and the ends of the profile's integers, marked and not, and as components with a
DEFAULT; CHOICE and ENUMERATED of the most alternatives and items, one less, and around the forms of their indexes and
tags; SEQUENCE of the most components and additions; and these inside one another. Of each type values are made at
random and at the edges, COUNT in all (100,000). The program and the reference encode each. The program shows it, and
converts it to the other rules. Of its octets some are changed: those that the program accepts are the encoding, by the
reference, of the value that it shows. Types and numbers past each limit are refused.
"""
import json
import random
import re
from concurrent.futures import ProcessPoolExecutor

from run import TOP, reference, run, script, text_of

reference = reference()
LOWEST, HIGHEST = -(1 << 63), reference.HIGHEST
ALTERNATIVES, ITEM_ADDITIONS = reference.ALTERNATIVES, reference.ITEM_ADDITIONS
COMPONENTS, ADDITIONS, ITEMS = 64, 64, 256
# octets that are changed, of each type and each of the rules
CHANGED = 40


def of_the_program():
    """The limits of the program, as its source has them."""
    text = text_of(f'{TOP}/crates/asn_limits/src/lib.rt')
    names = 'HIGHEST_INTEGER', 'MAX_ALTERNATIVES', 'MAX_ITEM_ADDITIONS', 'MAX_COMPONENTS', 'MAX_ADDITIONS', 'MAX_ITEMS'
    return [int(re.search(rf'const {name}: \w+ = ([0-9_]+);', text)[1].replace('_', '')) for name in names]


# ---- types

def edges():
    """Numbers of the profile beside which an encoding changes, or ends."""
    at = {0, LOWEST, HIGHEST}
    for k in (7, 8, 15, 16, 31, 32, 55, 56, 62, 63, 64):
        at |= {1 << k, -(1 << k), LOWEST + (1 << k), HIGHEST - (1 << k)}
    return sorted(n for at in at for n in (at - 1, at, at + 1) if LOWEST <= n <= HIGHEST)


def bound(n, word):
    return word if n is None else str(n)


def integers(rand):
    """INTEGER types: each pair of some bounds, and each bound with MIN and MAX; and bounds about as far apart as whole
    octets and words reach."""
    near = [None, *rand.sample(edges(), 16), LOWEST, -1, 0, 1, (1 << 63) - 1, HIGHEST - 1, HIGHEST]
    for low in near:
        for high in near:
            if low is not None and high is not None and low > high:
                continue
            every = (low is None or low == LOWEST) and (high is None or high == HIGHEST)
            for mark in ('', ', ...'):
                if not (mark and every):
                    yield f'INTEGER ({bound(low, "MIN")}..{bound(high, "MAX")}{mark})'
    for low in [LOWEST, LOWEST + 1, -(1 << 62), -1, 0, 1]:
        for k in (8, 16, 32, 56, 63, 64):
            high = low + (1 << k) + rand.choice([-2, -1, 0, 1])
            if high <= HIGHEST:
                yield f'INTEGER ({low}..{high})'
    yield 'INTEGER'


def defaults(rand):
    """SEQUENCE types whose components have a DEFAULT at an edge."""
    for low in ((1 << 63) - 1, 1 << 63, HIGHEST - 1):
        yield f'SEQUENCE {{ a INTEGER ({low}..MAX) DEFAULT {low}, b BOOLEAN }}'
    for _ in range(60):
        low, high = sorted(rand.sample(edges(), 2))
        value = rand.choice([low, high, rand.randint(low, high)])
        yield f'SEQUENCE {{ a INTEGER ({low}..{high}) DEFAULT {value}, b BOOLEAN }}'
        yield f'SEQUENCE {{ a INTEGER ({low}..MAX) DEFAULT {high}, b BOOLEAN }}'
        yield f'SEQUENCE {{ a INTEGER DEFAULT {value}, b INTEGER (MIN..{high}) OPTIONAL }}'


def listed(kind, root, more, part):
    parts = [part('r', i) for i in range(root)]
    if more is not None:
        parts += ['...'] + [part('x', i) for i in range(more)]
    return f'{kind} {{ {", ".join(parts)} }}'


def choices(rand):
    """CHOICE types: of how many alternatives before and after the mark."""
    inner = ['BOOLEAN', 'NULL', 'INTEGER', 'INTEGER (0..255)', 'OCTET STRING (SIZE (0..200))']
    inner.append(f'INTEGER ({LOWEST}..{HIGHEST})')
    most, less = ALTERNATIVES, ALTERNATIVES - 1
    counts = {(most, None), (less, None), (most, 0), (less, 1), (1, less)}
    for near in (1, 2, 3, 31, 32, 33, 61, 62, 63, 64, 65, 99, 100, 127, 128, 129, 199, 200, 255):
        counts |= {(near, None), (near, 0), (near, 1), (near, most - near), (most - near, near), (1, near), (near, near)}
    for root, more in sorted(counts, key=str):
        if root > 0 and (more or 0) >= 0 and root + (more or 0) <= ALTERNATIVES:
            yield listed('CHOICE', root, more, lambda name, i: f'{name}{i} {rand.choice(inner)}')


def enumerations(rand):
    """ENUMERATED types: of how many items before and after the mark, with numbers and without."""
    counts = {(ITEMS, None), (ITEMS - ITEM_ADDITIONS, ITEM_ADDITIONS), (1, ITEM_ADDITIONS), (1, ITEM_ADDITIONS - 1)}
    for near in (1, 2, 3, 62, 63, 64, 65, 66, 127, 128, 129, 192, 199, 200, 255):
        counts |= {(near, None), (near, 0), (1, near), (near, near), (ITEMS - near, near)}
    for root, more in sorted(counts, key=str):
        if root > 0 and (more or 0) <= ITEM_ADDITIONS and root + (more or 0) <= ITEMS:
            step, low = rand.choice([(1, 0), (1, -3), (97, -500), (8_000_000, -(1 << 31))])
            number = {'r': low, 'x': low + step * root}
            yield listed('ENUMERATED', root, more, lambda name, i: f'{name}{i}({number[name] + step * i})')
            yield listed('ENUMERATED', root, more, lambda name, i: f'{name}{i}')


def sequences(rand):
    """SEQUENCE types: of how many components and additions, each OPTIONAL."""
    inner = ['BOOLEAN', 'NULL', 'INTEGER (0..7)', 'INTEGER', f'INTEGER (0..{HIGHEST})']
    counts = [(COMPONENTS, None), (COMPONENTS, ADDITIONS), (0, ADDITIONS), (1, ADDITIONS - 1)]
    for root, more in [*counts, (63, 63), (7, 8), (8, 9), (0, 1)]:
        yield listed('SEQUENCE', root, more, lambda name, i: f'{name}{i} {rand.choice(inner)} OPTIONAL')


def around(rand, inner, count):
    """Types around others: an element, components, an alternative, each in the root or an addition."""
    for _ in range(count):
        a, b = rand.choice(inner), rand.choice(inner)
        yield rand.choice([
            f'SEQUENCE (SIZE (0..5)) OF SEQUENCE {{ a {a}, b BOOLEAN }}',
            f'SEQUENCE {{ a BOOLEAN, b {a}, ..., c {b} OPTIONAL }}',
            f'SEQUENCE {{ a {a} OPTIONAL, b SEQUENCE {{ c {b}, d BOOLEAN }} }}',
            f'CHOICE {{ a {a}, ..., b {b} }}',
        ])


# ---- values

def number(rand, low, high):
    """A number between the bounds: an edge, or any."""
    low, high = LOWEST if low is None else low, HIGHEST if high is None else high
    way = rand.randrange(4)
    if way == 0:
        return rand.choice([low, high, min(low + 1, high), max(high - 1, low)])
    if way == 1:
        n = rand.choice(EDGES)
        return min(max(n, low), high)
    if way == 2:
        return min(low + rand.getrandbits(rand.randint(1, 66)), high)
    return rand.randint(low, high)


def value(rand, ty, types):
    kind = ty['kind']
    if kind == 'INTEGER':
        low, high, mark = ty['range']
        return number(rand, None, None) if mark and rand.randrange(3) == 0 else number(rand, low, high)
    if kind == 'BOOLEAN':
        return rand.random() < 0.5
    if kind == 'NULL':
        return None
    if kind == 'OCTET':
        return rand.randbytes(rand.choice([0, 1, 2, 127, 128, 200])).hex()
    if kind == 'LIST':
        return [value(rand, ty['of'], types) for _ in range(rand.randint(0, 5))]
    parts = ty['root'] + (ty['more'] or [])
    if kind == 'ENUMERATED':
        return rand.choice(parts)[0]
    if kind == 'CHOICE':
        name, inner = rand.choice(parts)
        return {name: value(rand, inner, types)}
    there = rand.choice([0, 0.05, 0.5, 0.95, 1])
    return {
        name: value(rand, inner, types)
        for name, inner, need, _ in parts if need == 'MUST' or rand.random() < there
    }


def some_values(rand, ty, count):
    """As many values; of a CHOICE or ENUMERATED each alternative and each item first."""
    first = []
    if ty['kind'] == 'ENUMERATED':
        first = [name for name, _ in ty['root'] + (ty['more'] or [])]
    if ty['kind'] == 'CHOICE':
        first = [{name: value(rand, inner, {})} for name, inner in ty['root'] + (ty['more'] or [])]
    return first + [value(rand, ty, {}) for _ in range(count - len(first))]


# ---- the program

class Wrong(Exception):
    pass


def module(text):
    return f'Limits DEFINITIONS AUTOMATIC TAGS ::= BEGIN\nT ::= {text}\nEND\n====\n'


def asked(program, order, rules, text, lines):
    """What the program answers to each line."""
    ran = run([program, order, '--type', 'T', '--rules', rules], module(text) + ''.join(f'{line}\n' for line in lines))
    answers = ran.out.decode().split('\n')[:-1]
    if len(answers) != len(lines):
        raise Wrong(f'{order} {rules} of {text[:300]}: {ran}')
    return answers


def wanted(program, order, rules, text, lines, answers):
    for line, answer, told in zip(lines, answers, asked(program, order, rules, text, lines)):
        if answer != told:
            raise Wrong(f'{order} {rules} of {text[:300]}: {line[:300]}: {told[:300]}, and not {answer[:300]}')


def dumped(v):
    return json.dumps(v, separators=(',', ':'), ensure_ascii=False)


def changed(rand, octets):
    """The octets with a bit turned, an octet replaced, dropped or doubled, or cut short."""
    it = bytearray(octets)
    if not it:
        return b'\0'
    at = rand.randrange(min(len(it), 24))
    way = rand.randrange(5)
    if way == 0:
        it[at] ^= 1 << rand.randrange(8)
    elif way == 1:
        it[at] = rand.choice([0, 1, 0x3f, 0x40, 0x7f, 0x80, 0xbf, 0xc0, 0xff])
    elif way == 2:
        del it[at]
    elif way == 3:
        it.insert(at, it[at])
    else:
        del it[at + 1:]
    return bytes(it)


def tried(program, text, count, seed):
    """Tries values of one type, and says how many values and how many changed octets there were, and how many of these
    were taken."""
    rand = random.Random(seed)
    ty = reference.Parser(text).type()
    values = some_values(rand, ty, count)
    given, shown = [dumped(v) for v in values], [dumped(reference.shown({}, ty, v)) for v in values]
    coders = {'per': reference.Per({}), 'oer': reference.Oer({})}
    octets = {rules: [coder.whole(ty, v).hex() for v in values] for rules, coder in coders.items()}
    taken = 0
    for rules, coder in coders.items():
        other = 'oer' if rules == 'per' else 'per'
        wanted(program, 'encode', rules, text, given, octets[rules])
        wanted(program, 'show', rules, text, octets[rules], shown)
        wanted(program, 'convert', rules, text, octets[rules], octets[other])
        lines = [changed(rand, bytes.fromhex(rand.choice(octets[rules]))).hex() for _ in range(CHANGED)]
        for line, answer in zip(lines, asked(program, 'show', rules, text, lines)):
            if not answer.startswith('!'):
                taken += 1
                if coder.whole(ty, json.loads(answer)).hex() != line:
                    raise Wrong(f'show {rules} of {text[:300]}: {line[:300]} is taken as {answer[:300]}')
    return len(values), 2 * CHANGED, taken


# ---- what is past a limit

def listed_past(kind, part, root, more=None):
    """A list of parts at its limit, and one with a part more."""
    at, past = ((root, more + it) if more is not None else (root + it, None) for it in (0, 1))
    return listed(kind, *at, part), listed(kind, *past, part)


def as_module(program, text):
    return run([program, 'module'], module(text).replace('====\n', ''))


def past_limits(test):
    """Types and numbers past each limit, each of which the program refuses, where it takes the one at the limit."""
    here = [HIGHEST, ALTERNATIVES, ITEM_ADDITIONS, COMPONENTS, ADDITIONS, ITEMS]
    test.add(of_the_program() == here, f'limits of the program: {of_the_program()}, and of the reference: {here}')
    null, absent, item = '{}{} NULL'.format, '{}{} NULL OPTIONAL'.format, '{}{}'.format
    for right, wrong in (
        (f'INTEGER (0..{HIGHEST})', f'INTEGER (0..{HIGHEST + 1})'),
        (f'INTEGER ({LOWEST}..0)', f'INTEGER ({LOWEST - 1}..0)'),
        (f'INTEGER ({LOWEST}..{HIGHEST - 1}, ...)', f'INTEGER ({LOWEST}..{HIGHEST}, ...)'),
        (f'INTEGER (MIN..{HIGHEST - 1}, ...)', f'INTEGER (MIN..{HIGHEST}, ...)'),
        listed_past('CHOICE', null, ALTERNATIVES),
        listed_past('CHOICE', null, 1, ALTERNATIVES - 1),
        listed_past('ENUMERATED', item, 1, ITEM_ADDITIONS),
        listed_past('ENUMERATED', item, ITEMS),
        listed_past('SEQUENCE', absent, COMPONENTS),
        listed_past('SEQUENCE', absent, 0, ADDITIONS),
    ):
        for text, is_refused in ((right, False), (wrong, True)):
            ran = as_module(test.program, text)
            is_well = ran.out.startswith(b'! module ') == is_refused and (ran.status != 0) == is_refused
            test.add(is_well, f'module: {text[:80]}: {ran}')
    # (a DEFAULT of a type with one value is none of the profile: such a module is read as a published one)
    for low, needed in ((HIGHEST - 1, b'DEFAULT'), (HIGHEST, b'OPTIONAL')):
        ran = as_module(test.program, f'SEQUENCE {{ a INTEGER ({low}..MAX) DEFAULT {HIGHEST} }}')
        test.add(needed in ran.out and (ran.err == b'') == (needed == b'DEFAULT'), f'module: {low}: {ran}')
    numbers = [str(HIGHEST + 1), str(LOWEST - 1), str(HIGHEST + 2), str(1 << 65), '1.5', '1e3', f'-{1 << 64}']
    for rules in ('per', 'oer'):
        answers = asked(test.program, 'encode', rules, 'INTEGER', numbers)
        test.add(answers == ['! shape $'] * len(numbers), f'numbers past a limit: {rules} {answers}')


EDGES = edges()


def judged(*given):
    """The counts of `tried`, and what is wrong."""
    try:
        return tried(*given), None
    except Wrong as why:
        return (0, 0, 0), str(why)


def at_limits(test, count=100_000, seed=1):
    rand = random.Random(int(seed))
    simple = [*integers(rand), *defaults(rand), *choices(rand), *enumerations(rand), *sequences(rand)]
    texts = simple + list(around(rand, simple, len(simple) // 8))
    each = int(count) // len(texts) + 1
    with ProcessPoolExecutor() as pool:
        jobs = [pool.submit(judged, test.program, text, each, f'{seed} {i}') for i, text in enumerate(texts)]
        counts, faults = zip(*[job.result() for job in jobs])
    for fault in faults:
        test.add(fault is None, fault)
    values, changes, taken = (sum(each) for each in zip(*counts))
    print(f'{len(texts)} types at the limits, {values} values in both encoding rules, {changes} changed messages, of '
          f'which {taken} were taken')


script(__doc__, past_limits, lambda test: at_limits(test, *test.words[1:]), words=range(1, 4))
