#!/usr/bin/env python3
"""A second implementation, by which the expected output of the examples was worked out: of the notation (X.680) as far
as these modules use it, of CANONICAL-PER UNALIGNED (X.691) and of Canonical OER (X.696). It shares no code with the
program, is short rather than quick, and judges nothing: it encodes values that fit.

    examples/reference.py MODULE TYPE per|oer <VALUES    one JSON value a line in, its octets in hexadecimal out
    examples/reference.py --json MODULE TYPE <VALUES     the same value as the program shows it
    examples/reference.py --read OTHER MODULE TYPE per|oer <VALUES    what a receiver that has the module OTHER, an older
                                                         or newer version, reads of the octets of the value
    examples/reference.py --read-json OTHER MODULE TYPE per|oer <VALUES    the same, as `newer --json` shows it
"""
import json, re, sys

# the limits of the profile: its highest integer, the alternatives of a CHOICE, the extension additions of an ENUMERATED.
# The spellings below do not know them: what is past them is not encoded
HIGHEST, ALTERNATIVES, ITEM_ADDITIONS = (1 << 64) - 1, 256, 200

TOKEN = re.compile(r'--.*?(?:--|$)|::=|\.\.\.|\.\.|[{}(),]|-?[0-9]+|[A-Za-z][A-Za-z0-9]*(?:-[A-Za-z0-9]+)*', re.M)


class Parser:
    def __init__(self, text):
        self.tokens = [t for t in TOKEN.findall(text) if not t.startswith('--')]
        self.at = 0

    def peek(self, ahead=0):
        return self.tokens[self.at + ahead] if self.at + ahead < len(self.tokens) else None

    def take(self, want=None):
        token = self.tokens[self.at]
        assert want is None or token == want, (token, want)
        self.at += 1
        return token

    def module(self):
        while self.take() != 'BEGIN':
            pass
        types = {}
        while self.peek() != 'END':
            name = self.take()
            self.take('::=')
            types[name] = self.type()
        return types

    def type(self):
        word = self.take()
        if word in ('BOOLEAN', 'NULL', 'UTF8String'):
            return {'kind': word}
        if word == 'INTEGER':
            return {'kind': word, 'range': self.range() if self.peek() == '(' else (None, None, False)}
        if word in ('BIT', 'OCTET'):
            self.take('STRING')
            return {'kind': word, 'size': self.size()}
        if word in ('IA5String', 'VisibleString', 'NumericString'):
            return {'kind': word, 'size': self.size()}
        if word == 'ENUMERATED':
            return self.listed(word, self.item)
        if word == 'CHOICE':
            return self.listed(word, lambda: (self.take(), self.type()))
        if word == 'SEQUENCE' and self.peek() == '{':
            return self.listed(word, self.component)
        if word == 'SEQUENCE':
            size = self.size()
            self.take('OF')
            return {'kind': 'LIST', 'size': size, 'of': self.type()}
        return {'kind': 'REF', 'name': word}

    def listed(self, kind, one):
        self.take('{')
        root, more = [], None
        while self.peek() != '}':
            if self.peek() == '...':
                self.take()
                more = []
            elif more is None:
                root.append(one())
            else:
                more.append(one())
            if self.peek() == ',':
                self.take()
        self.take('}')
        return {'kind': kind, 'root': root, 'more': more}

    def item(self):
        name = self.take()
        if self.peek() != '(':
            return name, None
        self.take()
        number = int(self.take())
        self.take(')')
        return name, number

    def component(self):
        name, ty = self.take(), self.type()
        if self.peek() == 'OPTIONAL':
            self.take()
            return name, ty, 'OPTIONAL', None
        if self.peek() == 'DEFAULT':
            self.take()
            text = self.take()
            return name, ty, 'DEFAULT', {'TRUE': True, 'FALSE': False}.get(text) if text in ('TRUE', 'FALSE') else (
                int(text) if re.fullmatch('-?[0-9]+', text) else text)
        return name, ty, 'MUST', None

    def bounds(self):
        def bound():
            text = self.take()
            return None if text in ('MIN', 'MAX') else int(text)
        low = high = bound()
        if self.peek() == '..':
            self.take()
            high = bound()
        mark = False
        if self.peek() == ',':
            self.take()
            self.take('...')
            mark = True
        return low, high, mark

    def range(self):
        self.take('(')
        bounds = self.bounds()
        self.take(')')
        return bounds

    def size(self):
        nested = self.peek() == '(' and self.peek(1) == 'SIZE'
        if not nested and self.peek() != 'SIZE':
            return 0, None, False
        if nested:
            self.take()
        self.take('SIZE')
        bounds = self.range()
        if nested:
            self.take(')')
        return bounds


def unsigned(n):
    return n.to_bytes(max(1, (n.bit_length() + 7) // 8), 'big')


def signed(n):
    k = 1
    while not -(1 << 8 * k - 1) <= n < 1 << 8 * k - 1:
        k += 1
    return n.to_bytes(k, 'big', signed=True)


def numbered(items):
    """Each item with its number: those that are written, or 0, 1, .. in order."""
    return [(name, i if number is None else number) for i, (name, number) in enumerate(items)]


class Per:
    def __init__(self, types):
        self.types = types

    def whole(self, ty, value):
        bits = self.bits(ty, value)
        bits += '0' * (-len(bits) % 8)
        return int('1' + bits, 2).to_bytes(len(bits) // 8 + 1, 'big')[1:] if bits else b'\0'

    @staticmethod
    def number(n, count):
        k = (count - 1).bit_length()
        return format(n, f'0{k}b') if k else ''

    @staticmethod
    def octets(data):
        return ''.join(format(o, '08b') for o in data)

    def general(self, items):
        """The items, each a text of bits, after length determinants."""
        out = ''
        while len(items) >= 16384:
            m = min(4, len(items) // 16384)
            out += '11' + format(m, '06b') + ''.join(items[:16384 * m])
            items = items[16384 * m:]
        n = len(items)
        return out + ('0' + format(n, '07b') if n < 128 else '10' + format(n, '014b')) + ''.join(items)

    def sized(self, size, items):
        low, high, mark = size
        if mark and not (low <= len(items) and (high is None or len(items) <= high)):
            return '1' + self.general(items)
        front = '0' if mark else ''
        if high is None or high >= 65536:
            return front + self.general(items)
        return front + self.number(len(items) - low, high - low + 1) + ''.join(items)

    def field(self, ty, value):
        return self.general([format(o, '08b') for o in self.whole(ty, value)])

    def small(self, n):
        """A normally small number: in 6 bits, or after a 1 its fewest octets and their count."""
        return format(n, '07b') if n < 64 else '1' + self.general([format(o, '08b') for o in unsigned(n)])

    def bits(self, ty, v):
        kind = ty['kind']
        if kind == 'REF':
            return self.bits(self.types[ty['name']], v)
        if kind == 'BOOLEAN':
            return '1' if v else '0'
        if kind == 'NULL':
            return ''
        if kind == 'INTEGER':
            low, high, mark = ty['range']
            inside = (low is None or low <= v) and (high is None or v <= high)
            assert -1 << 63 <= v <= HIGHEST
            front = '' if not mark else '0' if inside else '1'
            if not inside or low is None:
                return front + self.general([format(o, '08b') for o in signed(v)])
            if high is None:
                return front + self.general([format(o, '08b') for o in unsigned(v - low)])
            return front + self.number(v - low, high - low + 1)
        if kind == 'ENUMERATED':
            every = numbered(ty['root'] + (ty['more'] or []))
            assert len(ty['more'] or []) <= ITEM_ADDITIONS
            root = sorted(every[:len(ty['root'])], key=lambda item: item[1])
            names = [name for name, _ in root]
            front = '' if ty['more'] is None else '0' if v in names else '1'
            if v in names:
                return front + self.number(names.index(v), len(names))
            return front + self.small([name for name, _ in ty['more']].index(v))
        if kind == 'BIT':
            return self.sized(ty['size'], list(v))
        if kind == 'OCTET':
            return self.sized(ty['size'], [format(o, '08b') for o in bytes.fromhex(v)])
        if kind == 'UTF8String':
            return self.general([format(o, '08b') for o in v.encode()])
        if kind == 'NumericString':
            return self.sized(ty['size'], [format(' 0123456789'.index(c), '04b') for c in v])
        if kind in ('IA5String', 'VisibleString'):
            return self.sized(ty['size'], [format(ord(c), '07b') for c in v])
        if kind == 'LIST':
            return self.sized(ty['size'], [self.bits(ty['of'], item) for item in v])
        if kind == 'CHOICE':
            (name, inner), = v.items()
            names = [alternative[0] for alternative in ty['root']]
            assert len(names) + len(ty['more'] or []) <= ALTERNATIVES
            if name in names:
                i = names.index(name)
                front = '' if ty['more'] is None else '0'
                return front + self.number(i, len(names)) + self.bits(ty['root'][i][1], inner)
            i = [alternative[0] for alternative in ty['more']].index(name)
            return '1' + self.small(i) + self.field(ty['more'][i][1], inner)
        assert kind == 'SEQUENCE', kind
        present, body = '', ''
        for name, inner, need, default in ty['root']:
            there = name in v and not (need == 'DEFAULT' and v[name] == default)
            if need != 'MUST':
                present += '1' if there else '0'
            if there:
                body += self.bits(inner, v[name])
        if ty['more'] is None:
            return present + body
        more = [name in v for name, *_ in ty['more']]
        if not any(more):
            return '0' + present + body
        out = '1' + present + body + self.small(len(more) - 1) + ''.join('1' if there else '0' for there in more)
        return out + ''.join(self.field(inner, v[name]) for name, inner, *_ in ty['more'] if name in v)


class Oer:
    def __init__(self, types):
        self.types = types

    @staticmethod
    def length(n):
        return bytes([n]) if n < 128 else bytes([0x80 + len(unsigned(n))]) + unsigned(n)

    @staticmethod
    def tag(n):
        """A context-specific tag: in the 6 low bits, or after six ones there in base 128."""
        if n < 63:
            return bytes([0x80 + n])
        digits = [n % 128]
        while n >= 128:
            n //= 128
            digits.append(0x80 + n % 128)
        return bytes([0xbf] + digits[::-1])

    def counted(self, data):
        return self.length(len(data)) + data

    @staticmethod
    def tag(n):
        """A context-specific tag: one octet, or 191 and the tag in base 128, in as few octets as there can be."""
        if n < 63:
            return bytes([0x80 + n])
        digits = [n % 128]
        while n >= 128:
            n //= 128
            digits.insert(0, 0x80 + n % 128)
        return bytes([0xbf] + digits)

    @staticmethod
    def filled(bits):
        bits += '0' * (-len(bits) % 8)
        return bytes(int(bits[i:i + 8], 2) for i in range(0, len(bits), 8))

    def string(self, size, data):
        low, high, mark = size
        return data if low == high and not mark else self.counted(data)

    def whole(self, ty, v):
        kind = ty['kind']
        if kind == 'REF':
            return self.whole(self.types[ty['name']], v)
        if kind == 'BOOLEAN':
            return b'\xff' if v else b'\0'
        if kind == 'NULL':
            return b''
        if kind == 'INTEGER':
            low, high, mark = ty['range']
            assert -1 << 63 <= v <= HIGHEST
            if mark:
                low = high = None
            if low is not None and low >= 0:
                for k in (1, 2, 4, 8):
                    if high is not None and high < 1 << 8 * k:
                        return v.to_bytes(k, 'big')
                return self.counted(unsigned(v))
            for k in (1, 2, 4, 8):
                if low is not None and high is not None and -(1 << 8 * k - 1) <= low and high < 1 << 8 * k - 1:
                    return v.to_bytes(k, 'big', signed=True)
            return self.counted(signed(v))
        if kind == 'ENUMERATED':
            n = dict(numbered(ty['root'] + (ty['more'] or [])))[v]
            assert len(ty['more'] or []) <= ITEM_ADDITIONS
            return bytes([n]) if 0 <= n < 128 else bytes([0x80 + len(signed(n))]) + signed(n)
        if kind == 'BIT':
            low, high, mark = ty['size']
            if low == high and not mark:
                return self.filled(v)
            return self.counted(bytes([-len(v) % 8]) + self.filled(v))
        if kind == 'OCTET':
            return self.string(ty['size'], bytes.fromhex(v))
        if kind == 'UTF8String':
            return self.counted(v.encode())
        if kind in ('IA5String', 'VisibleString', 'NumericString'):
            return self.string(ty['size'], v.encode('ascii'))
        if kind == 'LIST':
            return self.counted(unsigned(len(v))) + b''.join(self.whole(ty['of'], item) for item in v)
        if kind == 'CHOICE':
            (name, inner), = v.items()
            every = [alternative[0] for alternative in ty['root'] + (ty['more'] or [])]
            assert len(every) <= ALTERNATIVES
            tag = every.index(name)
            front = self.tag(tag)
            if tag < len(ty['root']):
                return front + self.whole(ty['root'][tag][1], inner)
            return front + self.counted(self.whole(ty['more'][tag - len(ty['root'])][1], inner))
        assert kind == 'SEQUENCE', kind
        present, body = '', b''
        for name, inner, need, default in ty['root']:
            there = name in v and not (need == 'DEFAULT' and v[name] == default)
            if need != 'MUST':
                present += '1' if there else '0'
            if there:
                body += self.whole(inner, v[name])
        if ty['more'] is None:
            return self.filled(present) + body
        more = [name in v for name, *_ in ty['more']]
        front = self.filled(('1' if any(more) else '0') + present)
        if not any(more):
            return front + body
        bits = ''.join('1' if there else '0' for there in more)
        out = front + body + self.counted(bytes([-len(bits) % 8]) + self.filled(bits))
        return out + b''.join(self.counted(self.whole(inner, v[name])) for name, inner, *_ in ty['more'] if name in v)


def shown(types, ty, v):
    """The value with each DEFAULT written, as JSON has it: the keys of an object in order of their octets."""
    kind = ty['kind']
    if kind == 'REF':
        return shown(types, types[ty['name']], v)
    if kind == 'OCTET':
        return v.lower()
    if kind == 'LIST':
        return [shown(types, ty['of'], item) for item in v]
    if kind == 'CHOICE':
        (name, inner), = v.items()
        return {name: shown(types, dict((a[0], a[1]) for a in ty['root'] + (ty['more'] or []))[name], inner)}
    if kind == 'SEQUENCE':
        out = {}
        for name, inner, need, default in ty['root'] + (ty['more'] or []):
            if name in v:
                out[name] = shown(types, inner, v[name])
            elif need == 'DEFAULT':
                out[name] = default
        return dict(sorted(out.items()))
    return v


class Receiver:
    """What a receiver makes of a value of a sender whose module is another version: additions that it has not are told
    by their place among the additions and their octets, items and alternatives that it has not by a number; `fields` has
    the additions with the paths to what they are additions of."""
    def __init__(self, types, sender):
        self.types, self.sender, self.skipped, self.fields = types, sender, [], []

    def skip(self, path, place, ty, v):
        octets = self.sender.whole(ty, v).hex()
        self.skipped.append(f' +{place}:{octets}')
        self.fields.append({'path': path, 'addition': place, 'octets': octets})

    def received(self, ours, theirs, v, path='$'):
        while ours['kind'] == 'REF':
            ours = self.types[ours['name']]
        while theirs['kind'] == 'REF':
            theirs = self.sender.types[theirs['name']]
        kind = theirs['kind']
        assert ours['kind'] == kind
        if kind == 'LIST':
            return [self.received(ours['of'], theirs['of'], item, f'{path}[{i}]') for i, item in enumerate(v)]
        if kind == 'ENUMERATED':
            if v in [name for name, _ in ours['root'] + (ours['more'] or [])]:
                return v
            if isinstance(self.sender, Per):
                return '?' + str([name for name, _ in theirs['more']].index(v))
            return '?' + str(dict(numbered(theirs['root'] + theirs['more']))[v])
        if kind == 'CHOICE':
            (name, inner), = v.items()
            known = dict(ours['root'] + (ours['more'] or []))
            if name in known:
                sent = dict(theirs['root'] + (theirs['more'] or []))[name]
                return {name: self.received(known[name], sent, inner, f'{path}.{name}')}
            i = [name for name, _ in theirs['more']].index(name)
            self.skip(path, i, theirs['more'][i][1], inner)
            return {'?' + str(len(theirs['root']) + i): None}
        if kind == 'SEQUENCE':
            out = {}
            for mine, (name, inner, _, default) in zip(ours['root'], theirs['root']):
                if name in v:
                    out[name] = self.received(mine[1], inner, v[name], f'{path}.{name}')
                elif default is not None:
                    out[name] = default
            known = {name: ty for name, ty, *_ in ours['more'] or []}
            for place, (name, inner, *_) in enumerate(theirs['more'] or []):
                if name in v and name in known:
                    out[name] = self.received(known[name], inner, v[name], f'{path}.{name}')
                elif name in v:
                    self.skip(path, place, inner, v[name])
            return dict(sorted(out.items()))
        return shown(self.types, ours, v)


def read_by(other, words, as_object):
    """For each value of the sender's module, what a receiver that has the other module reads of its octets; as an object
    with the value and what is skipped, or as a line with both."""
    with open(other) as ours, open(words[0]) as theirs:
        types, sender = Parser(ours.read()).module(), {'per': Per, 'oer': Oer}[words[2]](Parser(theirs.read()).module())
    for line in sys.stdin:
        receiver = Receiver(types, sender)
        value = receiver.received(types[words[1]], sender.types[words[1]], json.loads(line))
        if as_object:
            value = {'value': value, 'skipped': receiver.fields}
        skipped = '' if as_object else ''.join(receiver.skipped)
        print(json.dumps(value, separators=(',', ':'), ensure_ascii=False) + skipped)


def main(words):
    if words[0] in ('--read', '--read-json'):
        return read_by(words[1], words[2:], words[0] == '--read-json')
    as_json = words[0] == '--json'
    words = words[1:] if as_json else words
    with open(words[0]) as file:
        types = Parser(file.read()).module()
    ty = types[words[1]]
    for line in sys.stdin:
        value = json.loads(line)
        if as_json:
            print(json.dumps(shown(types, ty, value), separators=(',', ':'), ensure_ascii=False))
        else:
            print({'per': Per, 'oer': Oer}[words[2]](types).whole(ty, value).hex())


if __name__ == '__main__':
    main(sys.argv[1:])
