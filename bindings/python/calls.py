"""Calls the library from Python on the examples of the repository, and ends with status 0 where each answer is right.

usage: python3 bindings/python/calls.py
"""

import array
import copy
import doctest
import os
import pickle
import tempfile
import threading

import tulvorn

EXAMPLES = os.path.join(os.path.dirname(os.path.abspath(__file__)), "..", "..", "examples")
TEXT = """M DEFINITIONS AUTOMATIC TAGS ::= BEGIN
Msg ::= SEQUENCE { id INTEGER (0..7), ok BOOLEAN DEFAULT TRUE, note IA5String (SIZE (0..3)) OPTIONAL }
All ::= SEQUENCE { far INTEGER, colour ENUMERATED { red, green }, key OCTET STRING, bits BIT STRING,
    one CHOICE { number INTEGER (0..255), none NULL }, list SEQUENCE OF Msg, word UTF8String }
Old ::= SEQUENCE { a BOOLEAN, ... }
Low ::= SEQUENCE { id INTEGER (0..3), ok BOOLEAN DEFAULT TRUE, note IA5String (SIZE (0..3)) OPTIONAL }
Wide ::= INTEGER
Kinds ::= SEQUENCE { word IA5String OPTIONAL, wide UTF8String OPTIONAL, digits NumericString OPTIONAL,
    bits BIT STRING OPTIONAL, key OCTET STRING OPTIONAL, item ENUMERATED { aa } OPTIONAL,
    row SEQUENCE { number INTEGER } OPTIONAL, list SEQUENCE OF BOOLEAN OPTIONAL }
Sent ::= SEQUENCE { c ENUMERATED { red, ..., green, blue }, d CHOICE { x NULL, ..., y NULL, z INTEGER } }
Seen ::= SEQUENCE { c ENUMERATED { red, ... }, d CHOICE { x NULL, ... } }
END"""


def raised(kind, call):
    try:
        call()
    except kind as fault:
        return fault
    raise AssertionError(f"no {kind.__name__}")


def lines_of(name):
    with open(f"{EXAMPLES}/{name}", encoding="utf-8") as it:
        return it.read().splitlines()


def in_pieces(it, octets, rules, size=11):
    """The JSON of a message that comes in pieces, with octets of another behind it."""
    session, at = it.open(rules), 0
    while (fed := session.feed((octets + b"\x00")[at : at + size])) is None:
        at += size
    assert at + fed[1] == len(octets) and session.finish() is None
    return fed[0].to_json()


def examples():
    """Each message of the examples comes back from both rules and from JSON."""
    count = 0
    for name in ("bsm", "cam", "signalling"):
        it = tulvorn.compile_files(f"{EXAMPLES}/{name}.asn").type("Message")
        rows = [lines_of(f"{name}.{end}") for end in ("per", "oer", "values", "json")]
        for per, oer, given, shown in zip(*rows, strict=True):
            per, oer = bytes.fromhex(per), bytes.fromhex(oer)
            value = it.decode(per, "per")
            assert value.to_json() == shown
            assert value.encode("per") == per and value.encode("oer") == oer
            assert it.convert(per, "per") == oer and it.convert(oer, "oer") == per
            assert it.from_json(given).encode("oer") == oer and it.of(value.value()).encode("per") == per
            assert value.encoded_len("oer") == len(oer)
            assert in_pieces(it, per, "per") == shown and in_pieces(it, oer, "oer") == shown
            count += 1
    return count


ALL = {
    "far": -70000000000, "colour": "green", "key": b"\x00\xff", "bits": (b"\xa0", 3), "one": ("number", 200),
    "list": [{"id": 5, "ok": True, "note": "A"}, {"id": 0, "ok": False}], "word": "\u00e4",
}


def parts():
    spec = tulvorn.compile_string(TEXT)
    for rules in ("per", "oer"):
        octets = spec.encode("All", ALL, rules)
        assert spec.decode("All", octets, rules) == ALL
        assert spec.decode_with_length("All", octets + b"\x00", rules) == (ALL, len(octets))
    value = spec.type("All").of(ALL)
    assert value["list[0].ok"] is True and value["list[0].note"] == "A" and value["one"] == ("number", 200)
    assert value["bits"] == (b"\xa0", 3) == value.bits("bits") and value["key"] == b"\x00\xff" == value.octets("key")
    assert value.name("colour") == "green" and value.text("word") == "\u00e4" and value.integer("far") == -70000000000
    assert raised(KeyError, lambda: value["list[2]"]) and raised(TypeError, lambda: value.integer("word"))
    return spec


def wide_integers(spec):
    for number in (2**63 - 1, 2**63, 2**64 - 1, -(2**63)):
        size = 8 if number < 2**63 else 9
        octets = bytes([size]) + number.to_bytes(size, "big", signed=True)
        for rules in ("per", "oer"):
            assert spec.encode("Wide", number, rules) == octets and spec.decode("Wide", octets, rules) == number
            value = spec.type("Wide").decode(octets, rules)
            assert value.integer("") == number and value.to_json() == str(number)
    for number in (2**64, -(2**63) - 1):
        assert raised(tulvorn.EncodeError, lambda: spec.encode("Wide", number)).code == tulvorn.SHAPE


class Odd:
    """It has octets, and no buffer."""

    def __len__(self):
        return 2

    def __bytes__(self):
        return b"\x01\x05"


def octets_given(spec):
    """Octets are those of a buffer, and of nothing else."""
    wide, octets = spec.type("Wide"), b"\x01\x05"
    calls = (
        wide.decode, wide.check, wide.explain, wide.read_newer, wide.convert, lambda it: wide.open().feed(it),
        lambda it: spec.decode("Wide", it), lambda it: spec.decode_with_length("Wide", it),
    )
    buffers = (bytearray(octets), memoryview(octets), memoryview(b"\x01\xff\x05")[::2], array.array("H", octets))
    for it in buffers:
        assert wide.decode(it)[""] == 5 and wide.check(it) is None and wide.explain(it) is None
        assert wide.read_newer(it)[0][""] == 5 and wide.convert(it) == octets and wide.open().feed(it)[1] == 2
        assert spec.decode("Wide", it) == 5 and spec.decode_with_length("Wide", it) == (5, 2)
    assert spec.decode_with_length("Wide", bytearray(b"\x01\x05\x00")) == (5, 2)
    for it in (Odd(), 2, "28", None, [1, 5]):
        for call in calls:
            assert raised(TypeError, lambda: call(it))


# what is no value of the component, and what the words of the fault say of the component
NO_VALUES = (
    ("word", b"A", "$.word: bytes, and the type has a character string there"),
    ("wide", b"A", "$.wide: bytes, and the type has a character string there"),
    ("digits", b"A", "$.digits: bytes, and the type has a character string there"),
    ("bits", b"\x11", "$.bits: bytes, and the type has a BIT STRING there"),
    ("bits", b"A", "not of the type's shape at $.bits"),
    ("item", b"\xaa", "$.item: bytes, and the type has an ENUMERATED there"),
    ("key", (b"\xff", 8), "$.key: bytes with a number of bits, and the type has an OCTET STRING there"),
    ("word", (b"A", 8), "$.word: bytes with a number of bits, and the type has a character string there"),
    ("row", ("number", 5), "$.row: a pair with a name, and the type has a SEQUENCE there"),
    ("bits", (b"A", 100), "$.bits: 100 is no number of bits that fill 1 octets"),
    ("bits", (b"A", -1), "$.bits: -1 is no number of bits that fill 1 octets"),
    ("bits", (b"A", None), "$.bits: None is no number of bits that fill 1 octets"),
    ("bits", (b"", 5), "$.bits: 5 is no number of bits that fill 0 octets"),
    ("list", {True}, "$.list: no kind of value is given by this set"),
    ("row", {"number": 1.0}, "$.row.number: no kind of value is given by this float"),
    ("row", {"number": float("nan")}, "$.row.number: no kind of value is given by this float"),
    ("row", {b"number": 1}, "$.row: no kind of value is given by this dict"),
)


def values_given(spec):
    """What is no value of the type is refused, and the fault names its path."""
    kinds = spec.type("Kinds")
    for name, given, words in NO_VALUES:
        assert str(raised(tulvorn.EncodeError, lambda: kinds.of({name: given}))) == words, (name, given)
    for given in ({"key": "00ff", "bits": "101"}, {"key": memoryview(b"\x00\xff"), "bits": (bytearray(b"\xa0"), 3)}):
        assert kinds.of(given).value() == {"key": b"\x00\xff", "bits": (b"\xa0", 3)}
    assert spec.encode("All", {**ALL, "one": {"number": 200}}) == spec.encode("All", ALL)
    circle = []
    circle.append(circle)
    for name, given in (
        ("list", nested(300)), ("list", nested(3000)), ("list", circle), ("word", "\ud800"), ("row", 10**400),
    ):
        assert "that goes too deep" in str(raised(tulvorn.EncodeError, lambda: kinds.of({name: given})))
    assert raised(tulvorn.EncodeError, lambda: spec.encode("Wide", 10**5000))
    for given in ({"id": 1, "other": 2}, {"id": 1, "note": None}, {}, {"id": True}, {"id": "1"}):
        assert raised(tulvorn.EncodeError, lambda: spec.encode("Msg", given)).code == tulvorn.SHAPE
    for given in ({"id": 8}, {"id": 1, "note": "four"}, {"id": 1, "note": "\u00e4"}):
        assert raised(tulvorn.EncodeError, lambda: spec.encode("Msg", given)).code == tulvorn.NOT_OF_TYPE


def nested(levels):
    deep = []
    for _ in range(levels):
        deep = [deep]
    return deep


def bits_and_paths(spec):
    value = spec.type("All").of(ALL)
    for path in ("far", "one", "key", "list", "word", ""):
        assert raised(TypeError, lambda: value.bits(path)) and raised(TypeError, lambda: value.bit(path, 0))
    assert [value.bit("bits", index) for index in range(3)] == [True, False, True]
    for index in (2**64, 3, -1):
        assert raised(IndexError, lambda: value.bit("bits", index))
    assert raised(TypeError, lambda: value.bit("bits", 1.5)) and raised(TypeError, lambda: value.bit("bits", "1"))
    assert raised(TypeError, lambda: value[b"far"]) and raised(TypeError, lambda: value.integer(None))
    assert value.count("word") == 2 and value.count("list") == 2 and value.count("one") == 0
    for path in ("[\u00b2]", "list[\u00b2]", "list[2]", "list[0000000000]", "far.x", "other", "$$far"):
        assert raised(KeyError, lambda: value[path])
    for path in ("list[2].id", "one.none", "list[1].note"):
        assert raised(tulvorn.Absent, lambda: value.kind(path))
    for path in ("list[2].idd", "one.nobody", "list.note", "fra"):
        assert type(raised(KeyError, lambda: value.kind(path))) is KeyError
    for path in ("$.list[1].id", "list.1.id", "..list[000000001]..id."):
        assert value[path] == 0 == value.integer(path)


def not_copied(spec):
    msg = spec.type("Msg")
    for held in (spec, msg, msg.of({"id": 1}), msg.open()):
        for call in (copy.copy, copy.deepcopy, pickle.dumps):
            assert raised(TypeError, lambda: call(held))


def misuse(spec):
    """Objects that were made by hand hold nothing, and each call on one says so."""
    msg, none, value = spec.type("Msg"), tulvorn.Type(), tulvorn.Value()
    calls = (
        none.share, none.open, lambda: none.check(b""), lambda: none.explain(b""), lambda: none.read_newer(b""),
        lambda: none.of({}), lambda: none.explain_json("{}"), lambda: msg.misfit(value), value.encode, value.to_json,
        value.kind, value.count, value.value, lambda: value.integer("id"), lambda: value.text("note"),
        lambda: value["id"],
    )
    for call in calls:
        assert raised(tulvorn.TulvornError, call).code == tulvorn.MISUSE
    for it in (msg, spec, {"id": 1}, None):
        assert raised(TypeError, lambda: msg.misfit(it))


def faults(spec):
    fault = raised(tulvorn.DecodeError, lambda: spec.decode("Msg", b"\xac"))
    assert (fault.code, fault.at, fault.why, str(fault)) == (3, 6, "default", "refused at bit 6: default")
    assert str(raised(tulvorn.DecodeError, lambda: spec.decode("Msg", b"\x6b"))) == "cut short after 8 bits"
    assert raised(tulvorn.EncodeError, lambda: spec.encode("Msg", {"id": 9})).code == tulvorn.NOT_OF_TYPE
    assert raised(tulvorn.EncodeError, lambda: spec.encode("Msg", {})).code == tulvorn.SHAPE
    assert raised(tulvorn.ModuleError, lambda: tulvorn.compile_string("M")).at == 1
    assert raised(KeyError, lambda: spec.type("Other")) and raised(KeyError, lambda: spec.type("Other", 64))
    assert raised(tulvorn.ModuleError, lambda: spec.type("Msg", 1)).code == tulvorn.TOO_DEEP
    assert spec.type("Msg", 2) is spec.type("Msg")
    for rules in ("ber", "PER", 2, True, False):
        assert raised(ValueError, lambda: spec.encode("Msg", {"id": 1}, rules))
        assert raised(ValueError, lambda: spec.type("Msg").decode(b"\x28", rules))


# an assignment that no module has: why, and the place in the octets of the text
NO_MODULES = (
    ("T ::= % END", "bad character", 6), ("T ::= { END", "unexpected", 6), ("T ::= U END", "unknown", None),
    ("T ::= T END", "cycle", None), ("T ::= NULL T ::= NULL END", "twice", None),
    ("T ::= REAL END", "out of profile", 6), ("T ::= CHOICE { a NULL, a NULL } END", "bad type", None),
)


def no_modules():
    head = "M DEFINITIONS AUTOMATIC TAGS ::= BEGIN\n"
    for text, why, at in NO_MODULES:
        fault = raised(tulvorn.ModuleError, lambda: tulvorn.compile_string(head + text))
        assert (fault.code, fault.why) == (tulvorn.NO_MODULE, why) and str(fault).startswith("line 2, column "), text
        assert fault.at == (0 if at is None else len(head) + at), text


def too_large():
    """A text whose types come to more than 10,000,000, references followed, is refused with a name and both numbers."""
    names = ", ".join(f"{chr(98 + i) * 999} NULL" for i in range(10))
    uses = ", ".join(f"b{i} B" for i in range(60))
    grown = "\n".join(f"Grown{i} ::= SEQUENCE {{ c C }}" for i in range(20))
    types = f"B ::= SEQUENCE {{ {names} }}\nC ::= SEQUENCE {{ {uses} }}\n{grown}"
    text = f"M DEFINITIONS AUTOMATIC TAGS ::= BEGIN\n{types}\nEND\n"
    fault = raised(tulvorn.ModuleError, lambda: tulvorn.compile_string(text))
    assert (fault.code, fault.why, fault.at) == (tulvorn.NO_MODULE, "too large", 0)
    words = str(fault).partition("\n")[0]
    assert "Grown" in words and words.endswith(", more than 10000000, references followed"), words


def files():
    """A file whose lines end with CR and LF is read as it stands: each place counts its octets."""
    text = "M DEFINITIONS AUTOMATIC TAGS ::= BEGIN\r\n-- \u00e4\r\nT ::= BOOLEAN\r\n".encode()
    with tempfile.TemporaryDirectory() as folder:
        good, bad = os.path.join(folder, "good.asn"), os.path.join(folder, "bad.asn")
        for name, end in ((good, b"END\r\n"), (bad, b"% END\r\n")):
            with open(name, "wb") as it:
                it.write(text + end)
        assert tulvorn.compile_files(good).decode("T", b"\x80") is True
        fault = raised(tulvorn.ModuleError, lambda: tulvorn.compile_files([bad]))
        assert (fault.why, fault.at) == ("bad character", len(text)) and "line 4, column 1: " in str(fault)


def sessions(spec):
    msg = spec.type("Msg")
    session = msg.open()
    fault = raised(tulvorn.DecodeError, lambda: session.feed(b"\xac"))
    assert (fault.code, fault.at, fault.why, str(fault)) == (3, 6, "default", "refused at bit 6: default")
    assert raised(tulvorn.DecodeError, session.finish).at == 5
    session = msg.open("oer")
    assert session.feed(b"\x40") is None and session.feed(b"") is None
    assert str(raised(tulvorn.DecodeError, session.finish)) == "cut short after 1 octets"
    assert raised(tulvorn.DecodeError, session.finish).code == tulvorn.MISUSE
    session = msg.open()
    assert session.feed(b"\x28")[1] == 1
    assert raised(tulvorn.DecodeError, lambda: session.feed(b"")).code == tulvorn.SPENT


def misfits(spec):
    msg, low = spec.type("Msg"), spec.type("Low")
    assert msg.misfit(msg.of({"id": 5})) is None and low.misfit(msg.of({"id": 5})) == "$.id: 5 is not in 0..3"
    assert msg.explain_json('{"id":5}') is None and msg.explain_json('{"id":9}') == "not of the type"
    assert msg.explain_json('{"id":5,"ok":1}') == "not of the type's shape at $.ok"
    assert str(raised(tulvorn.EncodeError, lambda: msg.of({"id": "5"}))) == "not of the type's shape at $.id"
    assert raised(tulvorn.EncodeError, lambda: msg.explain_json("{")).code == tulvorn.NO_JSON


def versions(spec):
    old = spec.type("Old")
    value, fields = old.read_newer(b"\x80\xff\x02\x07\x80\x01\x2a", "oer")
    assert value["a"] is True and fields == [(0, b"\x2a")]
    assert raised(tulvorn.DecodeError, lambda: old.read_newer(b"\x80", "oer")).code == tulvorn.CUT_MESSAGE
    for rules, item in (("per", "?0"), ("oer", "?1")):
        octets = spec.encode("Sent", {"c": "green", "d": ("y", None)}, rules)
        value, fields = spec.type("Seen").read_newer(octets, rules)
        assert value.value() == {"c": item, "d": ("?1", None)}
        assert value["c"] == item and value["d"] == ("?1", None) and [place for place, _ in fields] == [0]
        assert raised(TypeError, lambda: value.name("c")) and raised(TypeError, lambda: value.name("d"))
        assert raised(tulvorn.EncodeError, value.encode).code == tulvorn.NOT_OF_TYPE
        assert raised(tulvorn.DecodeError, lambda: spec.decode("Seen", octets, rules)).code == tulvorn.REFUSED
    assert old.explain(b"\x00") is None
    assert spec.type("Msg").explain(b"\xac") == "refused at bit 6 in $.ok: default"


def budgets(spec):
    """A value that takes more than the budget: the SEQUENCE, its three components, and the octets of a string."""
    msg, octets = spec.type("Msg"), bytes.fromhex("40050141")
    msg.check_within(octets, 4, 1, "oer")
    assert msg.decode_within(octets, 4, 1, "oer").text("note") == "A"
    for entries, strings in ((3, 1), (4, 0)):
        for call in (msg.check_within, msg.decode_within):
            fault = raised(tulvorn.DecodeError, lambda: call(octets, entries, strings, "oer"))
            assert fault.code == tulvorn.OVER_BUDGET and str(fault) == "over budget"
    assert raised(tulvorn.DecodeError, lambda: msg.check_within(octets[:3], 4, 1, "oer")).code == tulvorn.TRUNCATED


CONSTRAINED = """M DEFINITIONS AUTOMATIC TAGS ::= BEGIN
P ::= SEQUENCE { n BIT STRING (SIZE (8)) OPTIONAL, b BOOLEAN }
--: P (WITH COMPONENTS {..., n (ALL EXCEPT '10000000'B)})
G ::= SEQUENCE { a BOOLEAN, ..., g SEQUENCE { b INTEGER (0..255) OPTIONAL, c BOOLEAN OPTIONAL } OPTIONAL }
--: G (WITH COMPONENTS {..., g (CONSTRAINED BY {some component} ^ WITH COMPONENTS {..., c (ALL EXCEPT FALSE)})})
S ::= INTEGER (2..8)
--: S (2..4 | 6..8)
L ::= SEQUENCE OF S
END"""

# a message whose value breaks the constraint: its last unit, the part, and the value in the kinds of Python
BROKEN = (
    ("P", "per", "c040", 16, "$.n: default written out", {"n": (b"\x80", 8), "b": True}),
    ("P", "oer", "8080ff", 3, "$.n: default written out", {"n": (b"\x80", 8), "b": True}),
    ("G", "per", "c0404000", 32, "$.g: a group without components", {"a": True, "g": {}}),
    ("G", "oer", "80ff020780024000", 8, "$.g.c: default written out", {"a": True, "g": {"c": False}}),
    ("S", "oer", "05", 1, "$: a number in a gap of the range", 5),
    ("L", "per", "020c", 16, "$[1]: a number in a gap of the range", [2, 5]),
)


def constraints():
    """A value that breaks the constraint of its type is refused at its last unit, and is not encoded."""
    spec = tulvorn.compile_string(CONSTRAINED)
    for name, rules, octets, at, words, given in BROKEN:
        kind, octets, unit = spec.type(name), bytes.fromhex(octets), "bit" if rules == "per" else "octet"
        part, reason = words.split(": ")
        within = lambda it, by: kind.check_within(it, 100, 100, by)  # noqa: E731
        decode_within = lambda it, by: kind.decode_within(it, 100, 100, by)  # noqa: E731
        for call in kind.check, kind.decode, kind.convert, within, decode_within:
            fault = raised(tulvorn.DecodeError, lambda: call(octets, rules))
            assert (fault.code, fault.why, fault.at) == (tulvorn.REFUSED, "constraint", at)
            assert str(fault) == f"refused at {unit} {at}: constraint"
        assert kind.explain(octets, rules) == f"refused at {unit} {at} in {part}: {reason}"
        for size in 1, 2, len(octets):
            session, taken = kind.open(rules), 0
            while taken + size < len(octets):
                assert session.feed(octets[taken : taken + size]) is None
                taken += size
            for piece in octets[taken:] + b"\0", b"", octets:
                assert raised(tulvorn.DecodeError, lambda: session.feed(piece)).at == at
            assert raised(tulvorn.DecodeError, session.finish).at == at - 1
        value = kind.of(given)
        assert kind.misfit(value) == words and kind.share().misfit(value) == words
        for call in value.encode, value.encoded_len:
            assert raised(tulvorn.EncodeError, lambda: call(rules)).code == tulvorn.NOT_OF_TYPE
        if "written out" in words or "group" in words:
            assert raised(tulvorn.DecodeError, lambda: kind.read_newer(octets, rules)).code == tulvorn.NO_MESSAGE
        else:
            assert kind.misfit(kind.read_newer(octets, rules)[0]) == words
    assert spec.type("L").misfit(spec.type("L").of([2, 4])) is None
    assert spec.difference("L") is None and raised(KeyError, lambda: spec.difference("T"))
    spec = tulvorn.compile_string(CONSTRAINED.replace("END", "--! S wider: $.a\nEND"))
    assert spec.difference("S") == spec.difference("L") == "wider: $.a" and spec.difference("P") is None
    for line in "--: S (2..", "--: T (2..3)", "--: S (SIZE (3))", "--! S", "--! T wider", "--! S a --":
        fault = raised(tulvorn.ModuleError, lambda: tulvorn.compile_string(CONSTRAINED.replace("--: S (2..4 | 6..8)", line)))
        assert (fault.code, fault.why) == (tulvorn.NO_MODULE, "bad constraint") and str(fault).startswith("line 7: ")


def threads(spec):
    """Four threads use one type and one value together."""
    value, wrong = spec.type("Msg").of({"id": 3}), []

    def work(mine):
        for at in range(300):
            if mine.decode(bytes([at % 8 << 3])).integer("id") != at % 8 or value.integer("id") != 3:
                wrong.append(at)

    running = [threading.Thread(target=work, args=(spec.type("Msg"),)) for _ in range(4)]
    for it in running:
        it.start()
    for it in running:
        it.join()
    assert not wrong


if __name__ == "__main__":
    assert doctest.testmod(tulvorn).failed == 0
    spec = parts()
    wide_integers(spec)
    faults(spec)
    no_modules()
    too_large()
    files()
    octets_given(spec)
    values_given(spec)
    bits_and_paths(spec)
    not_copied(spec)
    misuse(spec)
    sessions(spec)
    misfits(spec)
    versions(spec)
    budgets(spec)
    constraints()
    threads(spec)
    print(f"Python: passed, with {examples()} messages of the examples; version {tulvorn.version()}")
