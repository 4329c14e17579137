"""Tulvorn for Python: values of ASN.1 types by CANONICAL-PER UNALIGNED ("per") and Canonical OER ("oer").

    >>> import tulvorn
    >>> spec = tulvorn.compile_string("M DEFINITIONS AUTOMATIC TAGS ::= BEGIN T ::= SEQUENCE { id INTEGER (0..7) } END")
    >>> spec.encode("T", {"id": 5})
    b'\\xa0'
    >>> spec.decode("T", b"\\xa0")
    {'id': 5}

Only the standard library is needed, and the library: the file that TULVORN_LIBRARY names, or libtulvorn.so in this
file's folder, or libtulvorn.so.2 where the system's linker finds it. `compile_string`, `compile_files`, `encode`,
`decode` and `decode_with_length` have the names that asn1tools gives them; bindings/README.md lists the differences.

Values are as in JSON, with the kinds of Python where it has them: BOOLEAN is a bool, NULL None, INTEGER an int,
ENUMERATED the name of the item, BIT STRING a pair of bytes and the number of bits, OCTET STRING bytes, a character
string a str, SEQUENCE a dict, SEQUENCE OF a list, CHOICE a pair of the name and the value. A dict that is given may
lack the components with OPTIONAL or DEFAULT. One that is returned lacks those that are absent and have no DEFAULT, and
is in alphabetical order. Instead of bytes a bytearray or memoryview may be given, and a value in the form of JSON too:
a str of hexadecimal digits for an OCTET STRING, of 0 and 1 for a BIT STRING, and a dict of one name for a CHOICE.
An item or alternative of a newer sender that the type does not have is its number: '?2', or the pair ('?1', None); by
PER the number of an item is its index among the additions, from 0.

Rules are "per" or "uper", "oer", PER or OER; a call that is given others raises ValueError. Octets may be bytes or what
else has a buffer, as bytearray, memoryview and array do. What has none raises TypeError, and so does a text, a name or
a path that is no str; one with half of a surrogate pair raises UnicodeEncodeError. Where an allocation failed, a call
raises MemoryError. What is made by hand, as Value(), holds nothing, and nor does a session that has ended: a call on it
raises TulvornError, with the code MISUSE. What else a call raises is in its docstring.

Several threads may use one object. Calls that only read it, all but those of a Session, run at once. No object is
copied or pickled.
"""

import ctypes
import json
import operator
import os
import threading

__all__ = [
    "compile_string", "compile_files", "version", "Specification", "Type", "Value", "Session", "TulvornError",
    "ModuleError", "DecodeError", "EncodeError", "Absent", "PER", "OER",
]

PER, OER = 0, 1
RULES = {"per": PER, "uper": PER, "oer": OER, PER: PER, OER: OER}

# the codes of the library, of which `TulvornError.code` is one: tulvorn.h says what each is
(
    DONE, NO_MEMORY, MISUSE, REFUSED, TRUNCATED, REST, TOO_LONG, TOO_SHORT, NOT_TEXT, NO_MODULE, NO_NAME, NOT_OF_TYPE,
    NO_JSON, SHAPE, NO_PATH, OTHER_KIND, NO_MESSAGE, CUT_MESSAGE, TOO_MANY_ADDITIONS, MORE, SPENT,
    ABSENT, OVER_BUDGET, LARGE_CONSTRAINT, TOO_DEEP,
) = range(25)

# the kinds of types, of which `Value.kind` gives one
(
    BOOLEAN, NULL, INTEGER, ENUMERATED, BIT_STRING, OCTET_STRING, CHARACTER_STRING, SEQUENCE, SEQUENCE_OF, CHOICE,
) = range(1, 11)

# the reasons, by their numbers: of octets that are refused, and of a text that is no module
WHY = ("", "sealed", "default", "length", "extension", "character", "padding", "number", "constraint")
WHY_NO_MODULE = (
    "", "bad character", "unexpected", "unknown", "cycle", "twice", "bad type", "out of profile", "too large",
    "bad constraint",
)
REASONS = {REFUSED: WHY, NO_MODULE: WHY_NO_MODULE}


class Handle(ctypes.Structure):
    _fields_ = [("at", ctypes.c_void_p)]


class Fault(ctypes.Structure):
    _fields_ = [("code", ctypes.c_uint32), ("why", ctypes.c_uint32), ("at", ctypes.c_uint64)]


class Budget(ctypes.Structure):
    _fields_ = [("entries", ctypes.c_uint64), ("octets", ctypes.c_uint64)]


# the parameters and the result of each function, by the letters below; bindings/tests/declarations.py compares them with
# the exports
FUNCTIONS = {
    "tulvorn_module": "oshf:u",
    "tulvorn_explain_module": "osh:u",
    "tulvorn_type": "hoshf:u",
    "tulvorn_type_levels": "hosuhf:u",
    "tulvorn_difference": "hosh:u",
    "tulvorn_share": "hh:u",
    "tulvorn_check": "huosf:u",
    "tulvorn_decode": "huoshf:u",
    "tulvorn_check_within": "huosbf:u",
    "tulvorn_decode_within": "huosbhf:u",
    "tulvorn_encode": "huhf:u",
    "tulvorn_encoded_len": "huSf:u",
    "tulvorn_encode_into": "huwsSf:u",
    "tulvorn_convert": "huoshf:u",
    "tulvorn_explain": "huosh:u",
    "tulvorn_open": "huh:u",
    "tulvorn_feed": "hoshSf:u",
    "tulvorn_finish": "hf:u",
    "tulvorn_read_newer": "huoshhf:u",
    "tulvorn_skipped_count": "hS:u",
    "tulvorn_skipped": "hsUwsS:u",
    "tulvorn_to_json": "hhf:u",
    "tulvorn_from_json": "hoshf:u",
    "tulvorn_misfit": "hhh:u",
    "tulvorn_explain_json": "hosh:u",
    "tulvorn_kind": "hosU:u",
    "tulvorn_boolean": "hosU:u",
    "tulvorn_integer": "hosI:u",
    "tulvorn_unsigned": "hosN:u",
    "tulvorn_count": "hosS:u",
    "tulvorn_bit": "hossU:u",
    "tulvorn_octets": "hoswsS:u",
    "tulvorn_text": "hoswsS:u",
    "tulvorn_name": "hoswsS:u",
    "tulvorn_copy": "hwsS:u",
    "tulvorn_words": "fuh:u",
    "tulvorn_version": "wsS:u",
    "tulvorn_interface": ":u",
    "tulvorn_close": "h:",
}
LETTERS = {
    "h": ctypes.POINTER(Handle),
    "f": ctypes.POINTER(Fault),
    "b": ctypes.POINTER(Budget),
    "o": ctypes.c_char_p,
    "w": ctypes.c_void_p,
    "s": ctypes.c_size_t,
    "u": ctypes.c_uint32,
    "S": ctypes.POINTER(ctypes.c_size_t),
    "U": ctypes.POINTER(ctypes.c_uint32),
    "I": ctypes.POINTER(ctypes.c_int64),
    "N": ctypes.POINTER(ctypes.c_uint64),
}
INTERFACE = 2


def _loaded():
    named = os.environ.get("TULVORN_LIBRARY")
    beside = os.path.join(os.path.dirname(os.path.abspath(__file__)), "libtulvorn.so")
    library = ctypes.CDLL(named or (beside if os.path.exists(beside) else f"libtulvorn.so.{INTERFACE}"))
    for name, kinds in FUNCTIONS.items():
        given, _, result = kinds.partition(":")
        function = getattr(library, name)
        function.argtypes = [LETTERS[it] for it in given]
        function.restype = LETTERS[result] if result else None
    if library.tulvorn_interface() != INTERFACE:
        raise ImportError("libtulvorn.so is of another interface than tulvorn.py")
    return library


_library = _loaded()


class TulvornError(Exception):
    """Why a call did not do what it was asked for, in words, with the code of the library, as `tulvorn.REFUSED`, the
    reason `why` in a word or two, or '' where there is none, and the place `at`. Where `Type.of` refuses a value, and
    not the library, code and place are None."""

    def __init__(self, words, fault=None):
        super().__init__(words)
        self.code, self.at = (fault.code, fault.at) if fault else (None, None)
        self.why = REASONS[fault.code][fault.why] if fault and fault.code in REASONS else ""


class ModuleError(TulvornError):
    """A text is no module, or a larger one than is read (`too large`). Where `why` is `bad character`, `unexpected` or
    `out of profile`, `at` is the place in its octets, from 0; else it is 0. The words have the line, with a mark."""


class DecodeError(TulvornError):
    """Octets are no encoding: refused (REFUSED) at the unit `at`, a bit of PER or an octet of OER, counted from 1; or
    cut short (TRUNCATED) after `at` units; or more octets follow the first `at`, by both rules (REST). With every other
    code `at` is 0: they are too long, no message of any version (`Type.read_newer`), or come after a session has
    ended."""


class EncodeError(TulvornError):
    """A value has no encoding, or what was given is no value of the type, or no JSON."""


class Absent(KeyError):
    """A value does not have a part that other values of its type have: it is absent without a DEFAULT, another
    alternative is chosen, or the list has fewer elements."""


def _words(fault, rules):
    words = _Held()
    if _library.tulvorn_words(fault, rules, words.handle) != DONE:
        raise MemoryError
    return words.copied().decode()


def _look(kind, code, fault, rules=PER):
    if code == NO_MEMORY:
        raise MemoryError
    if code != DONE:
        raise kind(_words(fault, rules), fault)


def _look_part(code, path):
    if code == ABSENT:
        raise Absent(path)
    if code == NO_PATH:
        raise KeyError(path)
    if code == OTHER_KIND:
        raise TypeError(f"{path or '$'} is of another kind")
    _look(TulvornError, code, Fault(code))


def _rules(rules):
    if isinstance(rules, bool) or rules not in RULES:
        raise ValueError(f"no encoding rules: {rules!r}")
    return RULES[rules]


def _text(given):
    """The octets of a text."""
    if not isinstance(given, str):
        raise TypeError(f"a str is wanted, and this is a {type(given).__name__}")
    return given.encode()


def _octets(given):
    """The octets of what has a buffer. They are looked at once: another thread may change them."""
    return given if type(given) is bytes else memoryview(given).tobytes()


class _Held:
    """A handle that closes itself, and the lock that is held while a call changes what it holds."""

    def __init__(self):
        self.handle = Handle()
        self.lock = threading.Lock()

    def __del__(self):
        _library.tulvorn_close(self.handle)

    def __reduce_ex__(self, protocol):
        raise TypeError(f"a {type(self).__name__} is held by the library, and is neither copied nor pickled")

    def copied(self):
        needed = ctypes.c_size_t()
        if _library.tulvorn_copy(self.handle, None, 0, needed) == MISUSE:
            raise ValueError("no octets")
        room = ctypes.create_string_buffer(max(1, needed.value))
        _library.tulvorn_copy(self.handle, room, needed.value, needed)
        return room.raw[: needed.value]


class Value(_Held):
    """A value with its type, which `Type` and `Session` return.

    Its parts are read by paths, as `coreData.speed` or `path[3].x`. A `$` at the very front is ignored. The path is cut
    at each `.`, `[` and `]`. An empty piece is ignored. One of at most nine digits is the index of an element, counted
    from 0. Any other is the name of a component or of the chosen alternative. An absent component is its
    DEFAULT. The empty path is the value itself. A call on a part raises Absent if the value does not have it, and
    KeyError if no value of the type has it, as with a misspelt name. Absent is a KeyError too. It raises TypeError if
    the part is of another kind than the call is for.
    """

    def encode(self, rules="per"):
        """The encoding, as bytes. Raises EncodeError where there is none: of a value of `Type.read_newer` with an item
        or an alternative that the type has not, or where it would have more than 268,435,455 octets."""
        octets, fault, rules = _Held(), Fault(), _rules(rules)
        code = _library.tulvorn_encode(self.handle, rules, octets.handle, fault)
        _look(EncodeError, code, fault, rules)
        return octets.copied()

    def encoded_len(self, rules="per"):
        """How many octets the encoding has, which is not made. Raises as `encode` does."""
        size, fault, rules = ctypes.c_size_t(), Fault(), _rules(rules)
        code = _library.tulvorn_encoded_len(self.handle, rules, size, fault)
        _look(EncodeError, code, fault, rules)
        return size.value

    def to_json(self):
        """The JSON of the value, as a str without blanks, its members in alphabetical order."""
        text, fault = _Held(), Fault()
        code = _library.tulvorn_to_json(self.handle, text.handle, fault)
        _look(EncodeError, code, fault)
        return text.copied().decode()

    def _part(self, function, path, out, *between):
        octets = _text(path)
        code = function(self.handle, octets, len(octets), *between, out)
        _look_part(code, path)
        return out.value

    def _string(self, function, path):
        needed = ctypes.c_size_t()
        octets = _text(path)
        code = function(self.handle, octets, len(octets), None, 0, needed)
        room = ctypes.create_string_buffer(max(1, needed.value))
        if code == TOO_SHORT:
            code = function(self.handle, octets, len(octets), room, needed.value, needed)
        _look_part(code, path)
        return room.raw[: needed.value]

    def kind(self, path=""):
        """The kind of the part's type, from `tulvorn.BOOLEAN` to `tulvorn.CHOICE`."""
        return self._part(_library.tulvorn_kind, path, ctypes.c_uint32())

    def integer(self, path):
        """The int of an INTEGER."""
        try:
            return self._part(_library.tulvorn_integer, path, ctypes.c_int64())
        except TypeError:
            return self._part(_library.tulvorn_unsigned, path, ctypes.c_uint64())

    def boolean(self, path):
        """The bool of a BOOLEAN."""
        return bool(self._part(_library.tulvorn_boolean, path, ctypes.c_uint32()))

    def count(self, path=""):
        """How many elements a SEQUENCE OF has, or bits, octets or characters a string, of a UTF8String octets; 0 of a
        part of another kind."""
        return self._part(_library.tulvorn_count, path, ctypes.c_size_t())

    def bit(self, path, index):
        """The bit of a BIT STRING at the index, from 0, as a bool. Raises IndexError where there are not so many."""
        index = operator.index(index)
        if not 0 <= index < self._count_of_bits(path):
            raise IndexError(index)
        return self._bit(path, index)

    def _bit(self, path, index):
        return bool(self._part(_library.tulvorn_bit, path, ctypes.c_uint32(), index))

    def _count_of_bits(self, path):
        if self.kind(path) != BIT_STRING:
            _look_part(OTHER_KIND, path)
        return self.count(path)

    def octets(self, path):
        """The bytes of an OCTET STRING."""
        return self._string(_library.tulvorn_octets, path)

    def text(self, path):
        """The str of a character string."""
        return self._string(_library.tulvorn_text, path).decode()

    def name(self, path):
        """The name of the item of an ENUMERATED, or of the chosen alternative of a CHOICE. TypeError too of one that
        the type has not, in a value of `Type.read_newer`: `value` has its number."""
        return self._string(_library.tulvorn_name, path).decode()

    def bits(self, path):
        """The pair of a BIT STRING: its bits as bytes, eight an octet, the first in the highest place, and zeros behind
        the last, and how many they are."""
        count = self._count_of_bits(path)
        octets = bytearray((count + 7) // 8)
        for index in range(count):
            if self._bit(path, index):
                octets[index // 8] |= 0x80 >> index % 8
        return bytes(octets), count

    def __getitem__(self, path):
        """The part at the path, by the kinds of Python. All of the value is made for a SEQUENCE, SEQUENCE OF or CHOICE,
        and nothing else for a part without parts. Raises KeyError."""
        read = READ.get(self.kind(path))
        if read:
            try:
                return read(self, path)
            except TypeError:
                pass  # an item that the type does not have: JSON alone shows it
        shown, at = json.loads(self.to_json()), ""
        for piece in [it for it in path.replace("[", ".").replace("]", ".").lstrip("$").split(".") if it]:
            at = f"{at}.{piece}"
            shown = shown[int(piece) if isinstance(shown, list) else piece]
        return self._of(shown, at)

    def value(self):
        """All of the value, by the kinds of Python."""
        return self._of(json.loads(self.to_json()), "")

    def _of(self, shown, path):
        kind = self.kind(path)
        if kind == SEQUENCE:
            return {name: self._of(part, f"{path}.{name}") for name, part in shown.items()}
        if kind == SEQUENCE_OF:
            return [self._of(part, f"{path}[{index}]") for index, part in enumerate(shown)]
        if kind == CHOICE:
            ((name, part),) = shown.items()
            return (name, None if name.startswith("?") else self._of(part, f"{path}.{name}"))
        if kind == OCTET_STRING:
            return bytes.fromhex(shown)
        if kind == BIT_STRING:
            octets = -(-len(shown) // 8)
            return int(shown.ljust(8 * octets, "0") or "0", 2).to_bytes(octets, "big"), len(shown)
        return shown


# how a part of each kind is read that has no parts itself
READ = {
    BOOLEAN: Value.boolean, NULL: lambda value, path: None, INTEGER: Value.integer, ENUMERATED: Value.name,
    BIT_STRING: Value.bits, OCTET_STRING: Value.octets, CHARACTER_STRING: Value.text,
}

# the kinds of values, in words; and what is given for those whose kind their JSON does not show
KINDS = (
    "", "a BOOLEAN", "a NULL", "an INTEGER", "an ENUMERATED", "a BIT STRING", "an OCTET STRING", "a character string",
    "a SEQUENCE", "a SEQUENCE OF", "a CHOICE",
)
GIVEN = {OCTET_STRING: "bytes", BIT_STRING: "bytes with a number of bits", CHOICE: "a pair with a name"}
BYTES = (bytes, bytearray, memoryview)
NO_JSON_OF = "a value that goes too deep, an int of too many digits, or a str with half of a surrogate pair"


def _json_of(value, path, given):
    """The JSON of a value in the kinds of Python; `given` takes the path and the kind of each part whose kind the JSON
    does not show."""
    if isinstance(value, BYTES):
        given.append((path, OCTET_STRING))
        return bytes(value).hex()
    if isinstance(value, dict) and all(isinstance(name, str) for name in value):
        return {name: _json_of(part, f"{path}.{name}", given) for name, part in value.items()}
    if isinstance(value, list):
        return [_json_of(part, f"{path}[{index}]", given) for index, part in enumerate(value)]
    if isinstance(value, tuple) and len(value) == 2 and isinstance(value[0], str):
        given.append((path, CHOICE))
        return {value[0]: _json_of(value[1], f"{path}.{value[0]}", given)}
    if isinstance(value, tuple) and len(value) == 2 and isinstance(value[0], BYTES):
        given.append((path, BIT_STRING))
        return _bits_of(bytes(value[0]), value[1], path)
    if value is None or isinstance(value, (bool, int, str)):
        return value
    raise EncodeError(f"{path}: no kind of value is given by this {type(value).__name__}")


def _bits_of(octets, count, path):
    """The bits of a BIT STRING as JSON has them. What the last octet has behind them is passed over."""
    if isinstance(count, bool) or not isinstance(count, int) or count < 0 or len(octets) != (count + 7) // 8:
        raise EncodeError(f"{path}: {count!r} is no number of bits that fill {len(octets)} octets")
    return "".join(f"{octet:08b}" for octet in octets)[:count]


class Session(_Held):
    """A message whose octets come in pieces, from `Type.open`. It outlives its type, and is for one message.

    >>> text = "M DEFINITIONS AUTOMATIC TAGS ::= BEGIN T ::= SEQUENCE { a INTEGER (0..255), b INTEGER (0..255) } END"
    >>> session = compile_string(text).type("T").open()
    >>> session.feed(b"\\x07")
    >>> value, used = session.feed(b"\\x08\\xff")
    >>> value.value(), used
    ({'a': 7, 'b': 8}, 1)
    >>> session.finish()
    """

    def __init__(self, rules):
        super().__init__()
        self.rules = rules

    def feed(self, piece):
        """Takes the next piece, octets, and gives a pair of the Value whose encoding ends in it and how many octets of
        the piece belong to that; None where the octets so far are no whole encoding, and one may still follow. Raises
        DecodeError: REFUSED, at the first unit of the message after which none can follow, and TOO_LONG, both again for
        each further piece; SPENT after a value, or after MemoryError."""
        value, used, fault, piece = Value(), ctypes.c_size_t(), Fault(), _octets(piece)
        with self.lock:
            code = _library.tulvorn_feed(self.handle, piece, len(piece), value.handle, used, fault)
        if code == MORE:
            return None
        _look(DecodeError, code, fault, self.rules)
        return value, used.value

    def finish(self):
        """Ends the session. Raises DecodeError where the octets that it took are no whole encoding: TRUNCATED, after
        the units that were taken while one could still follow, also where a piece was refused. That it raises nothing
        does not say that a value was given, which `feed` alone does: after MemoryError of `feed` there is none."""
        fault = Fault()
        with self.lock:
            code = _library.tulvorn_finish(self.handle, fault)
        _look(DecodeError, code, fault, self.rules)


def _skipped(fields, index):
    place, needed = ctypes.c_uint32(), ctypes.c_size_t()
    _library.tulvorn_skipped(fields.handle, index, place, None, 0, needed)
    room = ctypes.create_string_buffer(max(1, needed.value))
    _library.tulvorn_skipped(fields.handle, index, place, room, needed.value, needed)
    return place.value, room.raw[: needed.value]


class Type(_Held):
    """A type of a module, from `Specification.type`. It outlives the module."""

    def share(self):
        """Another object of the same type."""
        other = Type()
        code = _library.tulvorn_share(self.handle, other.handle)
        _look(TulvornError, code, Fault(code))
        return other

    def check(self, octets, rules="per"):
        """Raises DecodeError where the octets are no encoding of a value of the type: REFUSED, TRUNCATED, REST,
        TOO_LONG."""
        fault, rules, octets = Fault(), _rules(rules), _octets(octets)
        code = _library.tulvorn_check(self.handle, rules, octets, len(octets), fault)
        _look(DecodeError, code, fault, rules)

    def decode(self, octets, rules="per"):
        """The Value whose encoding the octets are. Raises as `check` does."""
        value, fault, rules, octets = Value(), Fault(), _rules(rules), _octets(octets)
        code = _library.tulvorn_decode(self.handle, rules, octets, len(octets), value.handle, fault)
        _look(DecodeError, code, fault, rules)
        return value

    def check_within(self, octets, entries, strings, rules="per"):
        """As `check`, of a value that has at most so many entries and octets of its strings. An entry is the value
        itself, and each of its components, absent ones too, of its elements and of its alternatives. A string takes an
        octet for each octet, character or bit, a UTF8String for each octet. Raises DecodeError with OVER_BUDGET too."""
        fault, rules, octets, budget = Fault(), _rules(rules), _octets(octets), Budget(entries, strings)
        code = _library.tulvorn_check_within(self.handle, rules, octets, len(octets), budget, fault)
        _look(DecodeError, code, fault, rules)

    def decode_within(self, octets, entries, strings, rules="per"):
        """As `decode`, of a value that has at most so many entries and octets of its strings: see `check_within`."""
        value, fault, rules, octets = Value(), Fault(), _rules(rules), _octets(octets)
        budget = Budget(entries, strings)
        code = _library.tulvorn_decode_within(self.handle, rules, octets, len(octets), budget, value.handle, fault)
        _look(DecodeError, code, fault, rules)
        return value

    def explain(self, octets, rules="per"):
        """Why the octets are no encoding of a value of the type, and the component in which that shows, as a str:
        `refused at bit 6 in $.ok: default`; None where they are one."""
        words, rules, octets = _Held(), _rules(rules), _octets(octets)
        code = _library.tulvorn_explain(self.handle, rules, octets, len(octets), words.handle)
        _look(TulvornError, code, Fault(code))
        return words.copied().decode() or None

    def read_newer(self, octets, rules="per"):
        """What a receiver of this type reads of a message whose sender's type has more or fewer extension additions: a
        pair of the Value, and a list with a pair for each field that the type has not, of its index among the
        additions, from 0, and its octets, as bytes. Where the value has an item or an alternative that the type has
        not, it has JSON and no encoding. Raises DecodeError: NO_MESSAGE, CUT_MESSAGE, TOO_MANY_ADDITIONS, TOO_LONG."""
        value, fields, fault, rules, octets = Value(), _Held(), Fault(), _rules(rules), _octets(octets)
        code = _library.tulvorn_read_newer(
            self.handle, rules, octets, len(octets), value.handle, fields.handle, fault
        )
        _look(DecodeError, code, fault, rules)
        count = ctypes.c_size_t()
        _library.tulvorn_skipped_count(fields.handle, count)
        return value, [_skipped(fields, index) for index in range(count.value)]

    def convert(self, octets, rules="per"):
        """The octets, as bytes, by the other rules of the value whose encoding by these rules the octets are. Raises as
        `check` does; TOO_LONG also where those by the other rules would be too many."""
        other, fault, rules, octets = _Held(), Fault(), _rules(rules), _octets(octets)
        code = _library.tulvorn_convert(self.handle, rules, octets, len(octets), other.handle, fault)
        _look(DecodeError, code, fault, rules)
        return other.copied()

    def from_json(self, text):
        """The Value that the JSON shows, which is a str. Raises EncodeError: NO_JSON, SHAPE, whose words have the first
        place where it is not of the shape of the type, NOT_OF_TYPE where the shape is right, and a number, a length or
        a character is out of bounds."""
        value, fault, octets = Value(), Fault(), _text(text)
        code = _library.tulvorn_from_json(self.handle, octets, len(octets), value.handle, fault)
        if code == SHAPE:
            raise EncodeError(self.explain_json(text), fault)
        _look(EncodeError, code, fault)
        return value

    def explain_json(self, text):
        """Why the JSON, which is a str, shows no value of the type, as a str: `not of the type's shape at $.ok`, with
        the first place where it is not, or `not of the type`, where the shape is right; None where it shows one. Raises
        EncodeError where it is no JSON."""
        words, octets = _Held(), _text(text)
        code = _library.tulvorn_explain_json(self.handle, octets, len(octets), words.handle)
        _look(EncodeError, code, Fault(code))
        return words.copied().decode() or None

    def misfit(self, value):
        """The first part of a Value, also of another type, that does not fit this type, and why, as a str:
        `$.id: 5 is not in 0..3`; None where it fits. Raises TypeError where it is no Value."""
        if not isinstance(value, Value):
            raise TypeError(f"a Value is wanted, and this is a {type(value).__name__}")
        words = _Held()
        code = _library.tulvorn_misfit(self.handle, value.handle, words.handle)
        _look(TulvornError, code, Fault(code))
        return words.copied().decode() or None

    def open(self, rules="per"):
        """A Session for a value of the type, which has taken no octet."""
        session = Session(_rules(rules))
        code = _library.tulvorn_open(self.handle, session.rules, session.handle)
        _look(TulvornError, code, Fault(code))
        return session

    def of(self, value):
        """The Value of the type that is given by the kinds of Python. Raises EncodeError where it is none: the words
        have the first path where it is of another kind or shape; where a number, a length or a character is out of
        bounds the code is NOT_OF_TYPE, without a place."""
        given = []
        try:
            made = self.from_json(json.dumps(_json_of(value, "$", given)))
        except (RecursionError, ValueError):
            raise EncodeError(NO_JSON_OF) from None
        except EncodeError as fault:
            if fault.code != NO_JSON:
                raise
            raise EncodeError(NO_JSON_OF) from None
        for path, kind in given:
            if (found := made.kind(path)) != kind:
                raise EncodeError(f"{path}: {GIVEN[kind]}, and the type has {KINDS[found]} there")
        return made


def _explained(text):
    """Why octets are no module, in words."""
    words = _Held()
    if _library.tulvorn_explain_module(text, len(text), words.handle) != DONE:
        raise MemoryError
    return words.copied().decode()


class Specification(_Held):
    """A module that was read, from `compile_string` or `compile_files`, and the encoding rules that its calls take
    if no others are given."""

    def __init__(self, text, rules="per"):
        super().__init__()
        self.rules, self._types = _rules(rules), {}
        octets, fault = _text(text), Fault()
        code = _library.tulvorn_module(octets, len(octets), self.handle, fault)
        if code == NO_MODULE:
            raise ModuleError(_explained(octets), fault)
        _look(ModuleError, code, fault)

    def type(self, name, levels=None):
        """The Type that the module assigns to the name, one object however often it is asked for. Raises KeyError where
        it assigns none, and ModuleError, with the code TOO_DEEP, if it has more than `levels` levels."""
        if name not in self._types or levels is not None:
            made, fault, octets = Type(), Fault(), _text(name)
            if levels is None:
                code = _library.tulvorn_type(self.handle, octets, len(octets), made.handle, fault)
            else:
                code = _library.tulvorn_type_levels(self.handle, octets, len(octets), levels, made.handle, fault)
            if code == NO_NAME:
                raise KeyError(name)
            _look(ModuleError, code, fault)
            self._types.setdefault(name, made)
        return self._types[name]

    def difference(self, name):
        """How the type that the module assigns to the name differs from the published type, as the text says: a str as
        `wider: a constraint is not looked at`; None where the text says nothing. Raises KeyError where the module assigns
        no type."""
        words, octets = _Held(), _text(name)
        code = _library.tulvorn_difference(self.handle, octets, len(octets), words.handle)
        if code == NO_NAME:
            raise KeyError(name)
        _look(ModuleError, code, Fault(code))
        return words.copied().decode() or None

    def encode(self, name, value, rules=None):
        """The encoding, as bytes, of the value of the named type that is given by the kinds of Python. Raises KeyError
        as `type` does, and EncodeError as `Type.of` and `Value.encode` do."""
        return self.type(name).of(value).encode(self.rules if rules is None else rules)

    def decode(self, name, octets, rules=None):
        """The value of the named type whose encoding the octets are, by the kinds of Python. Raises KeyError as `type`
        does, and DecodeError as `Type.check` does."""
        return self.type(name).decode(octets, self.rules if rules is None else rules).value()

    def decode_with_length(self, name, octets, rules=None):
        """The pair of the value with whose encoding the octets begin, by the kinds of Python, and how many octets that
        has. Raises as `decode` does, but where more octets follow."""
        octets = _octets(octets)
        try:
            return self.decode(name, octets, rules), len(octets)
        except DecodeError as fault:
            if fault.code != REST:
                raise
            return self.decode(name, octets[: fault.at], rules), fault.at


def compile_string(text, rules="per"):
    """The Specification of the module that the text is, a str; `rules` are the encoding rules that its calls take if
    no others are given. Raises ModuleError where the text is no module of the profile."""
    return Specification(text, rules)


def compile_files(files, rules="per"):
    """The same of a file, by its name, or of one text in several files, by a list of their names, with an LF after each
    but the last. They are read as UTF-8, and no character of them is changed. Raises OSError and UnicodeDecodeError
    too."""
    texts = []
    for name in [files] if isinstance(files, (str, os.PathLike)) else files:
        with open(name, encoding="utf-8", newline="") as it:
            texts.append(it.read())
    return Specification("\n".join(texts), rules)


def version():
    """The version of the library, a str; it ends with `not proved` where it was built without a proof."""
    needed = ctypes.c_size_t()
    _library.tulvorn_version(None, 0, needed)
    room = ctypes.create_string_buffer(max(1, needed.value))
    _library.tulvorn_version(room, needed.value, needed)
    return room.raw[: needed.value].decode()
