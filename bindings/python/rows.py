"""Calls the library from Python on the rows that bindings/tests/rows.py writes, and ends with status 0 where each answer is
right.

usage: python3 bindings/python/rows.py FILE
"""

import sys

import tulvorn

WHY = tulvorn.WHY


def octets(word):
    return None if word == "-" else bytes.fromhex(word[2:])


def text(word):
    return None if word == "-" else octets(word).decode()


def fault_of(call, *given):
    """The fault of a call that is to have one."""
    try:
        call(*given)
    except tulvorn.DecodeError as fault:
        return fault
    raise AssertionError("it is taken")


def taken(kind, rules, message):
    """The octets are the encoding of a value, which comes back from JSON, from the kinds of Python and from the other
    rules."""
    kind.check(message, rules)
    assert kind.explain(message, rules) is None
    value = kind.decode(message, rules)
    assert value.encode(rules) == message and value.encoded_len(rules) == len(message)
    assert kind.of(value.value()).encode(rules) == message
    assert kind.from_json(value.to_json()).encode(rules) == message
    newer, fields = kind.read_newer(message, rules)
    assert newer.encode(rules) == message and fields == []
    assert kind.convert(kind.convert(message, rules), 1 - rules) == message
    return value


def of_value(kind, per, oer, json, shown):
    given = [octets(per), octets(oer)]
    for rules, message in enumerate(given):
        if message is None:
            continue
        value = taken(kind, rules, message)
        assert shown == "-" or value.to_json() == text(shown)
        assert json == "-" or kind.from_json(text(json)).encode(rules) == message
        assert given[1 - rules] is None or kind.convert(message, rules) == given[1 - rules]


def of_check(kind, rules, message, code, why, at):
    rules, message = int(rules), octets(message)
    if int(code) == tulvorn.DONE:
        taken(kind, rules, message)
        return
    for call in kind.check, kind.decode, kind.convert:
        fault = fault_of(call, message, rules)
        assert (fault.code, fault.why, fault.at) == (int(code), WHY[int(why)], int(at))
    assert kind.explain(message, rules)


def of_newer(kind, rules, message, code, shown, fields):
    rules, message = int(rules), octets(message)
    if int(code) != tulvorn.DONE:
        assert fault_of(kind.read_newer, message, rules).code == int(code)
        return
    value, skipped = kind.read_newer(message, rules)
    told = [] if fields == "-" else [it.split(":") for it in fields.split(",")]
    assert value.to_json() == text(shown) and skipped == [(int(place), octets(held)) for place, held in told]


ROWS = {"value": of_value, "check": of_check, "newer": of_newer}


def main():
    spec, kind, count, left = None, None, 0, 0
    with open(sys.argv[1], encoding="utf-8") as it:
        for line in it:
            what, *words = line.rstrip("\n").split(" ")
            if what == "module":
                spec = tulvorn.compile_string(text(words[0]))
            elif what == "type":
                kind = spec.type(words[0])
            elif what == "end":
                assert count + left == int(words[0])
            elif what in ROWS:
                ROWS[what](kind, *words)
                count += 1
            else:
                left += 1
    print(f"Python: {count} rows, passed; {left} of sessions left out")


if __name__ == "__main__":
    main()
