"""A test bench: what a receiver has to answer to each of these messages with one bit turned.

usage: python3 bindings/python/test_bench.py MODULE TYPE RULES MESSAGES

MODULE is the file of a module, RULES is per or oer, and MESSAGES a file with a message in hexadecimal a line. Each line
of the output counts, for one message, what its octets with a bit turned are: the encoding of another value, refused,
cut short, or followed by more. Each such value is encoded again and has to give the same octets.
"""

import collections
import sys

import tulvorn

NAMES = {tulvorn.REFUSED: "refused", tulvorn.TRUNCATED: "cut short", tulvorn.REST: "followed by more"}


def turned(octets):
    """The octets with each of their bits turned."""
    for at in range(8 * len(octets)):
        other = bytearray(octets)
        other[at // 8] ^= 0x80 >> at % 8
        yield bytes(other)


def answer(ty, octets, rules):
    try:
        value = ty.decode(octets, rules)
    except tulvorn.DecodeError as fault:
        return NAMES.get(fault.code, "too long")
    if value.encode(rules) != octets:
        raise AssertionError(f"{octets.hex()} is encoded again as other octets")
    return "another value"


def main():
    module, name, rules, messages = sys.argv[1:]
    ty = tulvorn.compile_files(module).type(name)
    with open(messages, encoding="utf-8") as it:
        for line in it:
            octets = bytes.fromhex(line)
            ty.check(octets, rules)
            counts = collections.Counter(answer(ty, it, rules) for it in turned(octets))
            line = ", ".join(f"{count} {what}" for what, count in sorted(counts.items()))
            print(f"{len(octets)} octets: {line}")


if __name__ == "__main__":
    main()
