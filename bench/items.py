#!/usr/bin/env python3
"""How many instructions an item of an ENUMERATED takes, whose items are written in the order of their numbers or in another.

usage: bench/items.py PROGRAM [ROW..]

PROGRAM is that of bench/codec, as bench/run.sh or bench/unproved.sh builds it, and ROW a row of bench/count.sh that
takes its own types: `check-plan` and the others below, where none is named. It needs valgrind. Each type has 256 items,
and each message is a SEQUENCE OF 256 of them, each item once; the count is that of the message by 256.

- ordered: the numbers 0 to 255, in their order
- mixed: the same numbers in another order
- gaps: each third number from -200 on, in another order
- far: numbers of 32 signed bits, in another order
"""
import os
import re
import subprocess
import sys

COUNT, TIMES = 256, 100
MIXED = [(at * 101 + 57) % COUNT for at in range(COUNT)]
KINDS = {
    "ordered": list(range(COUNT)),
    "mixed": MIXED,
    "gaps": [3 * it - 200 for it in MIXED],
    "far": [(it * 2654435761 + 12345) % (1 << 32) - (1 << 31) for it in range(COUNT)],
}
ROWS = (
    "check-plan check-plan-oer decode-flat decode-flat-oer decode-plan into-plan into-plan-oer "
    "check decode decode-oer refuse-plan encode encode-oer plan"
).split()


def message(numbers):
    """The octets of each item once by PER: the count in 14 bits after 10, and the index of each in 8 bits."""
    index = {number: at for at, number in enumerate(sorted(numbers))}
    sent = [numbers[(at * 7 + 3) % COUNT] for at in range(COUNT)]
    return bytes([0x80 | COUNT >> 8, COUNT & 255, *(index[it] for it in sent)]).hex()


def messages():
    """What the program reads: the module, and a line for each message."""
    lines = ["Items DEFINITIONS AUTOMATIC TAGS ::= BEGIN"]
    for name, numbers in KINDS.items():
        items = ", ".join(f"k{at}({number})" for at, number in enumerate(numbers))
        lines.append(f"{name.capitalize()} ::= SEQUENCE OF ENUMERATED {{ {items} }}")
    lines += ["END", "===="]
    lines += [f"{name} {name.capitalize()} {TIMES} {message(numbers)}" for name, numbers in KINDS.items()]
    return "".join(f"{it}\n" for it in lines).encode()


def instructions(program, text, rounds, row, name):
    words = ["valgrind", "--tool=callgrind", "--callgrind-out-file=/dev/null", program, str(rounds), row, name]
    told = subprocess.run(words, input=text, stdout=subprocess.DEVNULL, stderr=subprocess.PIPE, check=True).stderr
    return int(re.search(rb"Collected : (\d+)", told)[1])


def main(words):
    if not words:
        print(__doc__, file=sys.stderr)
        return 2
    program, text = os.path.abspath(words[0]), messages()
    print("| | " + " | ".join(KINDS) + " |")
    print("|---|" + "---|" * len(KINDS))
    for row in words[1:] or ROWS:
        # `plan` makes the plan of the type, once a message
        each = TIMES if row == "plan" else TIMES * COUNT
        counts = [instructions(program, text, 1, row, it) - instructions(program, text, 0, row, it) for it in KINDS]
        print(f"| {row} | " + " | ".join(f"{it // each:,}" for it in counts) + " |", flush=True)
    return 0


if __name__ == "__main__":
    sys.exit(main(sys.argv[1:]))
