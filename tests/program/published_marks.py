#!/usr/bin/env python3
"""Checks messages of published types: no plain `ok` where a part is not looked at, or a value is none of the type.

usage: tests/program/published_marks.py PROGRAM

published_messages.txt has types with a remark or a constraint, messages that these concern, and messages that they do
not.
published_marks.txt has recursive types, what other orders write, and what --strict refuses. published_contents.txt has
messages whose octets are encodings of other types.
"""
from run import HERE, cases_of, expand, script, text_of

HEAD = b"M DEFINITIONS AUTOMATIC TAGS ::= BEGIN\n"


def messages(test):
    """Each message is `ok`, with what is not looked at of it and the status 4, or plain with --accept-wider. One that is
    of no value of the type is refused."""
    for case in cases_of(expand(text_of(f"{HERE}/published_messages.txt"))):
        module = HEAD + case.said["<"].octets + b"END\n====\n"
        for line in case.said[">"].octets.decode().splitlines():
            per, oer, *remark = line.split(" ", 2)
            mark = "".join(f", not looked at: {it}" for it in remark)
            for rules, octets in (("per", per), ("oer", oer)):
                if octets != "-":
                    words, ok = ["check", "--type", "T", "--rules", rules, *case.words], f"ok {len(octets) // 2}"
                    given = module + octets.encode() + b"\n"
                    test.expect(words, given, (4 if mark else 0, f"{ok}{mark}\n".encode()))
                    test.expect([*words, "--accept-wider"], given, (0, f"{ok}\n".encode()))
        for line in case.said["!"].octets.decode().splitlines():
            for rules, octets in zip(("per", "oer"), line.split(" ")):
                words = ["check", "--type", "T", "--rules", rules, *case.words]
                ran = test.run(words, module + octets.encode() + b"\n")
                is_refused = ran.status == 1 and ran.out.startswith(b"! ")
                test.add(is_refused, f"{case.said['<'].octets} {octets}: {ran.status} {ran.out}")


script(__doc__, messages, "published_marks.txt", "published_contents.txt")
