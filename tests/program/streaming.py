#!/usr/bin/env python3
"""Runs `asn_tool` on messages that come one after the other, which it answers as they come.

usage: tests/program/streaming.py PROGRAM      a built asn_tool

The answers to the messages of `examples` are those to the same messages after a line `====`, in each order and both
rules, whole and in pieces of few octets. An answer comes before the next line is written. The program's memory does not
grow with its input, and it reports what stops it. With --explain standard output is the same. Messages without lines
(--in binary --split) are answered once their last octet has come, also by `fields`. With --stats a terminal shows how
many messages are answered so far. streaming.txt has messages over a budget.
"""
import os
import pty
import tempfile
import time

from run import begin, lines, octets_of, run, script, write

MODULE = "M DEFINITIONS AUTOMATIC TAGS ::= BEGIN T ::= SEQUENCE { id INTEGER (0..7), text OCTET STRING OPTIONAL } END\n"
TYPE = ["--type", "T", "--rules", "per", "--module", "m.asn"]
BINARY = ["--in", "binary", "--split"]
# the most MB for an input of 21 MB
MEGABYTES = 20


def messages(test):
    """The answers are those that come where the module stands before the messages."""
    for name in ("cam", "bsm"):
        module = ["--module", f"examples/{name}.asn"]
        head = octets_of(module[1]) + b"====\n"
        for order, rules, ending in (
            ("show", "per", "per"), ("check", "oer", "oer"), ("encode", "per", "values"), ("convert", "oer", "oer"),
            ("newer", "per", "per"),
        ):
            given, words = octets_of(f"examples/{name}.{ending}"), [order, "--type", "Message", "--rules", rules]
            wanted = test.run(words, head + given)[:3]
            test.expect([*words, *module], given.rstrip(b"\n"), wanted)
            budget = [["--budget", "4294967295"]] * (order in ("show", "check", "convert"))
            for more in [[], ["--explain"], *budget]:
                test.expect([*words, *module, *more], given, wanted)
                if more:
                    test.expect([*words, *more], head + given, wanted)
            some = test.run(words, head + given[:2000])[:2]
            test.expect([*words, *module], given[:2000], some, pieces=3)


def spoilt(name, rules):
    """What some orders read: messages that are cut, have an octet too many, or another first one; and such values."""
    whole = octets_of(f"examples/{name}.{rules}").split()[:20]
    bad = [it[:-2] for it in whole] + [it + b"00" for it in whole] + [b"ff" + it[2:] for it in whole] + [b"zz", b"0"]
    values = octets_of(f"examples/{name}.values").splitlines()[:20]
    encoded = [it[:-1] for it in values] + [b"{}", b"7"] + values
    return {"show": whole + bad, "check": bad, "convert": bad, "newer": bad, "encode": encoded}


def explained(test):
    """With --explain standard error has a line for each refusal, with its number, and standard output is the same."""
    for name, rules in ((name, rules) for name in ("cam", "bsm", "signalling") for rules in ("per", "oer")):
        for order, given in spoilt(name, rules).items():
            words = [order, "--type", "Message", "--rules", rules, "--module", f"examples/{name}.asn"]
            wanted, ran = test.run(words, b"\n".join(given)), test.run([*words, "--explain"], b"\n".join(given))
            refused = [b"line %d" % at for at, it in enumerate(wanted.out.splitlines(), 1) if it.startswith(b"!")]
            reported = [it.split(b": ")[0] for it in ran.err.splitlines()]
            is_well = refused and ran[:2] == wanted[:2] and reported == refused
            test.add(is_well, f"{name} {order} {rules} --explain of refusals: {ran.err[:300]}")


def each_before_the_next(test, words, pieces):
    """Writes pieces to the program, and reads what it answers to each before the next. Its last status is 1."""
    ran = begin([test.program, *words])
    for octets, wanted in pieces:
        os.write(ran.stdin.fileno(), octets)
        answer = b""
        while len(answer) < len(wanted):
            answer += ran.stdout.read(len(wanted) - len(answer)) or b"the end" * len(wanted)
        test.add(answer == wanted, f"{words} {octets}: {answer[:200]}")
    ran.stdin.close()
    test.add(ran.wait() == 1 and ran.stdout.read() == b"", f"{words}: the end of what comes")


def as_they_come(test):
    """Each line, and each message among octets, is answered before the next one is written."""
    write("m.asn", MODULE)
    five, cut = b'{"id":5}\n', b"! cut short after 8 bits\n"
    each_before_the_next(test, ["show", *TYPE], ((b"50\n", five), (b"a0\nb", cut), (b"0\n", cut)))
    each_before_the_next(test, ["show", *TYPE, *BINARY], (
        (b"\x50", five),
        (b"\x50\x70", five + b'{"id":7}\n'),
        (b"\xd0\x2a", b""),
        (b"\xab", b""),
        (b"\xb0\x50\xd0", b'{"id":5,"text":"aabb"}\n' + five),
        (b"\x0f\x51", b"! refused at bit 13: padding\n"),
    ))
    fields, between = [], b""
    for octets in (b"\x50", b"\xd0\x2a\xab\xb0", b"\x0f"):
        fields.append((octets, between + test.run(["fields", *TYPE], octets.hex() + "\n").out))
        between = b"\n"
    each_before_the_next(test, ["fields", *TYPE, *BINARY], fields)


def among_octets(test):
    """Messages without lines, in pieces of each size."""
    for size in (1, 3, 4096, 8191, 8192, 8193, 65536):
        given = (b"\x50\xd0\x2a\xab\xb0" * 7000)[: 4 * size + 5]
        test.expect(["show", *TYPE, *BINARY], given, test.run(["show", *TYPE, "--split"], given.hex())[:2])
        wanted = test.run(["show", *TYPE, "--split"], given[:20000].hex())[:2]
        test.expect(["show", *TYPE, *BINARY], given[:20000], wanted, pieces=min(size, 8193))


def memory(test):
    """The program's memory does not grow with its input, except for the longest line or message."""
    one = test.run(["encode", *TYPE, "--out", "binary"], '{"id":5,"text":"%s"}' % ("aa" * 60_000)).out
    for words, given, times, wanted in (
        (["show", *TYPE], b"50\n" * 350_000, 20, b'{"id":5}\n'),
        (["check", *TYPE, *BINARY], one, 350, b"ok %d\n" % len(one)),
    ):
        with tempfile.TemporaryFile() as it:
            for _ in range(times):
                it.write(given)
            it.seek(0)
            ran = test.run(words, it, ends=350 * len(wanted))
        test.add(ran[:3] == (0, wanted * 350, b""), f"{words} on 21 MB: {ran}")
        test.add(ran.megabytes < MEGABYTES, f"{words} on 21 MB: {ran.megabytes} MB")


def on_a_terminal(test):
    """With --stats a terminal has a line that is written again and again, and taken away."""
    words = ["check", *TYPE, "--stats"]
    mine, theirs = pty.openpty()
    ran = begin([test.program, *words], stderr=theirs)
    os.close(theirs)
    said = b""
    for _ in range(3):
        os.write(ran.stdin.fileno(), b"50\n")
        time.sleep(0.3)
    ran.stdin.close()
    while b"refused: 0" not in said:
        said += os.read(mine, 4096)
    os.close(mine)
    shown = said.split(b"messages: 3")[0]
    is_there = ran.wait() == 0 and b" messages, " in shown and b" a second" in shown
    test.add(is_there, f"a line on a terminal: {said}")
    test.add(shown.endswith(b" \r") and shown.count(b"\r") % 2 == 0, f"the line is taken away: {said}")
    test.add(b"\r" not in test.run(words, b"50\n50\n50\n").err, "nothing where there is no terminal")


def faults(test):
    """A long line, a full disk, a reader that has gone, and a folder as the input."""
    value = b'{"id":5,"text":"%s"}' % (b"aa" * 30_000)
    encoded = test.run(["encode", *TYPE], value)
    test.add(encoded.status == 0 and len(encoded.out) > 60_000, "a line of many pieces is encoded")
    test.expect(["show", *TYPE], encoded.out + b"50", (0, lines([value, b'{"id":5}']), b""))
    with open("/dev/full", "wb") as full:
        ran = test.run(["show", *TYPE], b"50\n", stdout=full)
        test.add((ran.status, ran.err) == (3, b"write failed\n"), f"a full disk: {ran}")
    orders = ["module", "--module", "m.asn"], ["flatten", "m.asn"], ["--help"]
    for words in (["show", *TYPE], ["show", *TYPE, "--explain"], *orders):
        reads, writes = os.pipe()
        os.close(reads)
        ran = test.run(words, b"50\n", stdout=writes)
        os.close(writes)
        test.add((ran.status, ran.err) == (141, b""), f"{words[0]} whose reader has gone: {ran}")
    folder = os.open(".", os.O_RDONLY)
    test.expect(["show", *TYPE], folder, (3, b"", b"read failed\n"))


script(__doc__, "streaming.txt", messages, explained, as_they_come, among_octets, memory, on_a_terminal, faults)
