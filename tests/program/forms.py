#!/usr/bin/env python3
"""Gives `asn_tool` messages in each form of octets, and compares what it answers and writes in each form and layout.

usage: tests/program/forms.py PROGRAM      a built asn_tool

The messages of `examples` are written here in each form; dumps as xxd, od, hexdump, Wireshark and tcpdump write them.
The answers are those to plain lines of hexadecimal. What `encode` and `convert` write is what Python's own coders make
of the octets. What is shown in a layout is, as Python reads it, the JSON that is shown without one. forms.txt has
faults, dumps, objects of `newer --json`, and counts.
"""
import base64
import json

from run import lines, octets_of, script, write

RULES = {"per": "oer", "oer": "per"}


def as_people_write(message, number):
    """Hexadecimal with blanks, 0x and a comment."""
    digits = message.hex()
    if number % 3 == 0:
        return b"\t" + message.hex(" ").upper().encode() + b"  # message"
    if number % 3 == 1:
        return b" ".join(b"0x%02x" % it for it in message) + b"\r"
    return b"0X" + digits.encode() + b"#00"


def as_block(message):
    """The lines of `xxd -p`, with a comment before them and a blank line after."""
    digits = message.hex()
    return b"# a message\n" + lines(digits[at : at + 60] for at in range(0, len(digits), 60)) + b" \n"


def rows(message, width=16):
    return [(at, message[at : at + width]) for at in range(0, len(message), width)]


def seen(row, least=32):
    """The text column of a row: a full stop for what has no picture."""
    return "".join(chr(it) if least <= it < 127 else "." for it in row)


def xxd(message):
    return [f"{at:08x}: {row.hex(' ', -2):39}  {seen(row)}" for at, row in rows(message)]


def od(message):
    return [*(f"{at:06x} {row.hex(' ')}" for at, row in rows(message)), f"{len(message):06x}"]


def od_with_text(message):
    return [*(f"{at:06x} {row.hex(' '):47}  >{seen(row)}<" for at, row in rows(message)), f"{len(message):06x}"]


def hexdump(message):
    """hexdump -C: two blanks in the middle of a line."""
    halves = ((at, row, f"{row[:8].hex(' ')}  {row[8:].hex(' ')}") for at, row in rows(message))
    return [*(f"{at:08x}  {both:50}|{seen(row)}|" for at, row, both in halves), f"{len(message):08x}"]


def wireshark(message):
    return [f"{at:04x}   {row.hex(' ')}" for at, row in rows(message)]


def wireshark_with_text(message):
    return [f"{at:04x}  {row.hex(' '):47}   {seen(row)}" for at, row in rows(message)]


def tcpdump(message):
    """tcpdump -x: a heading, and offsets with 0x and a colon."""
    heading = "12:00:00.123456 IP 10.0.0.1.2001 > 10.0.0.2.2001: UDP, length 20"
    return [heading, *(f"\t0x{at:04x}:  {row.hex(' ', -2)}" for at, row in rows(message))]


def tcpdump_with_text(message):
    heading = ["12:00:00.123456 IP (tos 0x0, ttl 64)", "    10.0.0.1.2001 > 10.0.0.2.2001: [udp sum ok] UDP, length 20"]
    return [*heading, *(f"\t0x{at:04x}:  {row.hex(' ', -2):39}  {seen(row, 33)}" for at, row in rows(message))]


def array(message):
    """xxd -i."""
    octets = [", ".join(f"0x{it:02x}" for it in row) for _, row in rows(message, 12)]
    octets = [f"  {it}," for it in octets[:-1]] + [f"  {octets[-1]}"]
    return ["unsigned char message_bin[] = {", *octets, "};", f"unsigned int message_bin_len = {len(message)};"]


def array_on_a_line(message):
    return [f"static const uint8_t message[] = {{{','.join(f'0x{it:02X}' for it in message)}}};"]


def columns(separator):
    return lambda message: [row.hex(separator) for _, row in rows(message)]


def digits(message):
    """xxd -p."""
    return [row.hex() for _, row in rows(message, 30)]


DUMPS = (xxd, od, od_with_text, hexdump, wireshark, wireshark_with_text, tcpdump, tcpdump_with_text, array,
         array_on_a_line, columns(" "), columns(":"), columns(","), digits)


def dumps(test):
    """One message in each form of a dump gets one answer; so do all messages of three modules."""
    for name, rules in ((name, rules) for name in ("cam", "bsm", "signalling") for rules in RULES):
        given, messages = messages_of(name, rules)
        for order in ("show", "check", "fields"):
            words = words_of(name, rules, order)
            wanted = test.run(words, given)[:3]
            for way in DUMPS:
                text = "".join(f"{line}\n" for it in messages for line in (*way(it), ""))
                test.expect([*words, "--in", "dump"], text.encode(), wanted)
                text = "# a dump\n \n" + text
                test.expect([*words, "--in", "dump"], text.replace("\n", "\r\n").encode(), wanted)


def messages_of(name, rules):
    given = octets_of(f"examples/{name}.{rules}")
    return given, [bytes.fromhex(it.decode()) for it in given.split()]


def words_of(name, rules, *orders):
    return [*orders, "--type", "Message", "--rules", rules, "--module", f"examples/{name}.asn"]


def forms(test):
    """Each order on each form of the messages of two modules, with the module as a file and before the messages."""
    for name, rules in ((name, rules) for name in ("cam", "bsm") for rules in RULES):
        given, messages = messages_of(name, rules)
        head = octets_of(f"examples/{name}.asn") + b"====\n"
        ways = (
            ([], given.replace(b"\n", b"\r\n")),
            (["--in", "hex"], b"\n# all\n" + lines(as_people_write(it, at) for at, it in enumerate(messages))),
            (["--in", "hex-block"], b"\r\n" + b"".join(map(as_block, messages))),
            (["--in", "base64"], b"".join(base64.b64encode(it) + b"\r\n" for it in messages)),
            (["--in", "binary", "--split"], b"".join(messages)),
            (["--split"], b"".join(messages).hex().encode()),
        )
        for order in ("show", "check", "convert"):
            words = words_of(name, rules, order)
            wanted = test.run(words, given)[:3]
            for way, text in ways:
                test.expect([*words, *way], text, wanted)
                test.expect([*words[:-2], *way], head + text, wanted)


def files_and_written(test):
    """A file for each message; and what encode and convert write in each form, and that it is read again."""
    for name, rules in ((name, rules) for name in ("cam", "bsm") for rules in RULES):
        _, messages = messages_of(name, rules)
        checked = (0, lines(b"ok %d" % len(it) for it in messages), b"")
        files = [write(f"{at}.bin", message) for at, message in enumerate(messages)]
        test.expect([*words_of(name, rules, "check"), "--messages", *files, "--in", "binary"], b"", checked)
        for form, wanted in (
            ("hex", lines(it.hex() for it in messages)),
            ("base64", lines(map(base64.b64encode, messages))),
            ("binary", b"".join(messages)),
        ):
            out, way = ["--out", form], ["--in", form] + ["--split"] * (form == "binary")
            values = octets_of(f"examples/{name}.values")
            ran = test.expect([*words_of(name, rules, "encode"), *out], values, (0, wanted, b""))
            test.expect([*words_of(name, rules, "check"), *way], ran.out, checked)
            there = test.run([*words_of(name, rules, "convert"), *way, *out], wanted)
            test.expect([*words_of(name, RULES[rules], "convert"), *way, *out], there.out, (0, wanted, b""))


def layouts(test):
    """Members in the order of the type, and on lines of their own, as show and newer write them."""
    value = {"cam": {"z": 5, "a": True, "m": [True, False], "b": False}}
    words = ["--type", "C", "--rules", "per", "--module", "layout.asn"]
    octets = test.run(["encode", *words], json.dumps(value)).out
    test.add(octets[:1] != b"!", f"a value with an addition: {octets}")
    by_name, declared = {"sort_keys": True}, {"sort_keys": False}
    for way, layout in (
        ([], {"separators": (",", ":"), **by_name}),
        (["--order", "name"], {"separators": (",", ":"), **by_name}),
        (["--order", "declared"], {"separators": (",", ":"), **declared}),
        (["--pretty"], {"indent": 2, **by_name}),
        (["--pretty", "--order", "declared"], {"indent": 2, **declared}),
    ):
        wanted = lines([json.dumps(value, **layout)])
        for order in ("show", "newer"):
            test.expect([order, *words, *way], octets, (0, wanted, b""))
            plain = test.run([order, *words], b"ff\nx\n").out
            test.expect([order, *words, *way], b"ff\nx\n" + octets, (1, plain + wanted, b""))


def layouts_of_examples(test):
    for name, rules in ((name, rules) for name in ("cam", "bsm", "signalling") for rules in RULES):
        words, given = words_of(name, rules, "show"), octets_of(f"examples/{name}.{rules}")
        shown = [*map(json.loads, test.run(words, given).out.splitlines())]
        for way in (["--order", "declared"], ["--pretty"], ["--pretty", "--order", "declared"]):
            for line, one in zip(given.splitlines(), shown):
                ran = test.run([*words, *way], line)
                test.add(ran.status == 0 and json.loads(ran.out) == one, f"{name} {rules} {way}: {ran}")
    words = "newer --type Report --rules per --module examples/meter-1.asn --pretty"
    read = octets_of("examples/meter-1.reads-per").decode().splitlines()[1]
    text, _, skipped = read.partition(" +")
    wanted = json.dumps(json.loads(text), sort_keys=True, indent=2) + f" +{skipped}\n"
    test.expect(words, octets_of("examples/meter-2.per").splitlines()[1], (0, wanted.encode(), b""))


script(__doc__, "forms.txt", forms, dumps, files_and_written, layouts, layouts_of_examples)
