#!/usr/bin/env python3
"""Runs `asn_tool fields`, `types` and `example`, and compares what they show with messages, values and other commands.

usage: tests/program/shown.py PROGRAM      a built asn_tool

The messages are those of `examples`, those of values that `example` writes, messages that are cut short, and ones with
a bit turned. The fields are all units, in order, up to the last or to the refused one. What is marked of them are the
bits of the octets. Their values are those of the JSON that `show` writes, and the last line has the refusal of `show`.
The page of HTML has the same bits and lines, each field in one colour and its neighbours in others. The names of types
are those in the text of the module, and the sizes of messages are within those that `types` shows. What `example` writes
is encoded, and is the value again. shown.txt has other forms of octets, refusals, and sizes worked out by hand.
"""
import html
import json
import re

from run import lines, octets_of, script

MODULES = (("cam", "Message"), ("bsm", "Message"), ("signalling", "Message"), ("rows", "Msg"), ("meter-2", "Report"))
COLUMNS = re.compile(r" {2,}")
FIELD = re.compile(r"(?:-|(\d+)(?:-(\d+))?) {2,}(.*)")
NO_VALUE = re.compile(r"(extension |presence |preamble|length |quantity|unused |choice |tag |padding|absent|open )")
SPAN = re.compile(r'<span class="(\w+)">([^<]*)</span>')
ROW = re.compile(r'<tr class="(\w+)">(.*)</tr>')
CELL = re.compile(r"<td>(.*?)</td>")
FAULT = '<p class="fault">'


def words_of(order, name, top, rules):
    return [order, "--type", top, "--rules", rules, "--module", f"examples/{name}.asn"]


# ---- the lines of one message


def split_lines(text):
    """The lines of each message, between empty lines."""
    return [it.splitlines() for it in text.decode().split("\n\n")] if text else []


def fields_of(shown):
    """The fields of the lines, each as its first and last unit, None without units, and the rest; and the refusal."""
    found = [FIELD.match(it) for it in shown]
    fields = [(int(it[1] or 0) or None, int(it[2] or it[1] or 0) or None, it[3]) for it in found if it]
    return fields, next((line for line, it in zip(shown, found) if not it), None)


def are_units(fields, last):
    """Whether the fields are the units from 1 to the last, in order."""
    ends = [0, *(end for _, end, _ in fields if end)]
    starts = [first for first, _, _ in fields if first]
    return ends[-1] == last and starts == [it + 1 for it in ends[:-1]] and all(map(int.__le__, starts, ends[1:]))


def marked(first, last, rules, octets):
    """How the octets and bits of a field are shown."""
    start, end = (first - 1, last) if rules == "oer" else ((first - 1) // 8, (last + 7) // 8)
    shown = octets[start:end]
    text = shown[:8].hex(" ").upper() + " .." * (len(shown) > 8)
    if rules == "per" and len(shown) <= 2:
        bits = "".join(f" {it:08b}" for it in shown)
        places = iter(range(8 * start + 1, 8 * end + 1))
        text += "".join(it if it == " " or first <= next(places) <= last else "." for it in bits)
    return text


def are_marked(fields, rules, octets):
    """Whether the octets and bits that are shown of each field are those of the message."""
    return all(f"{rest}  ".startswith(marked(*at, rules, octets) + "  ") for *at, rest in fields if at[0])


def cells_of(rest):
    """The columns of a line. A string, which may have spaces, is the last one."""
    before, quote, string = rest.partition('  "')
    return [it for it in COLUMNS.split(before) if it] + ['"' + string] * bool(quote)


def values_of(fields):
    """The values of the fields, of contents and of a DEFAULT that is absent: the last column."""
    rows = [cells_of(rest) for _, _, rest in fields]
    return [it[-1].removeprefix("DEFAULT ") for it in rows if len(it) >= 3 and not NO_VALUE.match(it[-1])]


def leaves(value):
    """The values inside a value as JSON has it, in order."""
    if isinstance(value, (dict, list)):
        return [it for one in (value.values() if isinstance(value, dict) else value) for it in leaves(one)]
    return [value]


def as_notation(value, text):
    """Whether the text is the value as X.680 writes it; of strings of JSON whether it is in the text."""
    if not isinstance(value, str):
        return text == ("NULL" if value is None else str(value).upper())
    shown = "".join(f"\\x{ord(it):02X}" if ord(it) < 32 or 127 <= ord(it) < 160 else it for it in value)
    return shown.upper() in text.upper().replace('""', '"')


def have_value(fields, value):
    """Whether the fields have the parts of the value in order; between them may be those of a DEFAULT."""
    there = iter(values_of(fields))
    return all(any(as_notation(one, it) for it in there) for one in leaves(value))


# ---- the page


def page_units(page, rules):
    """The units on a page, each with its class."""
    body = page[page.index("<pre>") : page.index("</pre>")]
    units = [(text.replace(" ", "") if rules == "per" else text.split(), shade) for shade, text in SPAN.findall(body)]
    return [(unit, shade) for some, shade in units for unit in some]


def is_page(page, rules, octets, fields, refusal):
    """Whether a page shows these fields, each in one colour, and its neighbours in others."""
    units = page_units(page, rules)
    end = max((last for _, last, _ in fields if last), default=0)
    wanted = "".join(f"{it:08b}" for it in octets) if rules == "per" else octets.hex(" ").upper().split()
    rows = [(shade, [html.unescape(it) for it in CELL.findall(cells)]) for shade, cells in ROW.findall(page)]
    if [it for it, _ in units] != [*wanted[:end]] or len(rows) != len(fields):
        return False
    before = None
    for (shade, cells), (first, last, rest) in zip(rows, fields):
        place = "-" if first is None else f"{first}" if first == last else f"{first}-{last}"
        shades = {it for _, it in units[first - 1 : last]} if first else {"none"}
        if (cells[0], cells[4]) != (place, cells_of(rest)[-1]) or shades != {shade} or first and shade == before:
            return False
        before = shade if first else before
    return FAULT not in page if refusal is None else f"{FAULT}{html.escape(refusal)}</p>" in page


# ---- what is tried


def try_messages(test, name, top, rules, messages):
    """The fields of messages, as lines, beside what show answers to them."""
    given = lines(it.hex() for it in messages)
    ran = test.run(words_of("fields", name, top, rules), given)
    answers = test.run([*words_of("show", name, top, rules), "--order", "declared"], given).out.splitlines()
    shown = split_lines(ran.out)
    test.add(ran.status == any(it.startswith(b"!") for it in answers), f"{name} {rules}: status {ran.status}")
    test.add(len(shown) == len(messages), f"{name} {rules}: {len(shown)} of {len(messages)}")
    for octets, here, answer in zip(messages, shown, answers):
        fields, refusal = fields_of(here)
        last = len(octets) * (8 if rules == "per" else 1)
        place = f"{name} {rules} {octets.hex()}"
        if answer.startswith(b"!"):
            test.add(refusal == answer[2:].decode(), f"{place}: {refusal} for {answer}")
            refused = re.match(rb"! refused at \w+ (\d+)", answer)
            last = int(refused[1]) if refused else last
        else:
            test.add(refusal is None, f"{place}: {refusal}")
            test.add(have_value(fields, json.loads(answer)), f"{place}: values {values_of(fields)}")
        test.add(are_units(fields, last), f"{place}: units up to {last}")
        test.add(are_marked(fields, rules, octets), f"{place}: octets and bits")


def try_pages(test, name, top, rules, messages):
    """The page of each message, and one page of all."""
    words, pages = words_of("fields", name, top, rules), ""
    for octets in messages:
        line = lines([octets.hex()])
        shown = fields_of(test.run(words, line).out.decode().splitlines())
        ran = test.run([*words, "--html"], line)
        page = ran.out.decode()
        test.add((ran.status, ran.err) == (shown[1] is not None, b""), f"{name} {rules} page of {octets.hex()}: {ran}")
        test.add(is_page(page, rules, octets, *shown), f"{name} {rules} page of {octets.hex()}")
        pages += page.partition("<h2>line 1</h2>\n")[2].partition("</body>")[0]
    whole = test.run([*words, "--html"], lines(it.hex() for it in messages)).out.decode()
    is_one = whole.count("<html") == 1 and whole.endswith("</html>\n") and "<script" not in whole
    test.add(is_one, f"{name} {rules}: one page")
    sections = re.split(r"<h2>line \d+</h2>\n", whole.partition("</h1>\n")[2].partition("</body>")[0])
    test.add("".join(sections) == pages, f"{name} {rules}: the sections of a page")


def cut_and_turned(octets):
    """The message cut after some octets, followed by one more, and with single bits turned."""
    made = [octets[:at] for at in range(0, len(octets), max(1, len(octets) // 12))] + [octets + b"\0"]
    for at in range(0, 8 * len(octets), max(1, 8 * len(octets) // 40)):
        turned = bytearray(octets)
        turned[at // 8] ^= 0x80 >> at % 8
        made.append(bytes(turned))
    return made


def messages_of(text):
    return [bytes.fromhex(it.decode()) for it in text.split()]


def messages(test):
    for (name, top), rules in ((module, rules) for module in MODULES for rules in ("per", "oer")):
        given = messages_of(octets_of(f"examples/{name}.{rules}"))
        values = test.run(["example", "--type", top, "--module", f"examples/{name}.asn", "--count", "40"]).out
        made = messages_of(test.run(words_of("encode", name, top, rules), values).out)
        broken = [it for octets in given[:2] for it in cut_and_turned(octets)]
        for some in (given, made, broken):
            try_messages(test, name, top, rules, some)
        try_pages(test, name, top, rules, [it for it in given[:2] + made[:4] + broken[:6] if it])


def names_of(text):
    """The names of the types that a module of the profile assigns, in order."""
    text = re.sub(r"--.*?(--|$)", " ", text.decode(), flags=re.M)
    return re.findall(r"([A-Z][A-Za-z0-9-]*)\s*::=", text.partition("BEGIN")[2])


def extent(text):
    """The least and the greatest number of `N`, `N..M` or `N..`."""
    low, dots, high = text.partition("..")
    return int(low), int(high) if high else float("inf") if dots else int(low)


def types(test):
    """The names of a module, and of each type its sizes, within which those of some of its values are."""
    for name, _ in MODULES:
        module = f"examples/{name}.asn"
        names = names_of(octets_of(module))
        for words, given in (["types", "--module", module], b""), (["types"], octets_of(module)):
            test.expect(words, given, (0, lines(names), b""))
        for one in names:
            ran = test.run(["types", one, "--module", module])
            rows = ran.out.decode().splitlines()
            test.add((ran.status, ran.err) == (0, b"") and rows[1].startswith(one + " "), f"{name} {one}: {ran}")
            in_per, in_oer = re.search(r"has (\S+) octets", rows[-1])[1], COLUMNS.split(rows[1].strip())[-1]
            example = ["example", "--type", one, "--module", module]
            values = test.run([*example, "--count", "12"]).out + test.run(example).out
            for rules, within in (("per", extent(in_per)), ("oer", extent(in_oer))):
                made = test.run(words_of("encode", name, one, rules), values)
                sizes = [len(it) // 2 for it in made.out.split(b"\n")[:-1]]
                test.add(made.status == 0 and len(sizes) == 13, f"{name} {one} {rules}: {made}")
                is_within = all(within[0] <= it <= within[1] for it in sizes)
                test.add(is_within, f"{name} {one} {rules}: {sizes} in {within}")


def examples(test):
    """The values that `example` writes: by seed and count, and encoded and shown again."""
    for name, top in MODULES:
        module = f"examples/{name}.asn"
        start = ["example", "--type", top]
        words = [*start, "--module", module]
        many = test.run([*words, "--count", "25", "--seed", "3"]).out.splitlines()
        test.add(len(many) == 25, f"{name}: {len(many)} values")
        for at in (0, 1, 24):
            test.expect([*words, "--seed", str(3 + at)], b"", (0, many[at] + b"\n", b""))
        from_none = test.run([*words, "--seed", "0", "--count", "2"])[:3]
        test.expect([*words, "--count", "2"], b"", from_none)
        test.expect([*words, "--count", "0"], b"", (0, b"", b""))
        one = test.expect(start, octets_of(module), test.run(words)[:3])
        values = lines([one.out.strip(), *many])
        for rules in ("per", "oer"):
            made = test.run(words_of("encode", name, top, rules), values)
            test.add(made.status == 0 and b"!" not in made.out, f"{name} {rules}: values are encoded: {made.status}")
            test.expect(words_of("show", name, top, rules), made.out, (0, values, b""))
        test.add(len(set(many)) > 15, f"{name}: {len(set(many))} values of 25 seeds")
        test.expect(["example", "--type", "Nope", "--module", module], b"", (2, b"! no type Nope\n", b""))


def published(test):
    """Fields of published types, and of those that they become."""
    room = "examples/published"
    for rules in ("per", "oer"):
        given, words = octets_of(f"{room}/report.{rules}"), ["fields", "--type", "Report", "--rules", rules, "--module"]
        alone = test.run([*words, f"{room}/flattened.asn"], given)
        test.expect([*words, f"{room}/report.asn", f"{room}/common.asn"], given, (0, alone.out, b""))


script(__doc__, "shown.txt", messages, types, examples, published)
