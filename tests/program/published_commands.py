#!/usr/bin/env python3
"""Runs each command of asn_tool on published modules: as files and on standard input, with each option.

usage: tests/program/published_commands.py PROGRAM

published_commands.txt has the modules, which have a type of each status, and the commands on types that are refused.
published_types.txt has types that serve. The octets of these are those of the second implementation,
examples/reference.py. The three forms of a report say the same.
"""
import json
from itertools import product

from run import HERE, cases_of, lines, octets_of, reference, script, text_of

REFERENCE = reference()
ORDERS, RULES = ("encode", "show", "check", "convert", "newer"), {"per": REFERENCE.Per, "oer": REFERENCE.Oer}
FILES = ["meters.asn", "common.asn"]
STATUSES = ("same", "narrower", "wider", "owed", "per only", "refused")


def messages(types, name, values, order, rules):
    """What an order reads of these values, and what it answers."""
    octets = {it: [RULES[it](types).whole(types[name], value).hex() for value in values] for it in RULES}
    shown = [json.dumps(REFERENCE.shown(types, types[name], value), separators=(",", ":")) for value in values]
    if order == "encode":
        return lines(shown), lines(octets[rules])
    checked = [f"ok {len(it) // 2}" for it in octets[rules]]
    other = octets["oer" if rules == "per" else "per"]
    answers = {"show": shown, "newer": shown, "check": checked, "convert": other}
    return lines(octets[rules]), lines(answers[order])


def of_stdin(remarks):
    """The remarks on the modules as one text on standard input."""
    before = text_of("meters.asn").count("\n")
    for file, line, rest in (it.split(":", 2) for it in remarks.decode().splitlines()):
        yield f"<stdin>:{int(line) + before * (file == 'common.asn')}:{rest}"


def orders(test):
    """Each order with each type in both rules, and with the type of the profile that it becomes."""
    text, flat = b"".join(map(octets_of, FILES)) + b"====\n", REFERENCE.Parser(text_of("flat.asn")).module()
    for case in cases_of(text_of(f"{HERE}/published_types.txt")):
        (name, *options), remarks = case.words, case.said["!"].octets
        values = [*map(json.loads, case.said["<"].octets.splitlines())]
        types = REFERENCE.Parser(test.run(["flatten", *options, *FILES]).out.decode()).module()
        for order, rules in product(ORDERS, RULES):
            words = [order, "--type", name, "--rules", rules, "--accept-wider", *options]
            given, wanted = messages(types, name, values, order, rules)
            test.expect([*words, "--module", *FILES], given, (0, wanted, remarks))
            test.expect(words, text + given, (0, wanted, lines(of_stdin(remarks))))
        for order in ORDERS:
            given, wanted = messages(flat, name, values[:1], order, "oer")
            test.expect([order, "--type", name, "--rules", "oer", "--module", "flat.asn"], given, (0, wanted, b""))


def remark(one, note):
    """A line of the text of a report, of one type."""
    place = ".".join(it for it in (one["type"], note["component"]) if it)
    return f"{one['file']}:{note['line']}: {place}: {note['status']}: {note['remark']}"


def reports(test):
    """The three forms of the report say the same, with and without --strict and what is left to the caller."""
    leave = "--plain-bits --octets --levels 2"
    for options in ("", "--plain-bits", "--octets", "--levels 2", leave, "--strict", f"--strict {leave}"):
        words = f"{options} meters.asn common.asn --report"
        text, whole, summary = (test.run(f"flatten {words} {it}") for it in ("text", "json", "summary"))
        types = [*map(json.loads, whole.err.splitlines())]
        said = [remark(it, note) for it in types for note in it["notes"]]
        counts = {it: [one["status"] for one in types].count(it) for it in STATUSES}
        counted = [f"{it}: {count}" for it, count in counts.items()]
        counted.insert(1, f"not the same: {sum(counts[it] for it in STATUSES[1:-1])}")
        test.add(text.err.decode().splitlines() == said, f"flatten {options}: text {text.err}")
        test.add(summary.err.decode().splitlines() == counted, f"flatten {options}: summary {summary.err}")
        is_same = {it[:2] for it in (text, whole, summary)} == {(1, text.out)}
        test.add(is_same, f"flatten {options}: status {text.status}")
        found = [it for it in REFERENCE.Parser(text.out.decode()).module() if "-level-" not in it]
        kept = [it["type"] for it in types if it["status"] != "refused"]
        test.add(found == kept, f"flatten {options}: {found} of {kept}")
        is_strict = counts["same"] + counts["refused"] == len(types)
        test.add("--strict" not in options or is_strict, f"flatten {options}: {counts}")


script(__doc__, "published_commands.txt", orders, reports)
