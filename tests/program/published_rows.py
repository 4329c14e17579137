#!/usr/bin/env python3
"""Looks at the rows of tests/programs/published and at examples/published, without a program.

usage: tests/program/published_rows.py

ROWS.txt names each case of its files by a piece of the text, which is in no other case. The report of the case says
what ROWS.txt says. A type that is not refused has octets in both rules, or in PER alone if OER has others. All octets
are those that the second implementation, examples/reference.py, computes from the type of the profile.
"""
import glob
import json
import re

from run import TOP, reference, script, text_of

FOLDER = f"{TOP}/tests/programs/published"
# the files of which ROWS.txt names each case
LISTED = ("stdin", "stdin.subjects")
REFERENCE = reference()


def cases_of(file):
    """The cases of a file of rows, each as its lines: texts with the options before them, and the rows about them."""
    cases, was_text = [], False
    for line in text_of(file).splitlines():
        if line and not line.startswith("#"):
            is_text = line.startswith((": ", "+ ", "options "))
            if is_text and not was_text:
                cases.append([])
            was_text = is_text
            cases[-1].append(line)
    return cases


def statuses_of(case):
    """What the report says of T and of other types."""
    if any(it.startswith("! ") for it in case):
        return {"fault"}
    said = [it[2:] for it in case if it.startswith("* ")]
    said += [it.split(" ", 2)[2] for it in case if it.startswith("named ")]
    return {word for it in said for word in ("per only", *it.replace(":", "").split()[:1]) if it.startswith(word)}


def octets_of(case):
    """Each value of T with its octets in PER and in OER."""
    return [it.split(" | ") for it in case if it.count(" | ") == 2 and it[0] not in "*!:+=~"]


def listed():
    """What ROWS.txt has: the encodings, and the piece of a case."""
    for line in text_of(f"{FOLDER}/ROWS.txt").splitlines():
        cells = [cell.strip() for cell in re.split(r"(?<!\\)\|", line)[1:-1]]
        if len(cells) == 4 and cells[3].startswith("`"):
            yield cells[2], cells[3][1:-1].replace("\\|", "|").replace("\\n", "\n")


def names(test):
    """ROWS.txt names a case with what it says, and leaves none out."""
    cases = {"\n".join([*it, ""]): it for file in LISTED for it in cases_of(f"{FOLDER}/{file}")}
    named = set()
    for status, piece in listed():
        found = [it for it in cases if piece in it or piece.replace("\n", "\\n") in it]
        if test.add(len(found) == 1, f"ROWS.txt: {piece!r} is a piece of {len(found)} cases"):
            named.update(found)
            case = cases[found[0]]
            said, octets = statuses_of(case), octets_of(case)
            test.add(status in said, f"ROWS.txt: {piece!r}: {status}, and the case has {said}")
            is_whole = any("-" not in it[1:] for it in octets) or status == "per only" and octets
            test.add(status in ("refused", "fault") or is_whole, f"ROWS.txt: {piece!r}: no octets in both rules")
    for text, case in cases.items():
        test.add(text in named, f"ROWS.txt does not name the case {case[:2]}")


def agree(test, module, name, rows):
    """The octets of values in both rules are those of the second implementation; `-` if there are none."""
    types = REFERENCE.Parser(module).module()
    for value, *octets in rows:
        for rules, wanted in zip((REFERENCE.Per, REFERENCE.Oer), octets):
            if wanted != "-":
                made = rules(types).whole(types[name], json.loads(value)).hex()
                test.add(made == wanted, f"{module}: {value} {rules.__name__} {wanted}, and by reference.py {made}")


def octets(test):
    for case in (it for file in sorted(glob.glob(f"{FOLDER}/stdin*")) for it in cases_of(file)):
        for line in case:
            if line.startswith("= "):
                agree(test, f"M DEFINITIONS AUTOMATIC TAGS ::= BEGIN T ::= {line[2:]} END", "T", octets_of(case))
    stored = [text_of(f"examples/published/report.{it}").splitlines() for it in ("values", "per", "oer")]
    agree(test, text_of("examples/published/flattened.asn"), "Report", zip(*stored))


script(__doc__, names, octets, words=(0,))
