"""Writes the examples, the rows of tests/programs/rows and those of constraints.rows in a form that a caller of each
language reads easily.

usage: python3 bindings/tests/rows.py FILE              writes the rows
       python3 bindings/tests/rows.py --corpus FOLDER   writes inputs for bindings/fuzz.sh, and FOLDER/rows of the types

A line has words with one space between them. Octets are 0x and their hexadecimal, so are texts, and - is none:

    module TEXT                                the types below are of this module
    type NAME                                  the rows below are of this type
    value PER OER JSON SHOWN                   these octets are the encodings of one value, JSON shows it, and SHOWN is
                                               its JSON as the library writes it
    check RULES OCTETS CODE WHY AT             tulvorn_check returns this; RULES is 0 for PER and 1 for OER
    newer RULES OCTETS CODE SHOWN FIELDS       tulvorn_read_newer returns this; FIELDS are PLACE:OCTETS with commas between
    pieces RULES PIECES TAKEN CODE WHY AT      a session reads the pieces, with commas between, returns DONE or MORE for
                                               all before piece TAKEN (from 0), and this code for that one; AT is what
                                               `used` returns after DONE
    end COUNT                                  the number of rows

Two rows of 10,000,000 octets are left out. So are rows of kind `none`, which need a value of another type.
"""
import os
import re
import sys

TOP = os.path.dirname(os.path.dirname(os.path.dirname(os.path.abspath(__file__))))
WHY = ("", "sealed", "default", "length", "extension", "character", "padding", "number", "constraint")
ROWS = ("tests/programs/rows/stdin", "bindings/tests/constraints.rows")
DONE, REFUSED, TRUNCATED, REST, NO_MESSAGE, CUT_MESSAGE, TOO_MANY = 0, 3, 4, 5, 16, 17, 18
# rows longer than MOST are left out, and the inputs of the fuzzer have no row longer than SHORT
MOST, SHORT = 400000, 3000
RULES = {"per": 0, "oer": 1}


def lines_of(name):
    with open(f"{TOP}/{name}", encoding="utf-8") as it:
        return it.read().splitlines()


def text_of(name):
    with open(f"{TOP}/{name}", encoding="utf-8") as it:
        return it.read()


def repeated(cell):
    """The cell with <X*N> written out."""
    return re.sub(r"<([^<>]*)\*(\d+)>", lambda it: it[1] * int(it[2]), cell)


def octets(cell):
    """The octets of a cell, with (XxN) written out too, as a word; - for none."""
    if cell == "-":
        return cell
    return "0x" + repeated(re.sub(r"\(([^()]*)x(\d+)\)", lambda it: it[1] * int(it[2]), cell)).replace(" ", "")


def text(words):
    return "0x" + words.encode().hex()


def answer(words):
    """Code, reason and place of an answer of `check`."""
    found = re.match(r"refused at (\d+): (\w+)", words)
    if found:
        return f"{REFUSED} {WHY.index(found[2])} {found[1]}"
    found = re.match(r"cut short after (\d+) units", words)
    if found:
        return f"{TRUNCATED} 0 {found[1]}"
    found = re.match(r"octets left after (\d+)", words)
    if found:
        return f"{REST} 0 {found[1]}"
    return f"{DONE} 0 0"


def received(words):
    """Code, JSON and fields of an answer of `read_newer`."""
    codes = {"refused": NO_MESSAGE, "cut short": CUT_MESSAGE, "too many additions": TOO_MANY}
    if words in codes:
        return f"{codes[words]} - -"
    shown, *fields = repeated(words).split(" +")
    skipped = ",".join(f"{place}:0x{field}" for place, field in (it.split(":") for it in fields))
    return f"{DONE} {text(shown)} {skipped or '-'}"


def session(rules, pieces, answers):
    """The row of a session's pieces up to the first answer that is not `more`."""
    pieces = ["0x" if it == "-" else octets(it) for it in repeated(pieces).split()]
    answers = re.sub(r"<more, \*(\d+)>", lambda it: "more, " * int(it[1]), answers).split(", ")
    taken = next((at for at, it in enumerate(answers[: len(pieces)]) if it != "more"), None)
    if taken is None:
        return None
    used = re.match(r"done (\d+) ", answers[taken])
    code = f"{DONE} 0 {used[1]}" if used else answer(answers[taken])
    return f"pieces {rules} {','.join(pieces)} {taken} {code}"


def of_row(row):
    """The lines of a row, without those of its type."""
    kind, _, *cells = (it.strip() for it in row.split("|"))
    rules, _, what = kind.partition(" ")
    if kind == "value":
        json, *encodings = cells
        return ["value " + " ".join(map(octets, encodings)) + f" {text(repeated(json))} -"]
    if kind == "same":
        return [f"value {octets(cells[0])} {octets(cells[1])} - -"]
    if kind in RULES:
        return [f"check {RULES[kind]} {octets(cells[0])} {answer(cells[1])}"]
    if what == "octet":
        bits = [cells[0].replace("x", "{}").format(*f"{it:08b}"[8 - cells[0].count("x") :]) for it in
                range(2 ** cells[0].count("x"))]
        return [f"check {RULES[rules]} 0x{int(it, 2):02x} {answer(cells[1])}" for it in bits]
    if what == "newer":
        return [f"newer {RULES[rules]} {octets(cells[0])} {received(cells[1])}"]
    if what == "pieces" and len(cells) == 2:
        return [it for it in [session(RULES[rules], *cells)] if it]
    return []


def rows_of(name):
    """The rows of a file, by the text of their module and the name of their type."""
    given, _, lines = text_of(name).partition("====\n")
    names = set(re.findall(r"^(\w+) +::=", given, re.M))
    found = {}
    for row in lines.splitlines():
        if row.startswith("--") or "|" not in row:
            continue
        of_type = row.split("|")[1].strip()
        alone = f"Rows DEFINITIONS AUTOMATIC TAGS ::= BEGIN Row ::= {repeated(of_type)} END"
        key = (given, of_type) if of_type in names else (alone, "Row")
        found.setdefault(key, []).extend(it for it in of_row(row) if len(it) < MOST)
    return sorted(found.items(), key=lambda it: it[0][0] != given)


def rows():
    return [it for name in ROWS for it in rows_of(name)]


def examples():
    for name, of_type in ("rows", "Msg"), ("cam", "Message"), ("bsm", "Message"), ("signalling", "Message"), \
            ("meter-1", "Report"), ("meter-2", "Report"), ("published/report", "Report"):
        module = "published/flattened" if "/" in name else name
        cells = [lines_of(f"examples/{name}.{end}") for end in ("per", "oer", "values")]
        is_meter = name.startswith("meter")
        shown = ["-"] * len(cells[0]) if is_meter else [*map(text, lines_of(f"examples/{name}.json"))]
        made = [f"value 0x{per} 0x{oer} {text(json)} {it}" for per, oer, json, it in zip(*cells, shown, strict=True)]
        if is_meter:
            other = "meter-2" if name == "meter-1" else "meter-1"
            for rules, number in RULES.items():
                messages, answers = f"examples/{other}.{rules}", f"examples/{name}.reads-{rules}"
                pairs = zip(lines_of(messages), lines_of(answers), strict=True)
                made += [f"newer {number} 0x{message} {received(it)}" for message, it in pairs]
        yield (text_of(f"examples/{module}.asn"), of_type), made


def write(file):
    last, count = None, 0
    with open(file, "w", encoding="utf-8") as it:
        for (module, of_type), made in [*examples(), *rows()]:
            if module != last:
                it.write(f"module {text(module)}\n")
            last, count = module, count + len(made)
            it.write("\n".join([f"type {of_type}", *made, ""]))
        it.write(f"end {count}\n")


def corpus(folder):
    """Inputs of bindings/c/fuzz.c, of all rows that are short."""
    write(f"{folder}/rows")
    inputs, at = set(), -1
    for (module, _), made in [*examples(), *rows()]:
        at += 1
        if len(module) < SHORT:
            inputs.add(bytes([at, 6]) + module.encode())
        for row in made:
            kind, *words = row.split(" ")
            if len(row) > SHORT:
                continue
            messages = enumerate(words[:2]) if kind == "value" else [(int(words[0]), words[1])]
            if kind != "pieces":
                inputs |= {bytes([at, rules]) + bytes.fromhex(it[2:]) for rules, it in messages if it != "-"}
            if kind == "value" and words[2] != "-":
                inputs.add(bytes([at, 4]) + bytes.fromhex(words[2][2:]))
    os.makedirs(f"{folder}/inputs")
    for number, it in enumerate(sorted(inputs)):
        with open(f"{folder}/inputs/{number:04}", "wb") as file:
            file.write(it)


def main():
    if sys.argv[1] == "--corpus":
        os.makedirs(sys.argv[2])
        corpus(sys.argv[2])
    else:
        write(sys.argv[1])


if __name__ == "__main__":
    main()
