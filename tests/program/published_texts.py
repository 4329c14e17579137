"""Writes the hostile texts of published modules, whose kinds are in published_texts.txt."""
import os
from collections import namedtuple

from run import HERE, MARK, Written, expand, parts_of, text_of, write

Kind = namedtuple("Kind", "half text files first most")


def kind_of(lines, half, files="1"):
    """The %n of the shorter text, the text, how many files, the first line of its report, and the limit of memory."""
    text = Written()
    for line in lines:
        if line[0] == "|":
            text.add(*MARK.fullmatch(line).groups()[1:])
    first, most = (next((it[2:] for it in lines if it[0] == mark), None) for mark in "!^")
    return Kind(int(half), text.octets.decode(), files, first, most and int(most) << 20)


def kinds():
    """The kinds by their names."""
    found = {}
    for (head, *lines), names in parts_of(text_of(f"{HERE}/published_texts.txt")):
        found[head[2:]] = kind_of(lines, *(text for (_, text), in names))
    return found


def written(kind, size):
    """Writes the text with this %n, and returns the names of its files.

    Another process makes it: the system counts, as memory of a program, what the process had that started it."""
    files = range(eval(kind.files, {"n": size}))
    made = os.fork()
    if made == 0:
        try:
            for i in files:
                write(f"{i}.asn", expand(kind.text, n=size, i=i))
        finally:
            os._exit(0)
    os.waitpid(made, 0)
    return [f"{i}.asn" for i in files]
