#!/usr/bin/env python3
"""Finds long sentences and private words in what users read: pages, help, header and public docstrings (docs/STYLE.md).

usage: tests/program/style.py [FILE..]      all of FILES by default
"""
import glob
import re

from run import TOP, script, text_of

FILES = ["*.md", "*/*.md", "crates/*/README.md", "bindings/c/tulvorn.h", "crates/*/src/*.rt"]
PRIVATE = re.compile(r"\b(tells?|telling|told|stands?|standing|stood|beside|but for|in the place of|by ones|strangers?|"
                     r"(?:is|are) wanting|lets? go|letting go|(?:is|are|was|were|be) had)\b", re.I)
NOT_PROSE = re.compile(r"^```.*?^```|<!--.*?-->|^ *[|#][^\n]*$|^ {4}[^\n]*$|^(?=\W*(?:[-*] |\d+\. ))", re.M | re.S)
DOCSTRING = re.compile(r"((?:^ *///.*\n)+)(?: *#\[.*\n)* *pub ", re.M)


def faults_in(path, text):
    """The sentences that are too long, and those with a private word."""
    if path.endswith(".h"):
        text = "\n\n".join(re.sub(r"^ *\*? *", "", it, flags=re.M) for it in re.findall(r"/\*(.*?)\*/", text, re.S))
    elif path.endswith(".rt"):
        said = re.findall(r'"([^"]*)"', text) if "help" in path else DOCSTRING.findall(text)
        text = "\n\n".join(re.sub(r"^ *///|^  +.*|\\$", "", it, flags=re.M) for it in said)
    text = re.sub(r"`[^`\n]*`|\]\([^)]*\)", " x ", NOT_PROSE.sub("\n\n", text))
    for sentence in re.split(r"\n\s*\n|(?<=[.!?])[)*_]*\s+", text):
        words, private = len(re.findall(r"\w[^\s]*", sentence)), PRIVATE.search(sentence)
        if words > 40 or private:
            yield f"{f'{words} words' if words > 40 else repr(private[0])}: {' '.join(sentence.split())[:90]}"


def itself(_):
    """What is a fault in a page, and what is not."""
    assert [*faults_in("a.md", "word " * 41)] and not [*faults_in("a.md", "word " * 40 + ".\n\n" + "| word " * 41)]
    assert [*faults_in("a.md", "It is told.")] and not [*faults_in("a.md", "```\nIt is told.\n```\nSo is `told`.")]


def style(test):
    files = test.words or sorted(it for name in FILES for it in glob.glob(f"{TOP}/{name}"))
    for file in files:
        faults = [*faults_in(file, text_of(file))]
        test.add(not faults, "\n".join(f"{file}: {it}" for it in faults))


script(__doc__, itself, style, words=range(1000))
