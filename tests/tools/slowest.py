#!/usr/bin/env python3
"""Proves crates from nothing, one function after the other, and prints the functions that take longest.

usage: tests/tools/slowest.py [-n COUNT] CRATE..      at the top of the repository, once the crates below are proved

A time is that of a processor, from the end of the function before to the end of this one: the lemma files that are read
for the first time are in it. It takes as long as a first check of the crate.
"""
import os
import subprocess
import sys

sys.dont_write_bytecode = True
sys.path.insert(0, os.path.dirname(os.path.abspath(__file__)))
from kit import rtlib

TICKS = os.sysconf("SC_CLK_TCK")


def seconds_of(pid):
    """The processor time of a process and of its children that have ended."""
    with open(f"/proc/{pid}/stat", encoding="utf-8") as it:
        fields = it.read().rpartition(")")[2].split()
    return sum(int(it) for it in fields[11:15]) / TICKS


def times_of(crate):
    """(seconds, function) of each function of the crate, and the seconds of the whole check."""
    crate.out = open(os.devnull, "w")
    words = [*rtlib.guarded(), rtlib.RATTLE, "check", *crate.words(["--jobs", "1", "--progress"], keeps=False)]
    found, before = [], 0.0
    how = {"stdin": subprocess.DEVNULL, "stdout": subprocess.PIPE, "stderr": subprocess.STDOUT}
    with subprocess.Popen(words, cwd=crate.folder, text=True, **how) as ran:
        for line in ran.stdout:
            if line.startswith("checked "):
                # (the guard has become the check)
                now = seconds_of(ran.pid)
                found.append((now - before, line.split(",")[0].removeprefix("checked ")))
                before = now
    return found, before, ran.returncode


def main(words):
    count = int(words.pop(words.index("-n") + 1)) if "-n" in words else 5
    names = [it for it in words if it != "-n"]
    crates = [it for it in rtlib.crates_below(os.getcwd()) if it.name in names]
    if not crates or len(crates) != len(names):
        sys.exit(__doc__)
    for crate in crates:
        found, whole, status = times_of(crate)
        slowest = ", ".join(f"`{name.partition('::')[2]}` {took:.0f}" for took, name in sorted(found, reverse=True)[:count])
        print(f"| `{crate.name}` | {len(found)} | {whole:.0f} | {slowest} |{'' if not status else ' NOT PROVED'}", flush=True)


if __name__ == "__main__":
    main(sys.argv[1:])
