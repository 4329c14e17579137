#!/usr/bin/env python3
"""Runs a program with its first allocation refused, then its second, and so on, until a run reaches no refusal.

usage: tests/memory/refuse_each.py LIBRARY REFUSED HOW PROGRAM FOLDER [WORD..]

tests/memory/refused_allocations.sh calls it. LIBRARY is made of refuse_allocation.c. FOLDER has what the program reads
and writes where nothing is refused: `stdin`, `stdout` and `status`, and `args` instead of the words. HOW is what a run
with a refusal has to do:

calls      one call reports that it was refused memory; its line goes to the file REFUSED. Some calls do without memory
memory     the program ends with the line `memory` and status 3, and has written a beginning of its output
answers    the same, after a beginning of `stderr`; or the program answers as it does otherwise

It writes how many runs had a refusal, and how many of these wrote something; or what is wrong, with status 1.
"""
import os
import re
import signal
import sys

CALL = r"(?:memory|arguments): [A-Za-z ]+: [A-Za-z_:]+"
ONE_CALL = re.compile(rf"(?:{CALL}\nagain|again\n{CALL})\ndone\n*")
SECONDS = 60


def stored(name):
    """What the folder has under a name, nothing where there is none."""
    if not os.path.isfile(f"{FOLDER}/{name}"):
        return b""
    with open(f"{FOLDER}/{name}", "rb") as it:
        return it.read()


def run(number):
    """Runs the program with the allocation of this number refused: its status, output, standard error and refusals."""
    for it in FILES:
        os.ftruncate(it, 0)
        os.lseek(it, 0, os.SEEK_SET)
    given = f"{FOLDER}/stdin" if os.path.isfile(f"{FOLDER}/stdin") else os.devnull
    actions = [(os.POSIX_SPAWN_OPEN, 0, given, os.O_RDONLY, 0)]
    actions += [(os.POSIX_SPAWN_DUP2, it, at) for at, it in enumerate(FILES, 1)]
    env = {**os.environ, "LD_PRELOAD": LIBRARY, "REFUSED_ALLOCATION": str(number)}
    pid = os.posix_spawn(COMMAND[0], COMMAND, env, file_actions=actions, setsigdef=[signal.SIGPIPE])
    signal.signal(signal.SIGALRM, lambda *_: os.kill(pid, signal.SIGKILL))
    signal.alarm(SECONDS)
    status = os.waitstatus_to_exitcode(os.waitpid(pid, 0)[1])
    signal.alarm(0)
    return status, *(os.pread(it, os.fstat(it).st_size, 0) for it in FILES)


def ends_with_memory(status, out, err, before=b""):
    """Whether a run ended with the line `memory`, after a beginning of its output and of what it reports."""
    report, end, last = err.rstrip(b"\n").rpartition(b"\n")
    return status == 3 and last == b"memory" and before.startswith(report + end) and stored("stdout").startswith(out)


def is_well(status, out, err):
    """Whether a run with a refusal did what it has to."""
    is_whole = status == int(stored("status") or 0) and out == stored("stdout")
    if HOW == "memory":
        return ends_with_memory(status, out, err)
    if HOW == "answers":
        return ends_with_memory(status, out, err, stored("stderr")) or is_whole and err == stored("stderr")
    # the words of the command line take memory too: where it is refused, no call is made
    if is_whole or status == 1 and not out.strip(b"\n") and err.rstrip(b"\n") == b"Error: out of memory":
        return True
    text = out.decode(errors="replace")
    if status != 0 or not ONE_CALL.fullmatch(text):
        return False
    with open(REFUSED, "a", encoding="utf-8") as it:
        it.writelines(f"{line}\n" for line in text.split("\n") if re.fullmatch(CALL, line))
    return True


LIBRARY, REFUSED, HOW, PROGRAM, FOLDER, *WORDS = sys.argv[1:]
COMMAND = [PROGRAM, *(stored("args").decode().removesuffix("\n").split("\n") if stored("args") else WORDS)]
FILES = [os.memfd_create(it) for it in ("out", "err", "refused")]
number, begun = 1, 0
while (ran := run(number))[3]:
    begun += bool(ran[1])
    if ran[3] != b"r" or not is_well(*ran[:3]):
        sys.exit(f"{PROGRAM}, allocation {number} refused ({len(ran[3])} in all): {ran[:3]}")
    number += 1
if number == 1 or ran[0] != int(stored("status") or 0) or ran[1] != stored("stdout"):
    sys.exit(f"{PROGRAM}: {'no allocation was refused' if number == 1 else f'without a refusal it answers {ran[:3]}'}")
print(number - 1, begun)
