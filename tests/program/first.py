#!/usr/bin/env python3
"""Gives asn_first lines, and reads and writes that fail.

usage: tests/program/first.py PROGRAM      a built asn_first

first.txt has the lines. Then tests/memory/fail_call.c is preloaded. A read or write that is interrupted is made again.
Where one fails, or a write takes nothing, standard error says so, and the status is 3.
"""
import os

from run import TOP, run, script

SHOWN = b"id 5, ok TRUE, flag TRUE\n6c\n"


def library():
    """The library that is preloaded, built by the kit's clang, which has no headers, or by another C compiler."""
    kit = os.path.dirname(run(["rt", "doc"]).out.decode().strip()) + "/toolchain"
    words = [os.environ.get("CC", "cc")]
    if os.access(f"{kit}/bin/clang", os.X_OK):
        words = [f"{kit}/bin/clang", f"-B{kit}/lib", f"-fuse-ld={kit}/bin/ld.lld"]
    made = os.path.abspath("fail_call.so")
    run([*words, "-O2", "-shared", "-fPIC", "-nostdlib", "-o", made, f"{TOP}/tests/memory/fail_call.c"], check=True)
    return made


def failures(test):
    """Fails each read and each write in turn. The library lets each take three octets at most."""
    preloaded = {**os.environ, "LD_PRELOAD": library()}

    def expect(given, wanted, **failing):
        test.expect([], given, wanted, env=preloaded | failing)

    for at in "123":
        expect("6c", (0, SHOWN, b""), FAILED_READ=at)
        expect("28000000", (3, b"", b"read failed\n"), FAILED_READ=at, BROKEN="1")
    # nothing is read after the end of the first line
    expect("6c\nzz", (0, SHOWN, b""), FAILED_READ="2", BROKEN="1")
    for at in range(0, len(SHOWN), 3):
        number = str(at // 3 + 1)
        expect("6c", (0, SHOWN, b""), FAILED_WRITE=number)
        for how in ("BROKEN", "NO_OCTET"):
            expect("6c", (3, SHOWN[:at], b"write failed\n"), FAILED_WRITE=number, **{how: "1"})


script(__doc__, "first.txt", failures)
