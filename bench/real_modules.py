#!/usr/bin/env python3
"""What asn_tool makes of published modules as they are handed on: how many types are the same, wider, refused and so on.

usage: bench/real_modules.py PROGRAM FOLDER [OPTION..]     the options are those of `asn_tool flatten`

FOLDER has a folder of files for each protocol, as `epan/dissectors/asn1` of Wireshark's source has, whose files end in
.asn or .asn1. Those of a protocol are flattened together, or each alone where that is refused, as where two of them are
versions of one module. A line for each protocol says how many types have each status, and how many seconds it took; before
it stands a line for each file that is refused whole. The last line has the sums.
"""
import collections
import json
import os
import subprocess
import sys
import time

STATUSES = ("same", "narrower", "wider", "owed", "per only", "refused")


def files_of(folder):
    """The files of modules in a folder, in order."""
    return sorted(f"{folder}/{it}" for it in os.listdir(folder) if it.endswith((".asn", ".asn1")))


def flattened(program, options, files):
    """What is told of the files: the lines of standard error, and None where they are refused whole."""
    ran = subprocess.run([program, "flatten", "--report", "json", *options, *files], stdout=subprocess.DEVNULL, stderr=subprocess.PIPE)
    told = ran.stderr.decode(errors="replace").splitlines()
    return told, None if ran.returncode > 1 else [json.loads(it) for it in told if it.startswith("{")]


def counted(program, options, files):
    """How many types of the files have each status."""
    count = collections.Counter()
    told, report = flattened(program, options, files)
    if report is None and len(files) > 1:
        for file in files:
            count += counted(program, options, [file])
        return count
    if report is None:
        print(f"  {os.path.basename(files[0])} is refused: {told[-1] if told else ''}")
        return count
    count.update(it["status"] for it in report if "type" in it)
    return count


def said(count):
    return ", ".join(f"{count[it]} {it}" for it in STATUSES)


def main(words):
    if len(words) < 2:
        print(__doc__, file=sys.stderr)
        return 2
    program, folder, *options = words
    total = collections.Counter()
    for name in sorted(it for it in os.listdir(folder) if os.path.isdir(f"{folder}/{it}")):
        files = files_of(f"{folder}/{name}")
        if files:
            begun = time.perf_counter()
            count = counted(program, options, files)
            print(f"{name}: {said(count)}, in {time.perf_counter() - begun:.2f} s")
            total += count
    print(f"in all: {said(total)}")
    return 0


if __name__ == "__main__":
    sys.exit(main(sys.argv[1:]))
