#!/usr/bin/env python3
"""How the time of the program grows with hostile texts of published modules, of the kinds of tests/program/published_texts.txt.

usage: bench/hostile.py PROGRAM [KIND..]

PROGRAM is asn_tool. For each kind, or those named, it runs `flatten` on a text and on one twice as long, each twice, and
prints the shorter seconds of a processor, the most memory and how many times as long the longer text took. Where nothing
grows faster than the text, that is about two; the last line names the kinds with more than three and a half, of those that
took a third of a second.
"""
import os
import sys
import tempfile

sys.dont_write_bytecode = True
TOP = os.path.dirname(os.path.dirname(os.path.abspath(__file__)))
sys.path.insert(0, f"{TOP}/tests/program")
from published_texts import kinds, written
from run import run

# how many times as long twice the text may take before it is named, and from how many seconds on
TIMES, SECONDS = 3.5, 0.3


def shortest(program, kind, size):
    """The seconds of a processor and the MB of the shorter of two runs on a text of this size."""
    with tempfile.TemporaryDirectory(prefix="tulvorn-hostile-") as room:
        os.chdir(room)
        words = [program, "flatten", "--report", "text", *written(kind, size)]
        return min(run(words, ends=500)[3:] for _ in range(2))


def main(words):
    found = kinds()
    if not words or any(it not in found for it in words[1:]):
        print(__doc__, file=sys.stderr)
        return 2
    program, faster = os.path.abspath(words[0]), []
    for name in words[1:] or found:
        half = found[name].half
        one, two = (shortest(program, found[name], size) for size in (half, 2 * half))
        times = two[0] / max(one[0], 0.01)
        print(f"{name}, {half}: {one[0]:.2f} s, {one[1]:.0f} MB; {2 * half}: {two[0]:.2f} s, {two[1]:.0f} MB; {times:.1f} times", flush=True)
        faster += [name] * (two[0] > SECONDS and times > TIMES)
    print(f"growing faster than the text: {', '.join(faster) or 'none'}")
    return 0


if __name__ == "__main__":
    sys.exit(main(sys.argv[1:]))
