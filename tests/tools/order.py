#!/usr/bin/env python3
"""How long the proofs of all crates take by the clock, worked out from the seconds of a processor that each takes.

usage: tests/tools/order.py SECONDS [PROCESSORS]

SECONDS is a file with lines such as tests/tools/prove.py ends with, `asn_plan: 606 s of a processor, ..`, or
`asn_plan 606`. The last line of a crate counts. PROCESSORS is 4 by default. Crates begin as `rt ci` begins them in the
gate: each with one job, after those that it uses, and first those with the longest chain of others behind them, counted
in lines. Each crate has a line with its minutes from and to. The last lines show how long all crates take by the clock
and of a processor, and which chain of crates takes longest.
"""
import heapq
import os
import re
import sys
from functools import cache

sys.dont_write_bytecode = True
HERE = os.path.dirname(os.path.abspath(__file__))
sys.path.insert(0, HERE)
from kit import rtlib  # noqa: E402

LINE = re.compile(r"^(\w+):? (\d+(?:\.\d+)?)(?: s of a processor.*)?$", re.M)


def chains(near, weights):
    """Of each crate the greatest weight of a chain of near crates that it begins, and that chain."""
    @cache
    def of(name):
        weight, chain = max(map(of, near[name]), default=(0, []))
        return weight + weights[name], [name, *chain]

    return of


def spans_of(order, below, seconds, processors):
    """From when to when each crate is proved, in seconds, if crates begin in this order."""
    now, proved, running, spans, left = 0.0, set(), [], {}, [*order]
    while left or running:
        for name in [it for it in left if below[it] <= proved][: processors - len(running)]:
            left.remove(name)
            spans[name] = now, now + seconds[name]
            heapq.heappush(running, (spans[name][1], name))
        now, name = heapq.heappop(running)
        proved.add(name)
    return spans


def main(words):
    if not 1 <= len(words) <= 2:
        sys.exit(__doc__)
    with open(words[0], encoding="utf-8") as it:
        seconds = {name: float(count) for name, count in LINE.findall(it.read())}
    os.chdir(f"{HERE}/../..")
    crates, processors = rtlib.crates_below(os.getcwd()), int([*words, 4][1])
    below = {it.name: {low.name for low in it.below()} for it in crates}
    if not {*below} <= {*seconds}:
        sys.exit(f"no seconds are given of {' '.join(it for it in below if it not in seconds)}")
    behind = chains({name: [it for it in below if name in below[it]] for name in below}, {it.name: it.count(rb"\n") for it in crates})
    spans = spans_of(sorted(below, key=behind, reverse=True), below, seconds, processors)
    for name, (begun, ended) in sorted(spans.items(), key=lambda it: it[1]):
        print(f"{name:22} {begun / 60:5.1f} to {ended / 60:5.1f}")
    clock, used = max(ended for _, ended in spans.values()) / 60, sum(seconds[it] for it in spans) / 60
    print(f"by the clock {clock:.1f} minutes, of a processor {used:.1f}, a {processors}th of which is {used / processors:.1f}")
    longest, chain = max(map(chains(below, seconds), below))
    print(f"the longest chain, {longest / 60:.1f} minutes: " + ", ".join(f"{it} {seconds[it] / 60:.1f}" for it in chain[::-1]))


if __name__ == "__main__":
    main(sys.argv[1:])
