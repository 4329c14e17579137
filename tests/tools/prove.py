#!/usr/bin/env python3
"""Proves the crates of crates.txt while one writes, each after those that it uses, and skips what is proved already.

usage: tests/tools/prove.py [CRATE..]      at the top of the repository; with names these crates and those below them
       tests/tools/prove.py --form         proves nothing: looks only at what `rt ci` refuses before it proves a crate

The form comes first, in seconds: files that no check reads, links, words that may not stand in a contract, and the format
of `rt fmt`; where it is wrong nothing is proved.

As many are checked side by side as there are processors and memory. What a check proves is kept in crates/NAME/out, as
`rt check` keeps it, so that a later check of the crate begins with it, also in other copies of the repository on this
machine. A line is printed for each crate as it ends; what its check said stands in crates/NAME/out/prove.log. The end
says of each crate that was proved in this run the seconds of a processor, the most memory that one process of its check
had, and the seconds by the clock, the longest first. This is not the gate: `.ci/run` proves all from nothing.
"""
import os
import subprocess
import sys
import threading
import time

sys.dont_write_bytecode = True
sys.path.insert(0, os.path.dirname(os.path.abspath(__file__)))
from kit import rt, rtlib, share_work

PRINTING = threading.Lock()


def say(text):
    with PRINTING:
        print(text, flush=True)


# what the checks of a thread used, the one that is proving a crate: seconds of a processor and most memory
USED = threading.local()


class Counted(subprocess.Popen):
    """A command of which a thread counts what it used, with all that it began and waited for."""

    def wait(self, timeout=None):
        if timeout is None and self.returncode is None:
            _, status, used = os.wait4(self.pid, 0)
            self.returncode = os.waitstatus_to_exitcode(status)
            seconds, most = getattr(USED, "all", (0, 0))
            USED.all = seconds + used.ru_utime + used.ru_stime, max(most, used.ru_maxrss)
        return super().wait(timeout)


def is_in_form(crate, every):
    """Whether `rt ci` would begin to prove the crate; what it would refuse is shown."""
    try:
        rtlib.stop_on_links(crate.folder)
        rtlib.stop_on_unread(crate.folder, every)
        rtlib.stop_on_text(crate, "verdict")
        rt.stop_on_words(crate)
    except SystemExit:
        say(f"{crate.name}: not in form, as shown above")
        return False
    if rtlib.fmt(crate.folder, "--check", sys.stdout):
        say(f"{crate.name}: run rt fmt in {crate.folder}")
        return False
    return True


def look_at_form():
    """Looks at the form of every crate and of the files beside them, as `rt ci` does, and proves nothing."""
    try:
        rt.Crate.allowed = rt.handles_of(os.getcwd())
        crates = sorted(rtlib.crates_below(os.getcwd()), key=lambda it: len(it.below()))
    except SystemExit:
        say("0 passed, 1 failed")
        return 1
    # (each is looked at, so that all that is wrong is shown)
    is_well = all([is_in_form(it, crates) for it in crates])
    say(f"the form of {len(crates)} crates: {'well' if is_well else 'WRONG, as shown above'}")
    return 0 if is_well else 1


def proved(crate):
    """The file that says at which text a program was proved: a library's own folder says it."""
    return f"{crate.folder}/out/proved"


def is_proved(crate):
    return crate.is_built() if crate.makes_rlib() else rtlib.text_of(proved(crate)) == crate.stamp()


def prove(crate, given, jobs, used):
    """Proves a crate whose libraries are proved, notes what that used, and returns whether it is."""
    if not all(given[it.name, "proof"] for it in crate.below()):
        say(f"{crate.name}: a library below is not proved")
        return False
    if is_proved(crate):
        say(f"{crate.name}: proved before")
        return True
    start, log, USED.all = time.time(), f"{crate.folder}/out/prove.log", (0, 0)
    os.makedirs(f"{crate.folder}/out", exist_ok=True)
    with open(log, "w", encoding="utf-8") as crate.out:
        stamp, flags = crate.stamp(), ["--jobs", str(jobs)]
        status = crate.build_rlib(flags, anew=False) if crate.makes_rlib() else crate.check(flags)
    if not status and not crate.makes_rlib():
        with open(proved(crate), "w", encoding="utf-8") as it:
            it.write(stamp)
    used[crate.name] = *USED.all, time.time() - start
    say(f"{crate.name}: {'proved' if not status else f'NOT PROVED ({log})'} in {time.time() - start:.0f} s")
    return not status


def main(names):
    os.chdir(os.path.join(os.path.dirname(os.path.abspath(__file__)), "../.."))
    if names == ["--form"]:
        return look_at_form()
    if any(it.startswith("-") for it in names):
        sys.exit(__doc__)
    subprocess.Popen = Counted
    # the stamps of crates are read by several threads
    rtlib.guarded()
    share_work()
    every = crates = sorted(rtlib.crates_below(os.getcwd()), key=lambda it: len(it.below()))
    lacking = {*names} - {it.name for it in crates}
    if lacking:
        say(f"crates.txt names no {' '.join(sorted(lacking))}")
        return 2
    wanted = {below.name for it in crates if it.name in names for below in [it, *it.below()]}
    crates = [it for it in crates if not names or it.name in wanted]
    if not all([is_in_form(it, every) for it in crates]):
        return 1
    held = rtlib.lock(crates)
    tasks, used = {}, {}
    for crate in crates:
        waits = [(it.name, "proof") for it in crate.below()]
        call = lambda given, jobs, crate=crate: prove(crate, given, jobs, used)
        tasks[crate.name, "proof"] = (waits, crate.count(rb"\n"), rt.need(crate), call)
    failed = [name for (name, _), is_proved in rt.in_lanes(tasks).items() if not is_proved]
    for name, (seconds, most, clock) in sorted(used.items(), key=lambda it: -it[1][0]):
        say(f"{name}: {seconds:.0f} s of a processor, {most / 1e6:.1f} GB, {clock:.0f} s by the clock")
    if used:
        say(f"{len(used)} crates: {sum(it[0] for it in used.values()) / 60:.1f} minutes of a processor")
    say(f"{len(crates) - len(failed)} passed, {len(failed)} failed")
    for it in held:
        os.close(it)
    return 1 if failed else 0


if __name__ == "__main__":
    sys.exit(main(sys.argv[1:]))
