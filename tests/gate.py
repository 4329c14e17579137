#!/usr/bin/env python3
"""What a merge has to pass. `.ci/run` calls it, and so may anyone.

form      `tests/tools/prove.py --form`: what `rt ci` refuses before it proves. If it is wrong, the gate ends.
proofs    `rt ci` proves every crate from nothing, and runs the programs as two compilers build them.
edits     `tests/edits/edits.py --due` tries wrong bodies. In a clone without out/ those of a crate follow its proof.
programs  Test programs, built from the sources without a proof, print what is stored. Scripts test the proved programs.
library   `bindings/test.sh` calls the library for C, of the same build, from four languages.

What needs no proof runs beside the proofs at low priority. A line shows each step as it ends, after its own output. The
end shows the minutes of a processor and by the clock of each part, and what failed: of each crate that `rt ci` refused
the first line that says why. The last line is 'N passed, M failed'.
"""
import glob
import os
import re
import subprocess
import sys
import tempfile
import time
from collections import Counter
from concurrent.futures import ThreadPoolExecutor
from threading import Lock

sys.dont_write_bytecode = True
TOP = os.path.dirname(os.path.dirname(os.path.abspath(__file__)))
sys.path[:0] = [f"{TOP}/builder", f"{TOP}/tests/tools"]
from kit import rt  # noqa: E402
from room import files_of  # noqa: E402

# what is built without a proof, the parts of its second program, and the scripts over the proved program, longest first
PROGRAMS = ("tests/programs/outcomes", "tests/programs/checks")
CHECKS = "rows hostile texts constraints contents types names fields published memory memory_texts uses".split()
SCRIPTS = """published limits shown versions streaming published_commands published_marks published_sets published_tags
published_sequences forms bounds""".split()
FIRST, TOOL = "crates/asn_first/out/asn_first", "crates/asn_tool/out/asn_tool"
# the memory of one proof, and the words before what runs beside the proofs
MEMORY, BEHIND = 4_800_000_000, ["nice", "-n", "19"]
COUNT = re.compile(r"(\d+) passed, (\d+) failed(?:, (\d+) skipped)?")
PROVED = re.compile(r"rt: (\w+) (?:proved$|is kept: )")
# what `rt ci` says of a crate that is not proved, what says why in it, and what else steps say of what failed
REFUSED = re.compile(r"^== (\w+).*\n((?:.*\n)*?)rt: \1\b.* NOT PROVED$", re.M)
WHY = re.compile(r"error|not proved|no proof|killed|rt fmt")
TOLD = r"^(?:rt: )?(FAILED: .*|\w.*: (?:FAILED$|(?:what )?the program |its tests FAILED|NOT REFUSED|bad edit|not tried).*)"
LOCK, LOST, PARTS = Lock(), Counter(), {it: Counter() for it in ("form", "proofs", "edits", "programs", "library")}


def say(text):
    with LOCK:
        print(text, flush=True)


def run(words, hear, is_shown, **how):
    """Runs a command: what it prints, its status, and the seconds of a processor that it took."""
    said, how = [], {"stdout": subprocess.PIPE, "stderr": subprocess.STDOUT, "encoding": "utf-8", **how}
    with subprocess.Popen(words, errors="replace", **how) as ran:
        for line in ran.stdout:
            said.append(line)
            hear(line)
            if is_shown and not COUNT.match(line) or line.startswith("counted: "):
                say(line.rstrip("\n"))
        _, status, used = os.wait4(ran.pid, 0)
        ran.returncode = os.waitstatus_to_exitcode(status)
    return "".join(said), ran.returncode, used.ru_utime + used.ru_stime


def reasons(said):
    """What a step says of what failed: each crate that is not proved with the first line that says why, and the rest."""
    why = [f"{name} NOT PROVED: {next(filter(WHY.search, it.splitlines()), '')}" for name, it in REFUSED.findall(said)]
    return [it[:200] for it in (*why, *re.findall(TOLD, said, re.M))][:4]


def step(part, words, hear=str, given=os.devnull, stored=None, is_behind=False, **how):
    """Runs a step, and counts its line 'N passed, M failed', its status or its output. One that cannot run fails."""
    it, begun, seconds, skipped, lost = PARTS[part], time.time(), 0, 0, " ".join(words)
    try:
        for file in [one for one in words if "/out/" in one and not os.path.isfile(one)]:
            lost = f"what needs {file}"
            raise FileNotFoundError(f"there is no {file}")
        with open(given, "rb", closefd=isinstance(given, str)) as stdin:
            said, status, seconds = run([*BEHIND, *words] if is_behind else words, hear, not stored, stdin=stdin, **how)
        counts = [] if stored else COUNT.findall(said)
        passed, failed, skipped = (int(it or 0) for it in counts[-1]) if counts else (int(not status), 0, 0)
        if stored:
            with open(stored, encoding="utf-8") as file:
                failed = int(re.sub(r"^counted: .*\n", "", said, flags=re.M) != file.read())
            say(said if failed else f"as {stored}")
            passed = 0 if failed else int((re.findall(r"^(\d+) rows", said, re.M) or [1])[0])
        failed = max(failed, int(status != 0))
        lost += f" ({'; '.join(reasons(said))})" if failed and reasons(said) else ""
    except Exception as error:
        passed, failed, status = 0, 1, f"{type(error).__name__}: {error}"
    ending = f"; it ended with {status}" if status else f", {skipped} skipped" if skipped else ""
    say(f"== {' '.join(words)}: {passed} passed, {failed} failed{ending}")
    with LOCK:
        it.update(passed=passed, failed=failed, skipped=skipped, seconds=seconds)
        it["begun"], it["ended"] = it["begun"] or begun, time.time()
        LOST[lost] += failed > 0


def compare(room, name):
    """Runs a part of the test program on each stored input, and compares what it writes."""
    files = files_of(f"tests/programs/{name}")
    for given in sorted(it for it in files if it.split(".")[0] == "stdin") or ["stdin"]:
        stored, given = f"tests/programs/{name}/stdout{given.removeprefix('stdin')}", files.get(given, os.devnull)
        step("programs", [f"{room}/test_checks", name], given=given, stored=stored, is_behind=True)


def steps_of_sources(room):
    """The steps that need no proof."""
    step("programs", ["builder/room.py", "build", room, *PROGRAMS], is_behind=True)
    for name in CHECKS:
        compare(room, name)
    for words in ("octet_counts.py", "published_rows.py", "style.py", f"page.py {room}/pages"):
        step("programs", f"tests/program/{words}".split(), is_behind=True)
    for words in (f"build.py --object {room}/test_checks.o {room}/library", f"test.sh {room}/library"):
        step("library", f"bindings/{words}".split(), is_behind=True)


def steps_of_programs(room):
    """The steps that need the proved programs, side by side."""
    steps = [["tests/memory/refused_allocations.sh", room, FIRST, TOOL], *([f"tests/program/{it}.py", TOOL] for it in SCRIPTS)]
    steps += [["examples/run.sh", TOOL], ["tests/program/first.py", FIRST], ["tests/program/installed.sh", TOOL]]
    steps.append(["tests/program/guide.py", TOOL, f"{room}/library"])
    steps.insert(0, ["bindings/tests/installs.py", f"{room}/library", TOOL])
    with ThreadPoolExecutor(rt.processors()) as pool:
        [*pool.map(lambda words: step("programs", words), steps)]


def proofs(to_edits):
    """Proves the crates, one on each processor where memory holds them, and names each to the edits. `rt ci` ends with
    putting back what was in out/: if anything was, the edits wait for that."""
    names, waits = [], bool(glob.glob("crates/*/out"))

    def hear(line):
        names.extend(PROVED.findall(line))
        while names and (not waits or line == "ended"):
            os.write(to_edits, f"{names.pop(0)}\n".encode())

    jobs = {"RT_JOBS": str(rt.processors())} if rt.free() >= rt.processors() * MEMORY else {}
    step("proofs", ["rt", "ci"], hear, env={**jobs, **os.environ})
    hear("ended")
    os.close(to_edits)


def main():
    os.chdir(TOP)
    step("form", ["tests/tools/prove.py", "--form"])
    if not LOST.total():
        from_proofs, to_edits = os.pipe()
        with tempfile.TemporaryDirectory(prefix="tulvorn-gate-") as room, ThreadPoolExecutor(2) as pool:
            sources = pool.submit(steps_of_sources, room)
            pool.submit(step, "edits", ["tests/edits/edits.py", "--due", "--beside"], is_behind=True, given=from_proofs)
            proofs(to_edits)
            sources.result()
            steps_of_programs(room)
    for name, it in [*PARTS.items(), ("all", sum(PARTS.values(), Counter()))]:
        clock = (it["ended"] - it["begun"]) / 60 if name in PARTS else (time.time() - PARTS["form"]["begun"]) / 60
        counts = ", ".join(f"{it[what]} {what}" for what in ("passed", "failed", "skipped"))
        say(f"{name:9}{it['seconds'] / 60:6.1f} minutes of a processor, {clock:6.1f} by the clock, {counts}")
    lost = sorted((name for name in LOST if LOST[name]), key=lambda it: not it.startswith("rt ci"))
    lost = [f"{name} ({LOST[name]} steps)" if LOST[name] > 1 else name for name in lost]
    say(f"failed: {', '.join(lost) or 'nothing'}\n{it['passed']} passed, {it['failed']} failed")
    return 1 if lost else 0


if __name__ == "__main__":
    sys.exit(main())
