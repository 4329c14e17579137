"""Runs commands, compares what they write, and counts: what the scripts of tests/program share.

A script gives its parts to `script`, which calls each with a `Test`. All runs in a room, a folder of its own, in which
`examples` is that of the repository. The last line is 'N passed, M failed'.

Cases are text files, which `Test.cases` reads. A line begins with its mark:

    # ..                  a remark, as is an empty line
    @ NAME                a file in the room
    * NAME A / B / ..     the next case runs once with each text as {NAME}
    $ WORD ..             a case: the words after the program, quoted as for a shell, with escapes of Python
    = STATUS              its exit status, which is 0 without such a line
    ^ MB                  its address space
    ~ SECONDS             the seconds of a processor after which it is ended
    | TEXT                a line of the file
    < TEXT                a line of standard input
    > TEXT                a line of standard output
    ! TEXT                a line of standard error

A second character, right after `|`, `<`, `>` or `!`, says what the text is:

    << TEXT               (the mark again) text with escapes of Python, without an end of line
    <@ FILE               all that a file has
    >~ EXPRESSION         a regular expression that matches somewhere
    >*                    whatever is written

In all of a text `%[COUNT|TEXT%]` is TEXT so many times, and `%[COUNT|"BETWEEN"|TEXT%]` has BETWEEN in between. `%i` is
the number of each, from 0 on, `%j` that of an inner one, and `%(..)` an expression of Python.
"""
import importlib
import itertools
import os
import re
import resource
import shlex
import subprocess
import sys
import tempfile
import traceback
from collections import namedtuple

sys.dont_write_bytecode = True
HERE = os.path.dirname(os.path.abspath(__file__))
TOP = os.path.dirname(os.path.dirname(HERE))
# seconds of a processor after which a program does not end
SECONDS = 300
MARK = re.compile(r"([|<>!])([|<>!@~*]?) ?(.*)", re.S)
REPEAT = re.compile(r'%(?:\[([^|]*)\|(?:"([^"]*)"\|)?|(\])|([a-z])\b|\(((?:[^()]|\([^()]*\))*)\))')

Ran = namedtuple("Ran", "status out err seconds megabytes")


def reference():
    """The second implementation, examples/reference.py."""
    sys.path.append(f"{TOP}/examples")
    return importlib.import_module("reference")


def octets_of(file):
    with open(file, "rb") as it:
        return it.read()


def text_of(file):
    return octets_of(file).decode()


def write(file, content):
    """Writes text or octets to a file, and returns its name."""
    with open(file, "wb") as it:
        it.write(content if isinstance(content, bytes) else content.encode())
    return file


def lines(texts):
    """The texts as lines of octets."""
    return b"".join((it if isinstance(it, bytes) else it.encode()) + b"\n" for it in texts)


def escaped(text):
    """The octets of a text with escapes of Python."""
    return text.encode().decode("unicode_escape").encode("latin-1")


def begin(words, **how):
    """Starts a command whose input and output are pipes."""
    return subprocess.Popen(words, **{"stdin": subprocess.PIPE, "stdout": subprocess.PIPE, "bufsize": 0, **how})


def run(words, given=b"", *, most=None, seconds=SECONDS, pieces=None, ends=None, check=False, **how):
    """Runs a command. Its input is a text, octets, or an open file.

    `most` limits its address space, in octets, and `seconds` its time of a processor. `pieces` is how many octets it reads at a time, from a pipe. With `ends`
    only so many last octets of its output, and first ones of standard error, are returned. With `check` it has to end
    well. The rest goes to Popen.
    """
    given = given.encode() if isinstance(given, str) else given
    with tempfile.TemporaryFile() as source, tempfile.TemporaryFile() as out, tempfile.TemporaryFile() as err:
        streams = {"stdin": subprocess.PIPE if pieces else given, "stdout": out, "stderr": err}
        if isinstance(given, bytes) and not pieces:
            source.write(given)
            source.seek(0)
            streams["stdin"] = source
        if most:
            how["preexec_fn"] = lambda: resource.setrlimit(resource.RLIMIT_AS, (most, most))
        ran = subprocess.Popen(words, **{**streams, **how})
        resource.prlimit(ran.pid, resource.RLIMIT_CPU, (seconds, seconds))
        if pieces:
            for at in range(0, len(given), pieces):
                os.write(ran.stdin.fileno(), given[at : at + pieces])
            ran.stdin.close()
        _, status, used = os.wait4(ran.pid, 0)
        ran.returncode = os.waitstatus_to_exitcode(status)
        out.seek(max(0, os.fstat(out.fileno()).st_size - ends) if ends else 0)
        err.seek(0)
        said = out.read(), err.read(ends or -1)
    if check and ran.returncode:
        raise RuntimeError(f"{words}: status {ran.returncode}: {said}")
    return Ran(ran.returncode, *said, used.ru_utime + used.ru_stime, used.ru_maxrss / 1024)


def expand(text, **numbers):
    """The text with its repeats and numbers written out."""
    levels, at = [["", ""]], 0
    for it in REPEAT.finditer(text):
        count, between, end, name, value = it.groups()
        levels[-1][0] += text[at : it.start()].replace("%", "%%")
        at = it.end()
        if count is not None:
            levels.append(["", "", count, between or ""])
            continue
        if end:
            form, values, count, between = levels.pop()
            value = f"{between!r}.join([{form!r} % ({values}) for {'ij'[len(levels) - 1]} in range({count})])"
        levels[-1][0] += "%s"
        levels[-1][1] += f"{value or name},"
    (form, values), = levels
    return eval(f"{form + text[at:].replace('%', '%%')!r} % ({values})", numbers)


class Written:
    """What a case says of a file, an input or an output: octets, expressions that match, or nothing."""

    def __init__(self):
        self.octets, self.expressions, self.is_any = b"", [], False

    def add(self, form, text):
        if form == "@":
            self.octets += octets_of(text)
        elif form == "~":
            self.expressions.append(text)
        elif form == "*":
            self.is_any = True
        else:
            self.octets += escaped(text) if form else text.encode() + b"\n"

    def allows(self, found):
        if self.is_any or self.expressions:
            text = found.decode(errors="replace")
            return all(re.search(it, text, re.M) for it in self.expressions)
        return found == self.octets


class Case:
    """The words of a case, its input, and what it has to write, by their marks."""

    def __init__(self, head, *rest):
        words = shlex.split(head[1:])
        self.words = [it.encode("latin-1", "backslashreplace").decode("unicode_escape") for it in words]
        self.status, self.most, self.seconds, self.said = 0, None, SECONDS, {mark: Written() for mark in "<>!"}
        for line in rest:
            if line[0] == "^":
                self.most = int(line[1:]) << 20
            elif line[0] == "~":
                self.seconds = int(line[1:])
            elif line[0] == "=":
                self.status = int(line[1:])
            else:
                mark, form, text = MARK.fullmatch(line).groups()
                self.said[mark].add(form, text)

    def allows(self, ran):
        return ran.status == self.status and self.said[">"].allows(ran.out) and self.said["!"].allows(ran.err)


def parts_of(text):
    """The files and cases of a text: the lines of each, and of a case the names with the texts for each."""
    part, names = None, []
    for line in text.split("\n"):
        if line[:2] == "* ":
            name, _, texts = line[2:].partition(" ")
            names.append([("{%s}" % name, it.strip()) for it in re.split(r"(?<!\S)/(?!\S)", texts)])
        elif line[:1] in ("@", "$"):
            if part:
                yield part
            part, names = ([line], names), []
        elif line[:1] in tuple("=^~|<>!"):
            part[0].append(line)
    if part:
        yield part


def cases_of(text):
    """Writes the files of a text to the room, and returns its cases, as they come."""
    for part, names in parts_of(text):
        if part[0][0] == "@":
            file = Written()
            for line in part[1:]:
                file.add(*MARK.fullmatch(line).groups()[1:])
            write(part[0][1:].strip(), file.octets)
            continue
        for chosen in itertools.product(*names):
            made = part
            for name, it in chosen:
                made = [line.replace(name, it) for line in made]
            yield Case(*made)


class Test:
    """The words of a script, the first of which is mostly the program, and the count of what passed and failed."""

    def __init__(self, words, room):
        self.words, self.room, self.passed, self.failed, self.skipped = words, room, 0, 0, 0
        self.program = words[0] if words else None

    def add(self, is_well, what):
        self.passed, self.failed = self.passed + bool(is_well), self.failed + (not is_well)
        if not is_well:
            print(f"FAILED: {what}", flush=True)
        return bool(is_well)

    def skip(self, what):
        self.skipped += 1
        print(f"SKIPPED: {what}", flush=True)

    def run(self, words, given=b"", **how):
        """Runs the program on words, or on a line of words."""
        return run([self.program, *(shlex.split(words) if isinstance(words, str) else words)], given, **how)

    def expect(self, words, given, wanted, **how):
        """Runs the program, compares its status, output and standard error, as many as are wanted, and returns them."""
        ran = self.run(words, given, **how)
        self.add(ran[: len(wanted)] == wanted, f"{words} {str(given)[:200]}: {ran[:3]}")
        return ran

    def cases(self, name):
        """Runs the cases of a text file in tests/program."""
        for case in cases_of(expand(text_of(f"{HERE}/{name}"))):
            ran = self.run(case.words, case.said["<"].octets, most=case.most, seconds=case.seconds)
            said = f"{ran.status} {ran.out[:2000]} {ran.err[:2000]}"
            self.add(case.allows(ran), f"{name}: {shlex.join(case.words)}: {said}")


def script(doc, *parts, words=(1,)):
    """Runs the parts of a script, functions and names of case files, and ends with what they counted.

    `words` are the numbers of words that its command line may have.
    """
    if len(sys.argv) - 1 not in words:
        sys.exit(doc)
    with tempfile.TemporaryDirectory(prefix="tulvorn-test-") as room:
        test = Test([it if it.isdigit() else os.path.abspath(it) for it in sys.argv[1:]], room)
        os.symlink(f"{TOP}/examples", f"{room}/examples")
        for part in parts:
            os.chdir(room)
            try:
                test.cases(part) if isinstance(part, str) else part(test)
            except Exception:
                test.add(False, f"{part}: {traceback.format_exc()}")
        os.chdir("/")
    skipped = f", {test.skipped} skipped" if test.skipped else ""
    print(f"{test.passed} passed, {test.failed} failed{skipped}")
    sys.exit(test.failed > 0)
