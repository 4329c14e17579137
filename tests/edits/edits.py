#!/usr/bin/env python3
"""Tries wrong bodies: a goal of the changed function has to refuse each edit.

usage: tests/edits/edits.py CRATE..       tries all edits of these crates, and notes the crates where nothing failed
       tests/edits/edits.py CRATE/EDIT..  tries these edits, and notes nothing
       tests/edits/edits.py --all         tries all edits of all crates, and notes the same
       tests/edits/edits.py --due         tries the crates that are due; with --beside each once its name is read
       tests/edits/edits.py --note CRATE..    notes these crates, and tries nothing
       tests/edits/edits.py --list [CRATE..]  lists the edits, what they change, and the crates that are due

The edits of a crate are in tests/edits/CRATE.edits, one stanza each:

    == name_of_the_edit
    file: src/FILE.rt
    old: text that occurs once in the file
    new: text that replaces it
    by: FUNCTION ..
    weak: reason

A line that begins with `+ ` continues the text above it. `file:`, `old:` and `new:` may repeat. `new:` may be empty.
Without `by:` the goals count of the functions whose bodies have the old texts. With `by:` those of the named functions
count, by the names that the checker prints. An edit outside bodies is checked alone. An edit with `weak:` is not tried:
no goal is known that refuses it.

A crate is due if `tried` notes other hashes than git has for its folder and its edits. The crate of the day is due too.

One check judges edits of different functions, over what earlier checks of the crate kept. In the gate nothing is kept:
the check takes the other functions at their contracts. An edit is refused if a goal of its function is false or does
not type. It is broken if only a proof by hand no longer fits, and named if that proof only names what is gone. These
and an edit of which the check says nothing are shown and skipped. The gate begins a check once there is memory for it,
and none after MINUTES: the edits that are left stay due.
"""
import datetime
import glob
import os
import re
import resource
import shutil
import signal
import subprocess
import sys
import tempfile
import time
from collections import Counter, namedtuple
from concurrent.futures import ThreadPoolExecutor

sys.dont_write_bytecode = True
TOP = os.path.dirname(os.path.dirname(os.path.dirname(os.path.abspath(__file__))))
sys.path[:0] = [f"{TOP}/builder", f"{TOP}/tests/tools"]
from kit import rt, rtlib, share_work  # noqa: E402
from room import text_of  # noqa: E402

FOLDER, TRIED = "tests/edits", "tests/edits/tried"
# a check's seconds of a processor and memory, the minutes in which the gate begins checks, and the verdicts that fail
LIMIT, MEMORY, MINUTES, BEGUN = 1200, 4_500_000_000, 120, time.time()
FAILURES = ("NOT REFUSED", "bad edit", "not tried")
say = lambda text: print(f"{text}\n", end="", flush=True)

# ---- the functions of a formatted source file
HEAD = re.compile(r'^( *)(?:pub(?:\([^)]*\))? )?((?:const |unsafe |extern "C" )*)fn (\w+)', re.M)
OWNER = re.compile(r"^(?:pub(?:\([^)]*\))? )?(?:unsafe )?(impl|trait)\b([^{]*)\{", re.M)
TYPE = re.compile(r"^(?:pub(?:\([^)]*\))? )?(?:struct|enum|trait) (\w+)", re.M)
# (the mark of a cycle of types stays)
CYCLE = re.compile(r"#\[cycle\((\w+)\)\](?!(?:\s*#\[[^\]]*\]|\s*//[^\n]*\n)*\s*(?:pub\S* )?(?:struct|enum) )")
Function = namedtuple("Function", "name cycle module owner last body end is_const")
module_of = lambda path: re.sub(r"^src/(?:(?:lib|main)\.rt)?|\.rt$", "", path).replace("/", "::")


def without_angles(text):
    while re.search(r"<[^<>]*>", text):
        text = re.sub(r"<[^<>]*>", " ", text)
    return text


def arguments_of(front):
    """The types that an impl gives its trait, as the checker spells them: `RefStr` of `From<&str>`."""
    at, depth = len(front), 0
    while front.endswith(">") and (depth or at == len(front)):
        at -= 1
        depth += {">": 1, "<": -1}.get(front[at], 0)
    own = re.findall(r"\w+", front[:at].rpartition(">")[0])
    words = re.findall(r"[&\[]|\w+", without_angles(front[at + 1 : -1]))
    return "".join({"&": "Ref", "[": "Slice"}.get(it) or it[0].upper() + it[1:] for it in words if it not in own)


def owner_of(kind, head):
    """The name that the checker gives an impl or a trait with this head."""
    head = re.sub(r"\bwhere\b.*|'\w+", "", head, flags=re.S)
    front, is_of_trait, of = head.partition(" for ")
    if kind == "trait":
        return re.findall(r"\w+", head)[0]
    if not is_of_trait:
        return re.findall(r"\w+", without_angles(head))[-1]
    names = [re.findall(r"\w+", without_angles(it))[-1] for it in (of, front)]
    return "Ref" * of.strip().startswith("&") + "".join(names) + arguments_of(front.strip())


def functions_in(path, text):
    """The functions of a source file that have a body."""
    for head in HEAD.finditer(text):
        ends = re.compile(rf"^{head[1]}(?:\S.*)?(?:\{{|\{{\}})$|;$", re.M).finditer(text, head.start())
        # (in a clause, whose brace is open, a `;` ends no function)
        count = lambda brace, it: text.count(brace, head.start(), it.start())
        body = next((it for it in ends if it[0] != ";" or count("{", it) == count("}", it)), None)
        if body and body[0] != ";":
            is_empty = body[0].endswith("}")
            end = body if is_empty else re.compile(rf"^{head[1]}\}}", re.M).search(text, body.end())
            brace = body.end() - (2 if is_empty else 1)
            owners = [*OWNER.finditer(text, 0, head.start())] if head[1] else []
            owner = owner_of(*owners[-1].groups()) if owners else None
            module = module_of(path)
            cycle = re.search(r"#\[cycle\((\w+)\)\][^{};]*\Z", text[: head.start()])
            name = f"{owner or module}::{head[3]}".removeprefix("::")
            cycle = cycle and f"{path} {cycle[1]}"
            yield Function(name, cycle, module, owner, head[3], brace, end.end(), "const" in head[2])


class Edit:
    """An edit: its pairs of texts, the functions whose goals count, and whether it changes bodies alone."""

    def __init__(self, crate, stanza):
        name, *lines = re.split(r"\n(?!\+)", stanza.strip("\n"))
        self.crate, self.name, self.pairs, self.by, self.weak, self.fault = crate, name.strip(), [], [], None, None
        path = old = None
        for line in lines:
            key, _, text = re.sub(r"\n\+ ?", "\n", line).partition(":")
            text = text.removeprefix(" ")
            if key == "file":
                path = text
            elif key == "old":
                old = text
            elif key == "new" and path and old:
                self.pairs.append((path, old, text))
            elif key == "by":
                self.by = text.split()
            elif key == "weak":
                self.weak = text
            else:
                self.fault = f"a line is no part of an edit: {line}"
        self.label, self.functions, self.is_body = f"{crate.name}/{self.name}", [], False
        self.fault = self.fault or self.fault_of_texts()
        if not self.fault:
            self.find_functions()

    def fault_of_texts(self):
        for path, old, _ in self.pairs:
            if not os.path.isfile(f"{self.crate.folder}/{path}"):
                return f"there is no file {path}"
            if text_of(f"{self.crate.folder}/{path}").count(old) != 1:
                return f"an old text does not occur once in {path}: {old}"
        return None if self.pairs else "it has no old and new text"

    def find_functions(self):
        found = []
        for path, old, new in self.pairs:
            if not (old.startswith("use ") and len(self.pairs) > 1):
                text = text_of(f"{self.crate.folder}/{path}")
                # the first character that changes: the text before it may be the head of the function
                at = text.find(old) + len(os.path.commonprefix([old, new]))
                inside = [it[:2] for it in functions_in(path, text) if it.body < at < it.end]
                found.append(inside[-1] if inside and path.startswith("src/") else None)
        self.is_body = None not in found
        paths = dict.fromkeys(path for path, _, _ in self.pairs)
        known = [it for path in paths for it in functions_in(path, text_of(f"{self.crate.folder}/{path}"))]
        named = [(it, next((one.cycle for one in known if it.endswith(one.name)), None)) for it in self.by]
        self.functions = named or (sorted({*found}, key=str) if self.is_body else [])


def edits_of(crate):
    """The edits of a crate, in the order of its file."""
    file = f"{TOP}/{FOLDER}/{crate.name}.edits"
    stanzas = re.split(r"^== ", text_of(file), flags=re.M)[1:] if os.path.isfile(file) else []
    edits = [Edit(crate, it) for it in stanzas]
    for edit in edits:
        if [it.name for it in edits].count(edit.name) > 1:
            edit.fault = "another edit has its name"
    return edits


def applied(edits):
    """The texts of the files that these edits change, or None if they do not go together."""
    texts = {}
    for edit in edits:
        for path, old, new in edit.pairs:
            text = texts.get(path) or text_of(f"{edit.crate.folder}/{path}")
            if text.count(old) != 1:
                return None
            texts[path] = text.replace(old, new)
    return texts


def groups_of(edits, rule):
    """The edits in groups: no two of one function, or of one cycle, or of anything."""
    groups, left = [], edits
    while left:
        group, used = [], set()
        for edit in left:
            what = {cycle if rule == "cycle" and cycle else name for name, cycle in edit.functions}
            is_free = not group or edit.is_body and rule != "alone" and not what & used
            if is_free and (not group or group[0].is_body) and applied([*group, edit]) is not None:
                group.append(edit)
                used |= what
        groups.append(group)
        left = [it for it in left if it not in group]
    return groups


# ---- functions taken at their contracts
HOLE = """use Rattle.{crate}.proofs.{path}.Statement.{{statement}}
pub {name}_spec : {{M : Type 1}} → statement M
{name}_spec = ?
"""


def take_at_contracts(crate, folder, functions):
    """In a copy of a crate, gives each other function, if in no cycle with these, a hole for its proof and no body. A
    check that allows holes reads its contract alone."""
    files = {os.path.relpath(it, folder): text_of(it) for it in rtlib.files_of(folder) if it.endswith(".rt")}
    types = {name: module_of(path) for path, text in files.items() for name in TYPE.findall(text)}
    own, cycles = {it[0] for it in functions}, {it[1].split()[1] for it in functions if it[1]}
    for path, text in files.items():
        kept, at = [], 0
        for it in sorted(functions_in(path, text), key=lambda it: it.body):
            is_in_cycle = it.cycle and it.cycle.split()[1] in cycles
            if it.body >= at and not is_in_cycle and not it.is_const and not {it.name, f"{it.module}::{it.name}"} & own:
                kept, at = [*kept, text[at : it.body], "{ unreachable!() }"], it.end
                module = it.module if it.owner in TYPE.findall(text) else types.get(it.owner, it.module)
                put_hole(crate, folder, "/".join(filter(None, [*module.split("::"), it.owner, it.last])))
        with open(f"{folder}/{path}", "w", encoding="utf-8") as file:
            file.write(CYCLE.sub(lambda it: it[0] if it[1] in cycles else "", "".join(kept) + text[at:]))
    stay = cycles | {it.rpartition("::")[2] for it in own}
    for it in glob.glob(f"{folder}/proofs/**/+*", recursive=True):
        if os.path.basename(it)[1:] not in stay:
            shutil.rmtree(it)


def put_hole(crate, folder, home):
    """Puts a hole in place of a function's proof."""
    at = f"{folder}/proofs/{home}"
    os.makedirs(at, exist_ok=True)
    for name in {"Invariants.antt", "Answers.antt"} & {*os.listdir(at)}:
        os.remove(f"{at}/{name}")
    with open(f"{at}/Proof.antt", "w", encoding="utf-8") as it:
        it.write(HOLE.format(crate=crate.name, path=home.replace("/", "."), name=os.path.basename(home)))


# ---- what a check says
LINE = re.compile(r"fn (\S+): (proved|no holes|depends on a hole|not proved|no proof)(.*)")
NOTE = re.compile(r"note: src/\S+: .*not proved.*\(`([^`]*)`\)(.*)")
ERROR = re.compile(r"(?:\./)?proofs/(\S+)/\w+\.antt:\d+:\d+: error: (?:`([^`]*)`: )?(.*)")
IS_FALSE = "allow values at which this goal is false"
NAMED = re.compile(r"has no field|is not in scope|has no `|not admitted|no name|nearest: ")
BROKEN = re.compile(r"no occurrence|not a goal|no goal|arguments|is no function|cannot be applied|no case|pattern")
KINDS = ("refused", "broken", "named", "waits", "silent", "NOT REFUSED")


def first_of(verdicts):
    """The verdict that counts most."""
    return min(verdicts, key=lambda it: KINDS.index(it[0]))


class Report:
    """What a check says: the line of each function, its goals that are not proved, and the errors in proofs by hand."""

    def __init__(self, said):
        self.lines, self.notes, self.errors, above = {}, {}, [], []
        for line in said.split("\n"):
            of_function, note, error = LINE.match(line), NOTE.match(line), ERROR.match(line)
            if of_function:
                searched = re.search(r"`search` did not prove ((?:`[^`]*`(?:, )?)+)", of_function[3])
                self.lines[of_function[1]] = of_function[2], of_function[3]
                names = re.findall(r"`([^`]*)`", searched[1]) if searched else []
                self.notes[of_function[1]] = above + [(it, False) for it in names]
                above = []
            elif note:
                above.append((note[1], IS_FALSE in note[2]))
            elif error:
                kind = "named" if NAMED.search(error[3]) else "broken" if BROKEN.search(error[3]) else "refused"
                self.errors.append((error[1], kind, error[2] or "", error[3]))

    def of(self, functions):
        """The verdict over an edit of these functions, and why. One goal that refuses it is enough."""
        if functions:
            return first_of([self.of_function(*it) for it in functions])
        return first_of([("silent", "the check says nothing"), *(self.of_path(it, None) for it in self.lines)])

    def of_function(self, function, cycle):
        paths = [it for it in self.lines if f"::{it}".endswith(f"::{function}")]
        if len(paths) != 1:
            return "silent", f"the check says nothing of {function}, or knows several: {' '.join(paths)}"
        # (closures of a::f are a::fn::f::NAME)
        front, _, last = paths[0].rpartition("::")
        closures = [it for it in self.lines if it.startswith(f"{front}::fn::{last}::")]
        return first_of([self.of_path(it, cycle) for it in (paths[0], *closures)])

    def of_path(self, path, cycle):
        verdict, more = self.lines[path]
        if verdict in ("proved", "no holes", "depends on a hole"):
            return "NOT REFUSED", "its function is proved"
        last, home = path.rpartition("::")[2], path.partition("::")[2].replace("::", "/")
        homes = home, f"{os.path.dirname(home)}/+{last}".removeprefix("/")
        # (in a cycle the goal of a function begins with its name)
        is_own = lambda goal: not cycle or goal.split("-")[0].split("::")[-1] == last
        notes = sorted((not is_false, goal) for goal, is_false in self.notes[path] if is_own(goal))
        is_home = lambda it: it in homes or cycle and os.path.basename(it).startswith("+")
        errors = [(kind, goal, text) for at, kind, goal, text in self.errors if is_home(at) and is_own(goal)]
        if notes and (not notes[0][0] or all(it[0] == "refused" for it in errors)):
            # (where a proof by hand no longer fits, a goal counts only if it is known to be false)
            return "refused", f"`{notes[0][1]}`"
        if errors:
            kind, goal, text = first_of(errors)
            return kind, f"`{goal}`: {text[:200]}"
        return "waits", "it calls a function that is not proved" if "it calls" in more else "no goal of its own is open"


# ---- checks

def checked(crate, edits, functions, kept, at_contracts=False):
    """Checks these functions, or all, in a copy of the crate with these edits, over what is kept: the status and the
    output."""
    only = [word for name, _ in functions for word in ("--only", name)] + ["--allow-holes"] * at_contracts
    with tempfile.TemporaryDirectory(prefix=f"rt-edits-{os.getpid()}-") as room:
        for part in rtlib.PARTS:
            if os.path.isdir(f"{crate.folder}/{part}"):
                shutil.copytree(f"{crate.folder}/{part}", f"{room}/{part}")
        for path, text in applied(edits).items():
            with open(f"{room}/{path}", "w", encoding="utf-8") as it:
                it.write(text)
        if at_contracts:
            take_at_contracts(crate, room, functions)
        words = crate.words(["--jobs", "1", *only], keeps=False)
        words = [*rtlib.guarded(), rtlib.RATTLE, "check", *words, "--incremental", kept]
        how = {"cwd": room, "stdin": subprocess.DEVNULL, "stdout": subprocess.PIPE, "stderr": subprocess.STDOUT}
        with subprocess.Popen(words, text=True, errors="replace", **how) as ran:
            if edits:
                resource.prlimit(ran.pid, resource.RLIMIT_CPU, (LIMIT, LIMIT))
            said = ran.stdout.read()
    return ran.returncode, "" if ran.returncode in (-signal.SIGKILL, -signal.SIGXCPU) else said


class Tries:
    """The tries of a crate's edits, and the verdict over each: (kind, why)."""

    def __init__(self, crate, edits, is_beside):
        self.crate, self.seed, self.checks, self.kept = crate, None, 0, f"{crate.folder}/out/incremental"
        self.at_contracts = is_beside and not os.path.isdir(self.kept)
        self.verdicts = {it: ("bad edit", it.fault) for it in edits if it.fault}
        self.verdicts.update({it: ("weak", it.weak) for it in edits if it.weak and not it.fault})
        self.left = [it for it in edits if it not in self.verdicts]

    def run(self, pool):
        with tempfile.TemporaryDirectory(prefix=f"rt-edits-{os.getpid()}-") as room:
            self.seed = f"{room}/seed"
            if os.path.isdir(self.kept):
                shutil.copytree(self.kept, self.seed, copy_function=os.link)
            if self.left and not pool.submit(self.is_begun).result():
                self.verdicts.update({it: ("not tried", "the crate itself is not proved") for it in self.left})
                self.left = []
            for rule in ("function", "cycle", "alone"):
                groups = groups_of(self.left, rule)
                if self.at_contracts and rule == "function" and groups:
                    # (the lemmas that it proves serve the others)
                    pool.submit(self.together, groups.pop(0), self.seed).result()
                [*pool.map(self.together, groups)]
                self.left = [it for it in self.left if it.is_body and self.is_open(it)]
        self.show()

    def is_begun(self):
        """Proves the crate as it is, over what is kept. At contracts, only the cycles that edits change."""
        if not self.at_contracts:
            return checked(self.crate, [], [], self.seed)[0] == 0
        members = {cycle: name for it in self.left for name, cycle in it.functions if cycle}
        if members:
            checked(self.crate, [], [(name, cycle) for cycle, name in members.items()], self.seed, True)
        return True

    def is_open(self, edit):
        """Whether another check, with fewer edits, may give another verdict."""
        kind = self.verdicts[edit][0]
        return kind in ("waits", "silent") or kind != "refused" and any(cycle for _, cycle in edit.functions)

    def together(self, group, kept=None):
        """Tries edits in one check. If it says nothing, one of them cannot be read or does not end."""
        is_late = lambda: self.at_contracts and time.time() > BEGUN + 60 * MINUTES
        while self.at_contracts and rt.free() < MEMORY and not is_late():
            time.sleep(2)
        if is_late():
            return self.verdicts.update({it: ("left", "no time is left") for it in group})
        functions = [one for it in group for one in it.functions]
        with tempfile.TemporaryDirectory(prefix=f"rt-edits-{os.getpid()}-") as room:
            if not kept and os.path.isdir(self.seed):
                shutil.copytree(self.seed, f"{room}/kept", copy_function=os.link)
            kept = kept or f"{room}/kept"
            said = checked(self.crate, group, functions, kept, self.at_contracts and bool(functions))[1]
        self.checks += 1
        report = Report(said)
        if not report.lines and len(group) > 1:
            half = len(group) // 2
            return self.together(group[:half]), self.together(group[half:])
        errors = [line for line in said.split("\n") if "error" in line] or [""]
        unread = "silent", f"the checker cannot read it, or does not end: {errors[0][:200]}"
        self.verdicts.update({it: report.of(it.functions) if report.lines else unread for it in group})
        return None

    def show(self):
        for edit, verdict in self.verdicts.items():
            if verdict[0] not in ("refused", "weak", "left"):
                say(f"{edit.label}: {': '.join(verdict)}")
        counts = Counter(kind for kind, _ in self.verdicts.values())
        kinds = ", ".join(f"{count} {kind}" for kind, count in sorted(counts.items()))
        say(f"{self.crate.name}: {len(self.verdicts)} edits in {self.checks} checks: {kinds}")


# ---- which crates are due

def hashes():
    """Of each crate the hashes that git has for its folder and its edits, as the files are now."""
    def git(*words):
        return subprocess.run(["git", *words], cwd=TOP, env=env, check=True, capture_output=True, text=True).stdout

    with tempfile.TemporaryDirectory(prefix="rt-edits-index-") as room:
        env = {**os.environ, "GIT_INDEX_FILE": f"{room}/index"}
        git("read-tree", "HEAD")
        git("add", "-A", "crates", FOLDER)
        lines = git("ls-tree", git("write-tree").strip(), "crates/", f"{FOLDER}/").splitlines()
    found = {path: words.split()[2] for words, _, path in (it.partition("\t") for it in lines)}
    names = [os.path.basename(it) for it in found if it.startswith("crates/")]
    pairs = {it: (found[f"crates/{it}"], found.get(f"{FOLDER}/{it}.edits")) for it in names}
    return {name: two for name, two in pairs.items() if two[1]}


def noted():
    lines = [line.split() for line in text_of(f"{TOP}/{TRIED}").splitlines() if line[:1] not in ("", "#")]
    return {name: tuple(two) for name, *two in lines}


def due(names, now):
    """The crates whose text or edits differ from what is noted, and the crate of the day."""
    known, day = noted(), datetime.date.today().timetuple().tm_yday
    return [it for at, it in enumerate(names) if known.get(it) != now[it] or at == day % len(names)]


def note(passed, failed, now):
    known = {name: two for name, two in noted().items() if name in now and name not in failed}
    known.update({name: now[name] for name in passed})
    with open(f"{TOP}/{TRIED}", "w", encoding="utf-8") as it:
        it.write("# Crates whose edits were tried, and git's hashes of their folders and edits. edits.py writes it.\n")
        it.writelines(f"{name} {' '.join(known[name])}\n" for name in sorted(known))


def build_below(crate):
    """Builds the libraries below a crate that are not built, and returns whether all are."""
    return all(os.path.isdir(it.rlib) or not it.build_rlib(["--jobs", "1"], anew=False) for it in crate.below())


def proved_names(crates):
    """The crates in the order in which the input names them as proved, and then the others with False."""
    left = {it.name: it for it in crates}
    for line in sys.stdin:
        if line.strip() in left:
            yield left.pop(line.strip()), True
    yield from ((it, False) for it in left.values())


def try_all(crates, edits, is_beside):
    """Tries the edits of these crates side by side, and returns the tries."""
    tries = []

    def run(it, is_proved, pool):
        verdict = "not tried", "the crate, or one below it, is not proved"
        try:
            if is_proved:
                return it.run(pool)
        except Exception as error:
            verdict = "silent", f"{type(error).__name__}: {error}"
        it.verdicts.update({edit: verdict for edit in it.left})
        return it.show()

    if is_beside:
        with open("/proc/self/oom_score_adj", "w", encoding="utf-8") as it:
            it.write("800")  # where memory is used up, the kernel ends a check of edits before it ends a proof
    else:
        share_work()
    rtlib.guarded()
    pairs = proved_names(crates) if is_beside else ((it, build_below(it)) for it in crates)
    most = max(1, min(rt.processors() // (2 if is_beside else 1), int(rt.free() // MEMORY)))
    lanes = ThreadPoolExecutor(int(os.environ.get("RT_JOBS") or most))
    with lanes as pool, ThreadPoolExecutor(max(len(crates), 1)) as drivers:
        for crate, is_proved in pairs:
            crate.out = open(os.devnull, "w", encoding="utf-8")
            tries.append(Tries(crate, edits[crate.name], is_beside))
            drivers.submit(run, tries[-1], is_proved, pool)
    return tries


def main(words):
    flags, words = {it for it in words if it.startswith("--")}, [it for it in words if not it.startswith("--")]
    os.chdir(TOP)
    crates = rtlib.crates_below(TOP)
    edits = {it.name: found for it in crates for found in [edits_of(it)] if found}
    single = {it for it in words if "/" in it}
    names = [it for it in edits if it in {word.partition("/")[0] for word in words}]
    strange = {*words} - {*edits, *(it.label for of_crate in edits.values() for it in of_crate)}
    strange |= {it for it in os.listdir(FOLDER) if it.endswith(".edits") and it.removesuffix(".edits") not in edits}
    if strange or flags - {"--all", "--due", "--beside", "--note", "--list"} or not (words or flags):
        print(f"not known: {' '.join(sorted(strange))}" if strange else __doc__, file=sys.stderr)
        return 2
    now = hashes()
    chosen = due([*edits], now) if "--due" in flags else names or [*edits]
    if "--list" in flags:
        for edit in [it for name in names or edits for it in edits[name]]:
            say(f"{edit.label}: {edit.fault or ' '.join(name for name, _ in edit.functions) or 'more than bodies'}")
        say(f"due: {' '.join(due([*edits], now))}")
        return 0
    if flags == {"--note"}:
        return note(names, (), now)
    is_wanted = lambda it: not single or it.label in single or it.crate.name in words
    wanted = {name: [*filter(is_wanted, edits[name])] for name in chosen}
    tries = try_all([it for it in crates if it.name in chosen], wanted, "--beside" in flags)
    if not single and "--due" not in flags:
        failed = {it.crate.name for it in tries if {kind for kind, _ in it.verdicts.values()} - {"refused", "weak"}}
        note([it.crate.name for it in tries if it.crate.name not in failed], failed, now)
    counts = Counter(kind for it in tries for kind, _ in it.verdicts.values())
    passed, lost = counts["refused"], sum(counts[it] for it in FAILURES)
    kinds = ", ".join(f"{count} {kind}" for kind, count in sorted(counts.items())) or "none"
    skipped = sum(counts.values()) - passed - lost
    say(f"edits of {len(tries)} crates: {kinds}\n{passed} passed, {lost} failed, {skipped} skipped")
    return 1 if lost else 0


if __name__ == "__main__":
    sys.exit(main(sys.argv[1:]))
