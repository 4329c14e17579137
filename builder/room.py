#!/usr/bin/env python3
"""Lays out a room outside the repository with its crates and programs that are none of them, and builds these.

usage: builder/room.py lay ROOM PROGRAM..                lays out the room
       builder/room.py build ROOM PROGRAM..              builds each program without a proof of its own: ROOM/NAME
       builder/room.py prove ROOM PROGRAM [-- WORD..]    proves, builds and runs one program: ROOM/crates/NAME/out/NAME

A program is a folder with source files NAME.rt.in and a file `uses`, which is its line for crates.txt: its name, and the
libraries that it uses. A file `shared` names the files of other programs that are its own too, one a line, as they are
found from its folder. A file `parts` names folders like it, without `uses`, which are modules of the program: the module
has the name of the folder, `main.rt.in` is its own file, and the others are modules inside it. A library of the kind,
which programs share, stands before them. A room is kept, so that a later
call does anew only what has changed. What is built without a proof is compiled from the sources of the crates, with the
options of a build that is proved (unproved.py); the toolchain links a program with proved libraries only where the
program itself is proved. If a program uses the library for C, it calls each export (bindings/build.py). Then ROOM/NAME.o
is left too, which bindings/build.py packs as that library.
"""
import os
import shutil
import subprocess
import sys
from concurrent.futures import ThreadPoolExecutor

TOP = os.path.dirname(os.path.dirname(os.path.abspath(__file__)))


def text_of(file):
    with open(file, encoding="utf-8") as it:
        return it.read()


def synced(source, target):
    """Copies a folder, and writes only what differs, so that what was built of it stays fresh."""
    os.makedirs(target, exist_ok=True)
    names = set(os.listdir(source))
    for name in set(os.listdir(target)) - names:
        path = f"{target}/{name}"
        shutil.rmtree(path) if os.path.isdir(path) else os.remove(path)
    for name in names:
        one, other = f"{source}/{name}", f"{target}/{name}"
        if os.path.isdir(one):
            synced(one, other)
        elif not os.path.isfile(other) or text_of(one) != text_of(other):
            shutil.copy2(one, other)


def crate_name(program):
    return text_of(f"{program}/uses").partition(":")[0].strip()


def files_of(program):
    """The paths of a program's files by their names: those of its folder, and those that `shared` names."""
    found = {name: f"{program}/{name}" for name in os.listdir(program)}
    shared = text_of(found["shared"]).split() if "shared" in found else []
    return found | {os.path.basename(it): os.path.normpath(f"{program}/{it}") for it in shared}


def sources_of(program):
    """The paths of a program's source files by the names that they have in its crate, those of its parts too."""
    found = {it.removesuffix(".in"): path for it, path in files_of(program).items() if it.endswith(".rt.in")}
    parts = text_of(f"{program}/parts").split() if os.path.isfile(f"{program}/parts") else []
    for part in [os.path.normpath(f"{program}/{it}") for it in parts]:
        name = os.path.basename(part)
        for file, path in sources_of(part).items():
            found[f"{name}.rt" if file == "main.rt" else f"{name}/{file}"] = path
    return found


def has_exports(program):
    """Whether a program uses the library for C."""
    return "tulvorn_c" in text_of(f"{program}/uses").split()


def lay(room, programs):
    """Lays out the crates of the repository, with what checks kept of them, and the programs beside them."""
    for name in os.listdir(f"{TOP}/crates"):
        source, target = f"{TOP}/crates/{name}", f"{room}/crates/{name}"
        for part in ("src", "specs", "proofs"):
            if os.path.isdir(f"{source}/{part}"):
                synced(f"{source}/{part}", f"{target}/{part}")
    lines = [text_of(f"{TOP}/crates.txt")]
    for program in programs:
        source = f"{room}/crates/{crate_name(program)}/src"
        shutil.rmtree(source, ignore_errors=True)
        for name, path in sorted(sources_of(program).items()):
            os.makedirs(os.path.dirname(f"{source}/{name}"), exist_ok=True)
            shutil.copy2(path, f"{source}/{name}")
        lines.append(text_of(f"{program}/uses"))
    if any(has_exports(it) for it in programs):
        # (a static library is used by no crate)
        lines[0] = lines[0].replace("tulvorn_c staticlib:", "tulvorn_c:")
        sys.path.insert(0, f"{TOP}/bindings")
        from build import expose

        expose(room)
    with open(f"{room}/crates.txt", "w", encoding="utf-8") as it:
        it.writelines(lines)
    shutil.copy2(f"{TOP}/HANDLES", f"{room}/HANDLES")


def build(room, program):
    """Builds a program without a proof, and returns whether it was built."""
    name = crate_name(program)
    flags = ["--exports"] if has_exports(program) else []
    words = [sys.executable, f"{TOP}/builder/unproved.py", *flags, f"{room}/crates/{name}", TOP, f"{room}/{name}"]
    ran = subprocess.run(words, stdin=subprocess.DEVNULL, stdout=subprocess.PIPE, stderr=subprocess.STDOUT, text=True)
    if ran.returncode:
        print(f"{name} was not built:\n{ran.stdout}", file=sys.stderr, flush=True)
    return ran.returncode == 0


def build_all(room, programs):
    """Builds the programs side by side; a library among them is built with those that use it."""
    made = [it for it in programs if os.path.isfile(f"{it}/main.rt.in")]
    with ThreadPoolExecutor(max(1, len(os.sched_getaffinity(0)))) as pool:
        return all([*pool.map(lambda it: build(room, it), made)])


def prove(room, program, words):
    """Proves and runs a program, begun with what checks of the repository kept, and returns its status."""
    folder = f"{room}/crates/{crate_name(program)}"
    rt = os.environ.get("RT", "rt")
    return subprocess.run([rt, "run", "--", *words], cwd=folder).returncode


def main(words):
    if len(words) < 3 or words[0] not in ("lay", "build", "prove"):
        print(__doc__, file=sys.stderr)
        return 2
    at = words.index("--") if "--" in words else len(words)
    room, programs = os.path.abspath(words[1]), [os.path.abspath(it) for it in words[2:at]]
    os.makedirs(room, exist_ok=True)
    lay(room, programs)
    if words[0] == "build":
        return 0 if build_all(room, programs) else 1
    if words[0] == "prove":
        return prove(room, programs[-1], words[at + 1 :])
    return 0


if __name__ == "__main__":
    sys.exit(main(sys.argv[1:]))
