#!/usr/bin/env python3
"""Builds the library for C in the folder OUT: libtulvorn.a, libtulvorn.so, tulvorn.h and tulvorn.pc.

By default it proves the crates, or takes what is proved. It needs the kit, gcc and binutils, and no network. If the
library has no proof, its version ends with `not proved`.
"""
import argparse
import glob
import os
import re
import shutil
import subprocess
import sys
import tempfile

sys.dont_write_bytecode = True
HERE = os.path.dirname(os.path.abspath(__file__))
TOP = os.path.dirname(HERE)
sys.path[:0] = [f"{TOP}/builder", f"{TOP}/tests/tools"]
from machines import NAMES, Machine  # noqa: E402

CRATE = "tulvorn_c"
COMPILERS = ("llvm", "rattle")
KIT = Machine("x86_64")


def call(words, **how):
    """Runs a command and returns what it prints, if that is captured. If the command fails, this program ends."""
    ran = subprocess.run(words, stdin=subprocess.DEVNULL, text=True, errors="replace", **how)
    if ran.returncode:
        print(ran.stdout or "", end="")
        sys.exit(f"bindings/build.py: {os.path.basename(words[0])} ended with status {ran.returncode}")
    return ran.stdout


def kit_folder():
    """The folder of the kit."""
    return os.path.dirname(os.path.dirname(os.path.realpath(shutil.which("rt"))))


# ---- the exports, as the sources declare them

HEAD = re.compile(r'pub extern "C" fn (\w+)\((.*?)\)(?: -> (\w+))?\s*(?:ensures|\{)', re.S)


class Export:
    """An exported function: its file, its name, its parameters (name and type) and its result.

    The allocator is no parameter here, since C passes nothing for it.
    """

    def __init__(self, file, name, params, result):
        self.file, self.name, self.result = file, name, result
        pairs = [it.split(":", 1) for it in re.split(r",\s*", params.strip().rstrip(",")) if it]
        self.params = [(name.strip(), kind.strip()) for name, kind in pairs if kind.strip() != "Global"]
        self.allocates = len(self.params) < len(pairs)


def exports():
    """The exports of the library."""
    found = []
    for file in sorted(glob.glob(f"{TOP}/crates/{CRATE}/src/*.rt")):
        with open(file, encoding="utf-8") as it:
            found += [Export(os.path.basename(file)[:-3], *head.groups()) for head in HEAD.finditer(it.read())]
    return found


# ---- an object file without a proof

# The toolchain compiles what a program or a test reaches. So a copy of the crate gets a function that calls all
# exports.
# For each type of a parameter: the value of a variable, if one is needed, and the argument.
ARGUMENTS = {
    "&mut Handle": ("Handle::none(alloc)", "&mut {}"),
    "&Shown": ("Shown { at: std::ptr::null_mut() }", "&{}"),
    "&Budget": ("Budget { entries: 0, octets: 0 }", "&{}"),
    "&mut Fault": ("Fault { code: 0, why: 0, at: 0 }", "&mut {}"),
    "&Fault": ("Fault { code: 0, why: 0, at: 0 }", "&{}"),
    "&mut [u8]": ("[0; 9]", "&mut {}"),
    "&mut usize": ("0", "&mut {}"),
    "&mut u32": ("0", "&mut {}"),
    "&mut i64": ("0", "&mut {}"),
    "&mut u64": ("0", "&mut {}"),
    "&[u8]": (None, 'b""'),
    "u32": (None, "0"),
    "usize": (None, "0"),
}
TEST = """
#[cfg(test)]
mod tests {
    #[test]
    fn calls(rt: HostRuntime) {
        crate::calling::call_each(rt.alloc());
    }
}
"""


def calls():
    """The source of a module of the crate, whose function `call_each` calls each export."""
    found = exports()
    lines = ["", "pub mod calling {"]
    lines += [f"    use crate::{it.file}::{it.name};" for it in found]
    lines += ["    use crate::fault::Fault;", "    use crate::handle::Handle;", "    use crate::shown::Shown;"]
    lines += ["    use crate::within::Budget;", "    use std::alloc::Global;", ""]
    lines.append("    pub fn call_each(alloc: Global) {")
    for it in found:
        given = ["alloc"] if it.allocates else []
        for name, kind in it.params:
            value, use = ARGUMENTS[kind]
            local = f"{it.name}_{name}"
            if value:
                lines.append(f"        let mut {local} = {value};")
            given.append(use.format(local))
        lines.append(f"        let _ = {it.name}({', '.join(given)});")
    return "\n".join([*lines, "    }", "}", ""])


def expose(room):
    """In a room's copy of the crate, adds the calls to the root file, and `not proved` to the version."""
    source = f"{room}/crates/{CRATE}/src"
    with open(f"{source}/lib.rt", "a", encoding="utf-8") as it:
        it.write(calls())
    with open(f"{source}/words.rt", encoding="utf-8") as it:
        text = it.read()
    with open(f"{source}/words.rt", "w", encoding="utf-8") as it:
        it.write(re.sub(r'(const VERSION: &str = "[^"]*)"', r'\1, not proved"', text))


def exposed(lines):
    """The lines of an LLVM module, in which the exports are global and have their short names."""
    short = {f'@"{CRATE}::{it.file}::{it.name}"': f"@{it.name}" for it in exports()}
    for line in lines:
        for whole in re.findall(rf'@"{CRATE}::\w+::tulvorn_\w+"', line):
            if whole in short:
                line = line.replace(whole, short[whole]).replace("define internal", "define")
        yield line


def exports_alone(lines):
    """The lines of an LLVM module, in which the exports are the only global functions."""
    for line in exposed(lines):
        if line.startswith("define") and "@main(" in line:
            line = line.replace("define ", "define internal ", 1)
        yield line


def build_object(room, made, flags=(), machine=KIT):
    """Compiles the library without a proof to the object file `made`, with the compiler's flags. It reuses the room."""
    import room as rooms
    import unproved

    os.makedirs(room, exist_ok=True)
    rooms.lay(room, [])
    expose(room)
    crate = f"{room}/crates/{CRATE}"
    with open(f"{crate}/src/lib.rt", "a", encoding="utf-8") as it:
        it.write(TEST)
    with tempfile.TemporaryDirectory() as folder:
        module, text, code = unproved.module_of(crate, folder, ["--test"]), f"{folder}/text.ll", f"{folder}/made.ll"
        read = ["-S", "-emit-llvm", "-O0", "-Xclang", "-disable-llvm-passes"]
        call([unproved.CLANG, "-x", "ir", module, *read, "-o", text])
        with open(text, encoding="utf-8") as it, open(code, "w", encoding="utf-8") as to:
            to.writelines(machine.lines(unproved.as_built(exports_alone(it), unproved.inlining(TOP))))
        call([unproved.CLANG, *machine.front(unproved.FRONT), code, "-o", made, *unproved.SHARED, *flags])


# ---- archives of a proof

def prove_archive(flags):
    """Proves the crate, or takes what is proved. Returns the archive that `rt lib` leaves."""
    call(["rt", "lib", *flags], cwd=f"{TOP}/crates/{CRATE}")
    return f"{TOP}/crates/{CRATE}/out/lib{CRATE}.a"


def unproved_below(crate, takes_kept, share_work):
    """The first library below the crate that is not proved, or None."""
    if takes_kept:
        return next((it.name for it in crate.below() if not os.path.isdir(it.rlib)), None)
    share_work()
    return next((it.name for it in crate.below() if it.build_rlib(["--jobs", "1"], anew=False)), None)


def prove_archives(folder, takes_kept):
    """Proves the crate once, and has each compiler leave FOLDER/COMPILER.a."""
    from kit import rtlib, share_work

    os.chdir(TOP)
    crate = next(it for it in rtlib.crates_below(TOP) if it.name == CRATE)
    crate.held = rtlib.lock([*crate.below(), crate])
    missing = unproved_below(crate, takes_kept, share_work)
    if missing:
        sys.exit(f"bindings/build.py: the library {missing}, which {CRATE} uses, is not proved")
    # each further job would read all libraries below once more
    words = crate.words(["--jobs", "1"], keeps=False)
    steps = [["check", *words, "-o", f"{folder}/checked"]]
    for flag in ("--logic-built", "--jobs"):
        at = words.index(flag)
        words = words[:at] + words[at + 2 :]
    words += ["--crate-checked", f"{folder}/checked", "--toolchain", f"{kit_folder()}/toolchain"]
    steps += [["build", *words, "--backend", it, "-o", f"{folder}/{it}.a"] for it in COMPILERS]
    for step in steps:
        words = [*rtlib.guarded(), rtlib.RATTLE, *step]
        call(words, cwd=crate.folder, stdout=subprocess.PIPE, stderr=subprocess.STDOUT)


# ---- the library

MAP = """TULVORN_{} {{
    global:
{}
    local:
        *;
}};
"""
CONFIG = """libdir=${{pcfiledir}}
includedir=${{pcfiledir}}
interface={interface}

Name: tulvorn
Description: values of ASN.1 types by CANONICAL-PER UNALIGNED and Canonical OER
Version: {version}
Cflags: -I${{includedir}}
Libs: -L${{libdir}} -ltulvorn
"""


def globals_of(flags, file, machine):
    """The global names that a file defines, in order."""
    said = call([machine.nm, *flags, "--defined-only", file], stdout=subprocess.PIPE)
    lines = [it.split() for it in said.splitlines()]
    # (the version of the symbols is an absolute symbol)
    return sorted(it[2].partition("@")[0] for it in lines if len(it) == 3 and it[1] != "A")


def version():
    """The version of the library, without a word about its proof."""
    with open(f"{TOP}/crates/{CRATE}/specs/Words.antt", encoding="utf-8") as it:
        return re.search(r'^version = codes "(.*)"$', it.read(), re.M)[1]


def interface():
    """The number of the header, which the shared library has in its name."""
    with open(f"{HERE}/c/tulvorn.h", encoding="utf-8") as it:
        return re.search(r"^#define TULVORN_INTERFACE (\d+)$", it.read(), re.M)[1]


def heap(folder, machine):
    """The object file or archive of the allocator for a machine."""
    if machine.has_kit:
        return f"{kit_folder()}/c/liblibc_c.a"
    call([machine.gcc, "-std=c11", "-O2", "-fPIC", "-c", f"{HERE}/c/heap.c", "-o", f"{folder}/heap.o"])
    return f"{folder}/heap.o"


def pack(out, code, is_program=False, machine=KIT):
    """Packs compiled code, with the kit's allocator, as the library in OUT. The exports are its only global names.

    The code is an archive or an object file; of a program's object file, what the exports reach is packed.
    """
    os.makedirs(out, exist_ok=True)
    names = [it.name for it in exports()]
    objects = ["--whole-archive", code, "--no-whole-archive"]
    if is_program:
        objects = ["--gc-sections", *[f"--undefined={it}" for it in names], code]
    archive, shared = f"{out}/libtulvorn.a", f"libtulvorn.so.{interface()}"
    with tempfile.TemporaryDirectory() as folder:
        made, exported = f"{folder}/tulvorn.o", f"{folder}/tulvorn.map"
        # one object, in which all other names are local, so that one program can link two such libraries
        call([machine.ld, "-r", "-o", made, *objects, heap(folder, machine)])
        call([machine.objcopy, *[f"--keep-global-symbol={it}" for it in names], made])
        if is_program:
            # without this, names of system calls that only the program makes remain
            call([machine.objcopy, "--strip-unneeded", made])
        with open(exported, "w", encoding="utf-8") as it:
            it.write(MAP.format(interface(), "\n".join(f"        {name};" for name in names)))
        for file in (archive, *glob.glob(f"{out}/libtulvorn.so*")):
            if os.path.lexists(file):
                os.remove(file)
        call([machine.ar, "rcs", archive, made])
        link = [f"-Wl,-soname,{shared}", "-Wl,-z,defs,-z,now", f"-Wl,--version-script={exported}"]
        call([machine.gcc, "-shared", "-o", f"{out}/{shared}", made, *link])
    os.symlink(shared, f"{out}/libtulvorn.so")
    shutil.copyfile(f"{HERE}/c/tulvorn.h", f"{out}/tulvorn.h")
    with open(f"{out}/tulvorn.pc", "w", encoding="utf-8") as it:
        it.write(CONFIG.format(interface=interface(), version=version()))
    if not globals_of(["-g"], archive, machine) == globals_of(["-D"], f"{out}/{shared}", machine) == sorted(names):
        sys.exit("bindings/build.py: the library has other names than the exports")


# ---- the command

def options(words):
    """The options of the command. A wrong command line ends the program with status 2."""
    parser = argparse.ArgumentParser(description=__doc__, formatter_class=argparse.RawDescriptionHelpFormatter)
    how = parser.add_mutually_exclusive_group()
    yes = {"action": "store_true"}
    how.add_argument("--proved", **yes, help="prove the crates, or take what is proved (the default)")
    how.add_argument("--rattle", **yes, help="the same, compiled by Rattle's own compiler instead of LLVM")
    how.add_argument("--both", **yes, help="prove once, and build OUT/llvm and OUT/rattle, one for each compiler")
    how.add_argument("--unproved", **yes, help="build the same sources without a proof, in some two minutes")
    how.add_argument("--archive", metavar="FILE", help="pack this archive of a proof")
    how.add_argument("--object", metavar="FILE", help="pack the exports of a program's object file (builder/room.py)")
    how.add_argument("--fuzzer", **yes, help="leave OUT as an unproved object file whose edges libFuzzer counts")
    how.add_argument("--exports", **yes, help="print the names of the exports, one a line, and build nothing")
    parser.add_argument("--target", choices=NAMES, default=KIT.name, help="for --unproved: the machine to build for")
    parser.add_argument("--kept", **yes, help="for --both: take the libraries below as `rt ci` left them, unchecked")
    parser.add_argument("--room", metavar="FOLDER", help="for --unproved and --fuzzer: a folder for later builds")
    parser.add_argument("out", metavar="OUT", nargs="?")
    given = parser.parse_args(words)
    for file in (given.archive, given.object):
        if file is not None and not os.path.isfile(file):
            parser.error(f"{file} is not a file")
    if given.exports == bool(given.out):
        parser.error("--exports takes no OUT" if given.exports else "OUT is missing")
    if given.kept and not given.both or given.room and not (given.unproved or given.fuzzer):
        parser.error("--kept needs --both, and --room needs --unproved or --fuzzer")
    if given.target != KIT.name and not given.unproved:
        parser.error("--target needs --unproved")
    return given


def build(given, out, folder, machine):
    """Builds the library by the options; the folder is temporary."""
    room = os.path.abspath(given.room or f"{folder}/room")
    if given.fuzzer:
        build_object(room, out, ["-fsanitize=fuzzer-no-link"])
    elif given.unproved:
        build_object(room, f"{folder}/unproved.o", machine=machine)
        pack(out, f"{folder}/unproved.o", machine=machine)
    elif given.both:
        prove_archives(folder, given.kept)
        for it in COMPILERS:
            pack(f"{out}/{it}", f"{folder}/{it}.a")
    elif given.object:
        pack(out, os.path.abspath(given.object), is_program=True)
    elif given.archive:
        pack(out, os.path.abspath(given.archive))
    else:
        pack(out, prove_archive(["--backend", "rattle"] if given.rattle else []))


def main(words):
    given = options(words)
    if given.exports:
        print("\n".join(it.name for it in exports()))
        return
    machine = Machine(given.target)
    missing = [it for it in ("rt", *machine.tools) if not shutil.which(it)]
    if missing:
        sys.exit(f"bindings/build.py: {' and '.join(missing)} cannot be found")
    with tempfile.TemporaryDirectory(prefix="tulvorn-build-") as folder:
        build(given, os.path.abspath(given.out), folder, machine)


if __name__ == "__main__":
    main(sys.argv[1:])
