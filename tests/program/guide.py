#!/usr/bin/env python3
"""Runs each command, and each block of C, Rust and Python, of README.md and docs/GUIDE.md, and each command of the page
of asn_tool, and compares what is printed.

usage: tests/program/guide.py TOOL LIBRARY      TOOL is asn_tool, LIBRARY a folder that bindings/build.py made

A block marked `console` has commands after `$ ` and what they print; all commands of a page run in one shell, in a copy
of `examples` with the file traffic.asn, the guide's module. A block marked `sh` installs the program, which is TOOL
here. The blocks of a language on a page are one program: lines `use ..` and blocks that begin with `#include` go to its
head. TEXT is the module of the page. A block prints what the next block marked `text` has, if one follows before the
next block of its language. tests/program/page.py runs the blocks of Rattle.
"""
import os
import re
import shutil

from page import BREAK, PAGES, all_blocks, blocks_of, compare, hoisted, module_of
from run import TOP, run, script, write

COMMANDS = [*PAGES, "crates/asn_tool/README.md"]
NEEDED = {"c": "cc", "rust": "cargo", "python": "python3"}
FILES = {"c": "main.c", "rust": "src/main.rs", "python": "main.py"}
MANIFEST = f"""[package]
name = "page"
version = "0.1.0"
edition = "2024"

[dependencies]
tulvorn = {{ path = "{TOP}/bindings/rust/tulvorn" }}

[workspace]
"""


def printed(command, **more):
    """What a command writes, on standard error too."""
    env = os.environ | {"CARGO_NET_OFFLINE": "true", "PYTHONDONTWRITEBYTECODE": "1"} | more
    return run(["bash", "-c", f"exec 2>&1\n{command}"], env=env).out.decode()


def commands_of(page):
    """The commands of a page with what each prints."""
    found = []
    for kind, text in all_blocks(page):
        for line in text.splitlines(keepends=True) if kind in ("console", "sh") else ():
            if kind == "sh" or line.startswith("$ "):
                found.append([line.removeprefix("$ ").strip(), ""])
            else:
                found[-1][1] += line
    return found


def commands(test):
    """Runs the commands of the pages; of an installation nothing is compared."""
    tool = test.program
    for at, page in enumerate(COMMANDS):
        home = os.path.abspath(f"commands_{at}/home")
        os.makedirs(f"{home}/.local/bin")
        os.chdir(f"{home}/..")
        shutil.copytree(f"{TOP}/examples", "examples")
        shutil.copy2(tool, f"{home}/.local/bin/asn_tool")
        write("examples/traffic.asn", module_of("docs/GUIDE.md"))
        lines = ["" if page == "README.md" else "cd examples"]
        for command, _ in commands_of(page):
            lines += [command, f"printf '%s\\n' {BREAK}"]
        install = f"python3 {TOP}/install.py --program {tool} >/dev/null 2>&1"
        words = "\n".join(lines).replace("python3 install.py", install)
        found = printed(words, HOME=home, PATH=f"{home}/.local/bin:{os.environ['PATH']}")
        compare(test, page, found, [want for _, want in commands_of(page)])
        os.chdir(test.room)


def body_of(codes, ending):
    """The blocks inside a function, each with a line that prints where it ends."""
    return "".join(re.sub(r"^(?=.*\S)", "    ", code, flags=re.M) + f"    {ending}\n" for code in codes)


def program_in_c(codes, text):
    quoted = "".join(f'    "{it}\\n" \\\n' for it in text.splitlines())
    heads = "".join(it for it in codes if it.startswith("#include"))
    body = body_of(["" if it.startswith("#include") else it for it in codes], f'puts("{BREAK}");')
    head = f'#include "tulvorn.h"\n#include <stdio.h>\n#define TEXT \\\n{quoted}    ""\n{heads}'
    return f"{head}\nint main(void) {{\n{body}}}\n"


def program_in_rust(codes, text):
    heads, bodies = zip(*map(hoisted, codes))
    head = "".join(heads) + f'\nconst TEXT: &str = r"{text}";\n'
    body = body_of(bodies, f'println!("{BREAK}");')
    return f"{head}\nfn main() -> Result<(), tulvorn::Error> {{\n{body}    Ok(())\n}}\n"


def program_in_python(codes, text):
    return f'TEXT = """{text}"""\n' + "".join(f'{code}print("{BREAK}")\n' for code in codes)


def printed_by(language, program, library):
    """What the program prints, or why it is not built."""
    os.makedirs("src", exist_ok=True)
    write(FILES[language], program)
    write("Cargo.toml", MANIFEST)
    command = {
        "c": f"cc -std=c11 -Wall -Werror -I {library} main.c {library}/libtulvorn.a -o main && ./main",
        "rust": "cargo run --offline --quiet",
        "python": "exec python3 -B main.py",
    }[language]
    return printed(command, TULVORN_ARCHIVES=library, TULVORN_LIBRARY=f"{library}/libtulvorn.so",
                   PYTHONPATH=f"{TOP}/bindings/python", CARGO_TARGET_DIR=f"{os.getcwd()}/target")


def programs(test):
    """Runs the blocks of each language of a page as one program."""
    made = {"c": program_in_c, "rust": program_in_rust, "python": program_in_python}
    for page in PAGES:
        for language, needed in NEEDED.items():
            if not shutil.which(needed):
                test.skip(f"{page}, {language}: no {needed}")
                continue
            codes, wanted = zip(*blocks_of(page, language))
            found = printed_by(language, made[language](codes, module_of(page)), test.words[1])
            compare(test, f"{page}, {language}", found, wanted)


script(__doc__, commands, programs, words=(2,))
