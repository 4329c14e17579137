"""Builds and runs the programs of bindings/README.md, and compares what they print with the page.

usage: python3 bindings/tests/page.py LIBRARY WHAT..

LIBRARY is the folder in which bindings/build.py left the library. WHAT is c, cpp, rust or python for the page's first
program of that language, or gateway, signer or test_bench.py for a line `$ WHAT ..`.
"""
import os
import re
import subprocess
import sys
import tempfile

BINDINGS = os.path.dirname(os.path.dirname(os.path.abspath(__file__)))
EXAMPLES = os.path.join(os.path.dirname(BINDINGS), "examples")
FILES = {"c": "first.c", "cpp": "first.cpp", "rust": "src/main.rs", "python": "first.py"}
NAMES = {"c": "C", "cpp": "C++", "rust": "Rust", "python": "Python"}
MANIFEST = """[package]
name = "first"
version = "0.1.0"
edition = "2024"

[dependencies]
DEPENDENCY

[workspace]
"""


def first_words(page, out, language):
    """The code in the page's line on building and running the program of a language, with the paths of the library and
    of this folder."""
    line = re.search(rf"^{re.escape(NAMES[language])}: (`.*)$", page, re.M)[1]
    return [it.replace("OUT", out).replace("bindings/", f"{BINDINGS}/") for it in re.findall(r"`([^`]*)`", line)]


def building(out, folder, name):
    """The command that puts a program into the folder, under its name."""
    crate = f"{BINDINGS}/rust/tulvorn"
    target = f"TULVORN_ARCHIVES={out} CARGO_TARGET_DIR={folder}/target"
    python, bench = f"{BINDINGS}/python", f"{folder}/test_bench.py"
    wrapper = f"TULVORN_LIBRARY={out}/libtulvorn.so PYTHONPATH={python} exec python3 -B {python}/test_bench.py"
    return {
        "gateway": f"cc -I {out} {BINDINGS}/c/gateway.c {out}/libtulvorn.a -o {folder}/gateway",
        "signer": f"cd {crate} && {target} cargo build --offline --locked --quiet --example signer "
        f"&& mv {folder}/target/debug/examples/signer {folder}/signer",
        "test_bench.py": f"printf '#!/bin/sh\\n%s \"$@\"\\n' '{wrapper}' >{bench} && chmod +x {bench}",
    }[name]


def ran(command, folder, errors=subprocess.STDOUT):
    """The status of a command, and what it wrote, with its standard error unless that goes elsewhere."""
    env = os.environ | {"CARGO_NET_OFFLINE": "true", "CARGO_TARGET_DIR": "target", "PYTHONDONTWRITEBYTECODE": "1"}
    it = subprocess.run(command, shell=True, cwd=folder, stdout=subprocess.PIPE, stderr=errors, text=True, env=env)
    return it.returncode, it.stdout


def first(page, out, language):
    """Runs the first program of a language by the page's command. Returns whether it prints what the page says, and what
    it printed."""
    blocks = dict(re.findall(r"^```(c|cpp|rust|python|text)\n(.*?)^```$", page, re.S | re.M))
    with tempfile.TemporaryDirectory() as folder:
        os.makedirs(f"{folder}/src")
        words = first_words(page, out, language)
        files = {FILES[language]: blocks[language], "Cargo.toml": MANIFEST.replace("DEPENDENCY", words[0])}
        for name, text in files.items():
            with open(f"{folder}/{name}", "w", encoding="utf-8") as it:
                it.write(text)
        # messages of the build go to standard error
        status, said = ran(f"{words[-1]}{' && ./first' if language in ('c', 'cpp') else ''}", folder, None)
    return status == 0 and said == blocks["text"], said


def program(page, out, name):
    """Runs a program. Returns whether it prints what follows its line on the page, and what it printed."""
    lines = re.findall(r"^```console\n\$ ([^\n]*)\n(.*?)^```$", page, re.S | re.M)
    ((command, wanted),) = [it for it in lines if name in it[0].split()]
    with tempfile.TemporaryDirectory() as folder:
        status, said = ran(building(out, folder, name), BINDINGS)
        if status == 0:
            _, said = ran(f"PATH={folder}:$PATH; {command}", EXAMPLES)
    return status == 0 and said == wanted, said


def main():
    out, *names = sys.argv[1:]
    with open(f"{BINDINGS}/README.md", encoding="utf-8") as it:
        page = it.read()
    failed = 0
    for name in names:
        well, said = (first if name in FILES else program)(page, os.path.abspath(out), name)
        print(f"the page's {name}: {'prints what the page says' if well else 'DOES NOT print what the page says:'}")
        if not well:
            print(said)
            failed = 1
    return failed


if __name__ == "__main__":
    sys.exit(main())
