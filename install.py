#!/usr/bin/env python3
"""Puts the program `asn_tool` below a folder, with its manual page and completions for bash and zsh.

usage: python3 install.py [--program FILE] FOLDER

It leaves FOLDER/bin/asn_tool, FOLDER/share/man/man1/asn_tool.1, FOLDER/share/bash-completion/completions/asn_tool and
FOLDER/share/zsh/site-functions/_asn_tool. The last three are made from what the program's own `--help` says.

The program is compiled from the sources of the crates without a proof, which takes one and a half to three minutes on
four processors, and `asn_tool --version` says `unproved build`. Standard error has a line for each step, and one every
ten seconds. With --program it is FILE: crates/asn_tool/out/asn_tool, say, where `rt run` or `rt ci` leaves the program
that is proved.
"""
import os
import re
import shutil
import subprocess
import sys
import tempfile
import time

sys.dont_write_bytecode = True
TOP = os.path.dirname(os.path.abspath(__file__))
sys.path.insert(0, f"{TOP}/builder")
import room

NAME = "asn_tool"
VERSION = re.compile(r'\.version\("([^"]*)"\)')
USUAL = 180  # seconds of a compilation on four processors


def build(program):
    """Compiles the program without a proof; its version says so."""
    with tempfile.TemporaryDirectory() as folder:
        room.lay(folder, [])
        words = f"{folder}/crates/asn_request/src/program.rt"
        text = room.text_of(words)
        with open(words, "w", encoding="utf-8") as it:
            it.write(VERSION.sub(r'.version("\1, unproved build")', text))
        made = f"{folder}/{NAME}"
        unproved = f"{TOP}/builder/unproved.py"
        waited_for([sys.executable, unproved, "--parts", f"{folder}/crates/{NAME}", TOP, made])
        shutil.copy2(made, program)


def waited_for(words):
    """Runs a compilation, and shows on standard error how long it has taken so far."""
    started = time.monotonic()
    print(f"compiling {NAME}, which takes some {USUAL} s on four processors", file=sys.stderr, flush=True)
    with subprocess.Popen(words, stdin=subprocess.DEVNULL) as ran:
        while ran.poll() is None:
            try:
                ran.wait(timeout=10)
            except subprocess.TimeoutExpired:
                print(f"compiling {NAME}: {time.monotonic() - started:.0f} s", file=sys.stderr, flush=True)
    if ran.returncode:
        sys.exit(f"install: compiling {NAME} failed")


# ---- what the program says of itself


class Command:
    """A command: its name, what it is for, its options, each with the word for its value and what it is for, and the rest
    of its help. The program itself is the command without a name."""

    def __init__(self, program, name=""):
        said = subprocess.run([program, *name.split(), "--help"], capture_output=True, text=True, check=True).stdout
        self.name = name
        self.about, _, rest = said.partition("\n")
        parts = re.split(r"^(Usage|Commands|Arguments|Options):", rest, flags=re.M)
        parts = dict(zip(parts[1::2], parts[2::2]))
        self.usage = parts["Usage"].strip()
        options, _, self.after = parts["Options"].partition("\n\n")
        self.options = [it for it in map(option_of, lines_of(options)) if it]
        self.commands = [Command(program, it.split()[0]) for it in lines_of(parts.get("Commands", "").partition("\n\n")[0])
                         if it.split()[0] != "help"]


def lines_of(text):
    """The entries of a list in a help text, each on one line, though its last words may stand on the next."""
    found = []
    for line in text.split("\n"):
        if re.match(r" {10,}\S", line) and found:
            found[-1] += "  " + line.strip()
        elif line.strip():
            found.append(line.strip())
    return found


def option_of(line):
    """(names, word for the value, values, what it is for) of an option's line in a help text."""
    match = re.match(r"((?:-\w, )?--[\w-]+)(?: (<[^>]*>(?:\.\.\.)?|\[[^]]*\]))? *(.*)$", line)
    if not match:
        return None
    values = re.search(r"\[possible values: ([^]]*)\]", match[3])
    return match[1].split(", "), match[2], values[1].split(", ") if values else [], match[3].strip()


def words_for(option):
    """What completes the value of an option: its values, or files, or nothing."""
    _, value, values, _ = option
    return " ".join(values), bool(value) and "FILE" in value


# ---- manual page and completions


def escaped(text):
    """Text for a manual page."""
    text = text.replace("\\", "\\e").replace("-", "\\-")
    return re.sub(r"^([.'])", r"\\&\1", text, flags=re.M)


def filled(text):
    """The rest of a help text for a manual page: lines that are indented stay as they are, and others are filled. A line
    that begins with a heading, as `Output:`, or with an option begins a paragraph."""
    lines, is_kept = [], False
    for line in text.strip().split("\n"):
        keeps = line.startswith("  ")
        if keeps != is_kept:
            lines += [".nf", ".in 0"] if keeps else [".in", ".fi"]
            is_kept = keeps
        if not line or re.match(r"([A-Z]\w*( \w+)?:|--)", line):
            lines.append(".PP")
        if line:
            lines.append(escaped(line))
    return [*lines, *[".in", ".fi"] * is_kept]


def manual(tool, version):
    lines = [f'.TH ASN_TOOL 1 "" "{version}"', ".SH NAME", f"asn_tool \\- {escaped(tool.about)}", ".SH SYNOPSIS"]
    lines += [f".B asn_tool\n{escaped(it.usage.removeprefix('asn_tool').strip())}\n.br" for it in tool.commands]
    lines += [".SH DESCRIPTION", *filled(tool.after)]
    for command in tool.commands:
        lines += [f".SS asn_tool {command.name}", escaped(command.about), ""]
        for names, value, _, what in command.options:
            lines += [".TP", f".B {escaped(', '.join(names))} {escaped(value or '')}".rstrip(), escaped(what)]
        lines += [".PP", *filled(command.after)]
    return "\n".join(lines) + "\n"


def for_bash(tool):
    cases = []
    for command in tool.commands:
        inner = [f"            {'|'.join(names)}) {bash_values(it)}; return ;;"
                 for it in command.options for names in [it[0]] if it[1]]
        words = " ".join(names[-1] for names, *_ in command.options)
        cases += [f"    {command.name})", '        case "$before" in', *inner, "        esac",
                  f'        COMPREPLY=($(compgen -W "{words}" -- "$now"))',
                  '        [[ $now == -* ]] || COMPREPLY+=($(compgen -f -- "$now")) ;;']
    names = " ".join(it.name for it in tool.commands)
    top = " ".join(names[-1] for names, *_ in tool.options)
    return "\n".join([
        "# completions of asn_tool for bash, made from its help", "_asn_tool() {",
        '    local now=${COMP_WORDS[COMP_CWORD]} before=${COMP_WORDS[COMP_CWORD - 1]}', "    COMPREPLY=()",
        "    if ((COMP_CWORD == 1)); then", f'        COMPREPLY=($(compgen -W "{names} {top}" -- "$now"))', "        return",
        "    fi", "    case ${COMP_WORDS[1]} in", *cases, "    esac", "}", "complete -o filenames -F _asn_tool asn_tool", ""])


def bash_values(option):
    values, is_file = words_for(option)
    return f'COMPREPLY=($(compgen {"-f" if is_file else f"-W {chr(34)}{values}{chr(34)}"} -- "$now"))'


def for_zsh(tool):
    quoted = lambda text: re.sub(r"([\[\]:'])", "", text)
    lines = ["#compdef asn_tool", "# completions of asn_tool for zsh, made from its help", "_asn_tool() {",
             "    local -a commands=("]
    lines += [f"        '{it.name}:{quoted(it.about)}'" for it in tool.commands]
    lines += ["    )", "    if ((CURRENT == 2)); then", "        _describe command commands", "        return", "    fi",
              "    case $words[2] in"]
    for command in tool.commands:
        lines.append(f"        {command.name}) shift words; ((CURRENT--)); _arguments -s \\")
        for option in command.options:
            names, value, _, what = option
            values, is_file = words_for(option)
            action = f":{value.strip('<>.[]')}:" + ("_files" if is_file else f"({values})") if value else ""
            lines.append(f"            '{names[-1]}[{quoted(what)}]{action}' \\")
        lines.append("            '*:file:_files' ;;")
    return "\n".join([*lines, "    esac", "}", '_asn_tool "$@"', ""])


def put(path, text):
    os.makedirs(os.path.dirname(path), exist_ok=True)
    with open(path, "w", encoding="utf-8") as it:
        it.write(text)
    print(path)


def main(words):
    given = words[1] if words[:1] == ["--program"] and len(words) > 1 else None
    folders = words[2:] if given else words
    if len(folders) != 1 or folders[0].startswith("-"):
        print(__doc__, file=sys.stderr)
        return 2
    folder = os.path.abspath(folders[0])
    program = f"{folder}/bin/{NAME}"
    os.makedirs(f"{folder}/bin", exist_ok=True)
    if given:
        shutil.copy2(given, program)
    else:
        build(program)
    print(program)
    version = subprocess.run([program, "--version"], capture_output=True, text=True, check=True).stdout.strip()
    tool = Command(program)
    put(f"{folder}/share/man/man1/{NAME}.1", manual(tool, version))
    put(f"{folder}/share/bash-completion/completions/{NAME}", for_bash(tool))
    put(f"{folder}/share/zsh/site-functions/_{NAME}", for_zsh(tool))
    print(version)
    return 0


if __name__ == "__main__":
    sys.exit(main(sys.argv[1:]))
