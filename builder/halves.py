"""The LLVM module of a program in two halves, which two processes write side by side.

Each half is of the whole program, but in one of them the functions of some crates have no body, and in the other those of
other crates. A function with type parameters keeps its body, since each half compiles it for the types of its callers,
and so does a short one. Of each function the module takes a body that a half has. If no half has it, the module is made
in one piece.
"""
import os
import re

# the crates whose functions have no body in a half, and the modules of the program's own crate; in any other half each has
# (the first half has what checks, reads and writes messages)
EMPTIED = [it.split() for it in ("""
asn_module asn_notation asn_constraint_text clap strsim
asn_published_text asn_published_read asn_published_types asn_published_report asn_published_write
""", """
asn_plan asn_per asn_oer asn_newer asn_constrained asn_containing asn_fields asn_explain asn_examples asn_resuming asn_window
asn_walk_feed asn_walk_read asn_walk_into asn_walk_check asn_walk_write asn_json json serde_json
asn_look asn_convert asn_tool/running
""")]
SHORT = 2  # lines of a body that stays: what only functions without a body call is written in no half
FUNCTION = re.compile(r"( *)(?:pub(?:\([a-z ]+\))? )?(const )?(?:unsafe )?fn \w+(<)?")


def has_types(text):
    """Whether a list of parameters, which begins after its `<`, has a type or a number."""
    return not re.match(r"('\w+(: *'\w+)?,? *)+>", text)


def emptied(text):
    """The text of a source file as `rt fmt` lays it out, in which functions without type parameters have no body."""
    if "macro_rules!" in text:
        return text
    lines, kept, at = text.split("\n"), False, 0
    while at < len(lines):
        line = lines[at]
        if re.match(r"(pub(\([a-z ]+\))? )?(unsafe )?(impl|trait)\b", line):
            kept = "trait " in line or "impl<" in line and has_types(line.partition("impl<")[2])
        elif line == "}":
            kept = False
        function = FUNCTION.match(line)
        if function and not kept and not line.endswith((";", "}")):
            indent, is_const, opened = function.groups()
            begun = re.compile(rf"{indent}(\S.*)?\{{$")
            body = next((it + 1 for it in range(at, len(lines)) if begun.match(lines[it])), 0)
            end = next((it for it in range(body, len(lines)) if lines[it] == indent + "}"), 0) if body else 0
            if end > body + SHORT and not (is_const or opened and has_types(line[function.end() :])):
                lines[body:end] = ["loop {}"] + [""] * (end - body - 1)
            at = max(at, end)
        at += 1
    return "\n".join(lines)


def with_emptied(words, crates, folder):
    """The words of a command that names the crates' sources, where those of some crates are copies without bodies."""
    given = []
    for word in words:
        name, root = re.match(r"(\w*)[^=]*=?(.*)", word).groups()
        if word == "src/main.rt":
            name, root = words[words.index("--crate-name") + 1], os.path.abspath(word)
        parts = {it.partition("/")[2] for it in crates if it.partition("/")[0] == name}
        if parts and root.startswith("/"):
            source, target = os.path.dirname(root), f"{folder}/{name}/src"
            copied(source, target, parts)
            word = word.removesuffix(root).removesuffix("src/main.rt") + f"{target}/{os.path.basename(root)}"
        given.append(word)
    return given


def copied(source, target, parts):
    """Copies the source files of a crate, without the bodies of all its functions, or of those of some files."""
    for at, _, names in os.walk(source):
        to = f"{target}/{os.path.relpath(at, source)}"
        os.makedirs(to)
        for name in names:
            with open(f"{at}/{name}", encoding="utf-8") as it, open(f"{to}/{name}", "w", encoding="utf-8") as new:
                new.write(emptied(it.read()) if parts & {"", name.partition(".")[0]} else it.read())


def has_body(text):
    """Whether the function of a module has a body: without one it is a loop that never comes to its end."""
    if "; No predecessors!" not in text:
        return "\n  ret " in text or "\n  unreachable" in text
    blocks = {it.partition(":")[0]: it for it in re.split(r"\n(?=[\w.]+:)", text)}
    left = ["start"]
    while left:
        block = blocks.pop(left.pop(), "")
        if "\n  ret " in block or "\n  unreachable" in block:
            return True
        left += re.findall(r"label %([\w.]+)", block)
    return False

