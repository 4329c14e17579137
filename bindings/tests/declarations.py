"""Compares the declarations of the header and of the bindings with the exports of crates/tulvorn_c.

usage: python3 bindings/tests/declarations.py

Each function is declared four times: by its source, in c/tulvorn.h, in rust/tulvorn/src/ffi.rs and in
python/tulvorn.py. Each declaration becomes one list of words, and the four lists have to be equal. The codes of the
header, of src/fault.rt and of Python have to be equal too.
"""
import os
import re
import sys

sys.dont_write_bytecode = True
BINDINGS = os.path.dirname(os.path.dirname(os.path.abspath(__file__)))
sys.path.insert(0, BINDINGS)

from build import exports  # noqa: E402

# what C sees of a type of the source: one word for each argument
SOURCE = {
    "&mut Handle": "handle*", "&Shown": "handle", "&Budget": "budget", "&mut Fault": "fault*", "&Fault": "fault",
    "u32": "u32", "usize": "size",
    "&[u8]": "octets size", "&mut [u8]": "octets* size", "&mut usize": "size*", "&mut u32": "u32*", "&mut i64": "i64*",
    "&mut u64": "u64*",
}
HEADER = {
    "tulvorn_handle *": "handle*", "const tulvorn_handle *": "handle", "const tulvorn_budget *": "budget",
    "tulvorn_fault *": "fault*", "const tulvorn_fault *": "fault", "uint32_t ": "u32",
    "size_t ": "size", "const uint8_t *": "octets", "uint8_t *": "octets*", "size_t *": "size*", "uint32_t *": "u32*",
    "int64_t *": "i64*", "uint64_t *": "u64*",
}
RUST = {
    "*mut Handle": "handle*", "*const Handle": "handle", "*const Budget": "budget", "*mut Fault": "fault*",
    "*const Fault": "fault", "u32": "u32", "usize": "size",
    "*const u8": "octets", "*mut u8": "octets*", "*mut usize": "size*", "*mut u32": "u32*", "*mut i64": "i64*",
    "*mut u64": "u64*",
}
PYTHON = {
    "h": "handle", "b": "budget", "f": "fault", "o": "octets", "w": "octets*", "s": "size", "u": "u32", "S": "size*",
    "U": "u32*", "I": "i64*", "N": "u64*",
}


def text_of(name):
    with open(f"{BINDINGS}/{name}", encoding="utf-8") as it:
        return it.read()


def of_source():
    return {
        it.name: (" ".join(SOURCE[kind] for _, kind in it.params).split(), "u32" if it.result else "")
        for it in exports()
    }


def of_header():
    found = {}
    text = re.sub(r"/\*.*?\*/", "", text_of("c/tulvorn.h"), flags=re.S)
    for result, name, params in re.findall(r"^(uint32_t|void) (tulvorn_\w+)\((.*?)\);", text, re.S | re.M):
        params = [re.sub(r"\s+", " ", it.strip()) for it in params.split(",") if it.strip() != "void"]
        found[name] = ([HEADER[re.sub(r"\w+$", "", it)] for it in params], "u32" if result == "uint32_t" else "")
    return found


def of_rust():
    found = {}
    text = text_of("rust/tulvorn/src/ffi.rs")
    for name, params, result in re.findall(r"pub fn (\w+)\((.*?)\)(?: -> (\w+))?;", text, re.S):
        params = [it.split(":")[1].strip() for it in params.split(",") if it.strip()]
        found[name] = ([RUST[it] for it in params], result)
    return found


def of_python():
    found = {}
    for name, kinds in re.findall(r'"(tulvorn_\w+)": "(\w*:\w?)"', text_of("python/tulvorn.py")):
        given, _, result = kinds.partition(":")
        found[name] = ([PYTHON[it] for it in given], PYTHON.get(result, ""))
    return found


def plain(table):
    """(ctypes has one word for a handle or fault that is read and for one that is written)"""
    both = {"fault*": "fault", "handle*": "handle"}
    return {name: ([both.get(it, it) for it in given], result) for name, (given, result) in table.items()}


def numbers():
    """The codes of the source and of each binding, by name."""
    source = dict(re.findall(r"const ([A-Z_]+): u32 = (\d+);", text_of("../crates/tulvorn_c/src/fault.rt")))
    header = dict(re.findall(r"TULVORN_([A-Z_]+) = (\d+)", text_of("c/tulvorn.h")))
    python = text_of("python/tulvorn.py")
    named = re.search(r"\(\s*(DONE,.*?)\) = range", python, re.S)[1]
    coded = {name: str(at) for at, name in enumerate(re.findall(r"[A-Z_]+", named))}
    kinds = re.search(r"\(\s*(BOOLEAN,.*?)\) = range", python, re.S)[1]
    kinded = {name: str(at + 1) for at, name in enumerate(re.findall(r"[A-Z_]+", kinds))}
    reasons = {name: source.pop(name) for name in list(source) if name.startswith("WHY_")}
    wrong = [name for name, number in reasons.items() if header.get(name.removeprefix("WHY_")) != number]
    wrong += [name for name, number in source.items() if header.get(name) != number or coded.get(name) != number]
    wrong += [name for name in coded if source.get(name) != coded[name]]
    return wrong + [name for name, number in kinded.items() if header.get(name) != number]


def main():
    source, failed = of_source(), 0
    tables = {"c/tulvorn.h": of_header(), "rust/tulvorn/src/ffi.rs": of_rust(), "python/tulvorn.py": of_python()}
    for what, table in tables.items():
        want, have = (source, table) if "python" not in what else (plain(source), table)
        for name in sorted({*want, *have}):
            if want.get(name) != have.get(name):
                print(f"{what}: {name} is {have.get(name)}, and {want.get(name)} in the source")
                failed += 1
    for name in numbers():
        print(f"the number of {name} is not the same everywhere")
        failed += 1
    print(f"{len(source)} exports, declared {'alike' if not failed else 'DIFFERENTLY'} in the header and two bindings")
    return 1 if failed else 0


if __name__ == "__main__":
    sys.exit(main())
