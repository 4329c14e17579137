"""Makes the Python package of Tulvorn, a wheel or a source archive, as pip and `python3 -m build` call it (PEP 517).

    pip install .           at the top of the repository
    python3 -m build        leaves both in dist/

A wheel is the module bindings/python/tulvorn.py with the shared library. The library is the one in the folder that
TULVORN_ARCHIVES names, where bindings/build.py left it. Without that variable bindings/build.py builds it here without
a proof, by the kit, in some two minutes. The source archive has the sources of the library too. Only Python's own
library is needed, from version 3.8 on, and no network.
"""
import base64
import hashlib
import io
import os
import subprocess
import sys
import tarfile
import tempfile
import zipfile

TOP = os.path.dirname(os.path.dirname(os.path.abspath(__file__)))
sys.path.insert(0, f"{TOP}/bindings")
from build import interface, version  # noqa: E402

# what the source archive has: all that bindings/build.py needs, and what is here
SOURCES = """Makefile HANDLES README.md pyproject.toml install.py crates.txt
bindings builder crates packaging tests/tools""".split()
UNKEPT = {"out", "target", "__pycache__"}
# the machine of an ELF file, by its number
MACHINES = {62: "x86_64", 183: "aarch64"}
METADATA = f"""Metadata-Version: 2.1
Name: tulvorn
Version: {version()}
Summary: Values of ASN.1 types by CANONICAL-PER UNALIGNED and Canonical OER, by a proved library
Requires-Python: >=3.8
Description-Content-Type: text/markdown

"""


def octets_of(path):
    with open(path, "rb") as it:
        return it.read()


def metadata():
    return METADATA.encode() + octets_of(f"{TOP}/bindings/README.md")


def library():
    """The octets of the shared library, which is built if TULVORN_ARCHIVES names no folder."""
    name = f"libtulvorn.so.{interface()}"
    if os.environ.get("TULVORN_ARCHIVES"):
        return octets_of(os.path.join(os.environ["TULVORN_ARCHIVES"], name))
    with tempfile.TemporaryDirectory() as out:
        subprocess.run([sys.executable, f"{TOP}/bindings/build.py", "--unproved", out], check=True)
        return octets_of(f"{out}/{name}")


def record_of(files):
    """The list of a wheel's files with their hashes."""
    lines = []
    for name, octets in files.items():
        digest = base64.urlsafe_b64encode(hashlib.sha256(octets).digest()).decode().rstrip("=")
        lines.append(f"{name},sha256={digest},{len(octets)}\n")
    return "".join(lines)


def build_wheel(wheel_directory, config_settings=None, metadata_directory=None):
    """Writes the wheel into a folder, and returns its name."""
    shared = library()
    machine = MACHINES[int.from_bytes(shared[18:20], "little")]
    # the library needs no later glibc than 2.17, which bindings/tests/installs.py tests
    tag, info = f"py3-none-manylinux2014_{machine}", f"tulvorn-{version()}.dist-info"
    files = {
        "tulvorn/__init__.py": octets_of(f"{TOP}/bindings/python/tulvorn.py"),
        "tulvorn/libtulvorn.so": shared,
        f"{info}/METADATA": metadata(),
        f"{info}/WHEEL": f"Wheel-Version: 1.0\nGenerator: tulvorn\nRoot-Is-Purelib: false\nTag: {tag}\n".encode(),
    }
    files[f"{info}/RECORD"] = f"{record_of(files)}{info}/RECORD,,\n".encode()
    name = f"tulvorn-{version()}-{tag}.whl"
    with zipfile.ZipFile(f"{wheel_directory}/{name}", "w", zipfile.ZIP_DEFLATED) as to:
        for path, octets in files.items():
            # (without a time, the same files make the same wheel)
            entry = zipfile.ZipInfo(path)
            entry.external_attr = 0o100644 << 16
            to.writestr(entry, octets, zipfile.ZIP_DEFLATED)
    return name


def is_source(entry):
    """An entry of the source archive with no owner, or None for what a build left."""
    if UNKEPT & set(entry.name.split("/")):
        return None
    entry.uid = entry.gid = 0
    entry.uname = entry.gname = ""
    return entry


def build_sdist(sdist_directory, config_settings=None):
    """Writes the source archive into a folder, and returns its name."""
    root = f"tulvorn-{version()}"
    with tarfile.open(f"{sdist_directory}/{root}.tar.gz", "w:gz", format=tarfile.PAX_FORMAT) as to:
        for name in SOURCES:
            to.add(f"{TOP}/{name}", f"{root}/{name}", filter=is_source)
        entry = tarfile.TarInfo(f"{root}/PKG-INFO")
        entry.size = len(metadata())
        to.addfile(entry, io.BytesIO(metadata()))
    return f"{root}.tar.gz"
