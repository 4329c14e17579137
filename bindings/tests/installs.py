#!/usr/bin/env python3
"""Installs the library, its wrappers and the program into empty folders in each way, and runs a program from there.

usage: python3 bindings/tests/installs.py LIBRARY PROGRAM

LIBRARY is the folder in which bindings/build.py left the library, and PROGRAM the program asn_tool. The programs that
run are the first ones of bindings/README.md. It builds neither the library nor asn_tool, and needs no network. A step
whose tools are missing is skipped. The last line is 'N passed, M failed', with ', K skipped' if steps were skipped.
"""
import glob
import os
import re
import shutil
import subprocess
import sys
import tarfile
import tempfile

sys.dont_write_bytecode = True
from page import BINDINGS, FILES, MANIFEST  # noqa: E402

TOP = os.path.dirname(BINDINGS)
sys.path[:0] = [BINDINGS, f"{TOP}/packaging"]
from build import interface, version  # noqa: E402

# no variable that leads to a library elsewhere
ENV = {it: value for it, value in os.environ.items() if not it.startswith(("TULVORN", "PKG_CONFIG", "CMAKE", "PYTHON"))}
ENV |= {"PYTHONDONTWRITEBYTECODE": "1", "CARGO_NET_OFFLINE": "true"}
ENV |= {"PIP_NO_INDEX": "1", "PIP_ROOT_USER_ACTION": "ignore", "PIP_DISABLE_PIP_VERSION_CHECK": "1"}
PIP = ["python3", "-m", "pip"]
CMAKE = """cmake_minimum_required(VERSION 3.13)
project(first C CXX)
find_package(tulvorn 99 QUIET)
if(tulvorn_FOUND)
    message(FATAL_ERROR "version 99 is found")
endif()
find_package(tulvorn VERSION REQUIRED)
add_executable(first-c first.c)
target_link_libraries(first-c tulvorn::static)
add_executable(first-cpp first.cpp)
set_property(TARGET first-cpp PROPERTY CXX_STANDARD 17)
target_link_libraries(first-cpp tulvorn::tulvorn)
""".replace("VERSION REQUIRED", f"{version()} REQUIRED")


class Failure(Exception):
    """What a step found to be wrong."""


def expect(found, wanted):
    if found != wanted:
        raise Failure(f"{found!r} is found, and {wanted!r} is expected")


def ran(words, folder, **env):
    """Runs a command in a folder, and returns its standard output. A command that fails is a failure."""
    how = {"stdin": subprocess.DEVNULL, "stdout": subprocess.PIPE, "stderr": subprocess.PIPE}
    it = subprocess.run(words, cwd=folder, env=ENV | env, text=True, **how)
    if it.returncode:
        raise Failure(f"{' '.join(words)} ended with {it.returncode}:\n{it.stdout}{it.stderr}")
    return it.stdout


class Room:
    """A temporary folder, the library and the program to install, and the page's programs with what they print."""

    def __init__(self, folder, library, program):
        self.folder, self.library, self.program = folder, os.path.abspath(library), os.path.abspath(program)
        with open(f"{BINDINGS}/README.md", encoding="utf-8") as it:
            self.blocks = dict(re.findall(r"^```(c|cpp|rust|python|text)\n(.*?)^```$", it.read(), re.S | re.M))
        self.wanted = self.blocks["text"]
        self.given = {"TULVORN_ARCHIVES": self.library, "PROGRAM": self.program}

    def fresh(self, name, *languages):
        """A new folder with the page's programs in some languages."""
        folder = f"{self.folder}/{name}"
        os.makedirs(f"{folder}/src")
        for it in languages:
            with open(f"{folder}/{FILES[it]}", "w", encoding="utf-8") as to:
                to.write(self.blocks[it])
        return folder

    def source(self):
        """The folder that the source archive becomes when it is unpacked. It is made once."""
        folder = f"{self.folder}/source"
        if not os.path.isdir(folder):
            os.makedirs(folder)
            code = f"import sys; sys.path.insert(0, '{TOP}/packaging'); import wheels; wheels.build_sdist('.')"
            ran(["python3", "-c", code], folder)
            with tarfile.open(f"{folder}/tulvorn-{version()}.tar.gz") as it:
                it.extractall(folder)
        return f"{folder}/tulvorn-{version()}"


# ---- make install


def installed(room, folder, libraries="/usr/lib"):
    """Installs the library below a folder, in which nothing is, and returns the folder of its libraries."""
    words = ["make", "-C", TOP, "install", f"DESTDIR={folder}/root", "PREFIX=/usr", f"LIBDIR={libraries}"]
    ran(words, folder, **room.given)
    return f"{folder}/root{libraries}"


def compiled_in(room, folder, libraries):
    """Compiles and runs the page's programs in C and C++ by what pkg-config says of a folder of libraries."""
    env = {"PKG_CONFIG_PATH": f"{libraries}/pkgconfig", "LD_LIBRARY_PATH": libraries}
    expect(ran(["pkg-config", "--modversion", "tulvorn"], folder, **env).strip(), version())
    flags = ran(["pkg-config", "--cflags", "--libs", "tulvorn"], folder, **env).split()
    archive = [flags[0], f"{libraries}/libtulvorn.a"]
    for words in ["gcc", "first.c", *archive], ["gcc", "first.c", *flags], ["g++", "-std=c++17", "first.cpp", *flags]:
        ran([*words, "-o", "first"], folder)
        expect(ran(["./first"], folder, **env), room.wanted)
    needed = re.findall(r"\(NEEDED\).*\[(libtulvorn.*)\]", ran(["readelf", "-d", "first"], folder))
    expect(needed, [f"libtulvorn.so.{interface()}"])


def with_make(room):
    folder = room.fresh("make", "c", "cpp")
    compiled_in(room, folder, installed(room, folder))
    os.rename(f"{folder}/root", f"{folder}/moved")
    compiled_in(room, folder, f"{folder}/moved/usr/lib")


def with_cmake(room):
    folder = room.fresh("cmake", "c", "cpp")
    installed(room, folder)
    with open(f"{folder}/CMakeLists.txt", "w", encoding="utf-8") as it:
        it.write(CMAKE)
    ran(["cmake", "-S", ".", "-B", "made", f"-DCMAKE_PREFIX_PATH={folder}/root/usr"], folder)
    ran(["cmake", "--build", "made"], folder)
    for name in "first-c", "first-cpp":
        expect(ran([f"made/{name}"], folder), room.wanted)


def with_musl(room):
    folder = room.fresh("musl", "c")
    archive = [f"-I{room.library}", f"{room.library}/libtulvorn.a"]
    ran(["musl-gcc", "-static", "first.c", *archive, "-o", "first"], folder)
    expect(ran(["./first"], folder), room.wanted)


def with_program(room):
    folder = room.fresh("program")
    ran(["make", "-C", TOP, "install-program", f"DESTDIR={folder}/root", "PREFIX=/usr"], folder, **room.given)
    answers(f"{folder}/root/usr")


def answers(folder):
    """Runs the program that is installed below a folder."""
    examples = f"{TOP}/examples"
    line = f"echo 6b04 | {folder}/bin/asn_tool show --type Msg --rules per --module rows.asn"
    expect(ran(["sh", "-c", line], examples), '{"id":5,"note":"A","ok":true}\n')


# ---- Rust


def crate_in(room, folder):
    """Packs the crate, and unpacks it into a folder with a program that uses it."""
    words = ["cargo", "package", "--offline", "--quiet", "--no-verify", "--allow-dirty"]
    ran(words, f"{BINDINGS}/rust/tulvorn", CARGO_TARGET_DIR=f"{folder}/packed")
    with tarfile.open(f"{folder}/packed/package/tulvorn-{version()}.crate") as it:
        it.extractall(f"{folder}/root")
    with open(f"{folder}/Cargo.toml", "w", encoding="utf-8") as it:
        it.write(MANIFEST.replace("DEPENDENCY", f'tulvorn = {{ path = "root/tulvorn-{version()}" }}'))


def with_cargo(room):
    folder = room.fresh("rust", "rust")
    crate_in(room, folder)
    words = ["cargo", "run", "--offline", "--quiet"]
    expect(ran(words, folder, TULVORN_ARCHIVES=room.library), room.wanted)
    try:
        ran(["cargo", "build", "--offline"], folder, PKG_CONFIG_LIBDIR="/none")
    except Failure as failure:
        if "the library of Tulvorn is not found" not in str(failure) or "panicked" in str(failure):
            raise
    else:
        raise Failure("the crate is built without a library")


def with_cargo_installed(room):
    folder = room.fresh("rust-installed", "rust")
    libraries = installed(room, folder)
    crate_in(room, folder)
    env = {"PKG_CONFIG_PATH": f"{libraries}/pkgconfig", "LD_LIBRARY_PATH": libraries}
    expect(ran(["cargo", "run", "--offline", "--quiet"], folder, **env), room.wanted)
    needed = ran(["readelf", "-d", "target/debug/first"], folder)
    expect(re.findall(r"\(NEEDED\).*\[(libtulvorn.*)\]", needed), [f"libtulvorn.so.{interface()}"])


# ---- Python


def runs_python(room, folder, packages):
    """Runs the page's program in Python with the packages of a folder."""
    expect(ran(["python3", "first.py"], folder, PYTHONPATH=packages), room.wanted)


def with_pip(room):
    folder = room.fresh("pip", "python")
    ran([*PIP, "install", "--quiet", "--target", "root", TOP], folder, **room.given)
    runs_python(room, folder, f"{folder}/root")
    found = ran(["python3", "-c", "import importlib.metadata as it; print(it.version('tulvorn'))"], folder,
                PYTHONPATH=f"{folder}/root")
    expect(found.strip(), version())


def with_wheel(room):
    folder = room.fresh("wheel", "python")
    ran([*PIP, "wheel", "--quiet", "--wheel-dir", "made", TOP], folder, **room.given)
    (wheel,) = glob.glob(f"{folder}/made/*.whl")
    ran([*PIP, "install", "--quiet", "--target", "root", wheel], folder)
    runs_python(room, folder, f"{folder}/root")
    # what the name of the wheel says
    wanted = ran(["objdump", "-T", f"{folder}/root/tulvorn/libtulvorn.so"], folder)
    late = [it for it in re.findall(r"GLIBC_2\.(\d+)", wanted) if int(it) > 17]
    expect(late, [])


def with_source_archive(room):
    folder = room.fresh("sdist", "python")
    ran([*PIP, "install", "--quiet", "--target", "root", room.source()], folder, **room.given)
    runs_python(room, folder, f"{folder}/root")


def with_build(room):
    folder = room.fresh("build", "python")
    # (each virtual environment of a build in isolation takes ten seconds; the steps of pip are in isolation)
    ran([*built_by(), "--no-isolation", "--outdir", "made", TOP], folder, **room.given)
    (wheel,) = glob.glob(f"{folder}/made/*.whl")
    expect(len(os.listdir(f"{folder}/made")), 2)
    ran([*PIP, "install", "--quiet", "--target", "root", wheel], folder)
    runs_python(room, folder, f"{folder}/root")


def built_by():
    """The command `python3 -m build`, if some Python has it."""
    for python in "python3", "/usr/bin/python3":
        words = [python, "-m", "build"]
        if subprocess.run([*words, "--version"], env=ENV, cwd="/", capture_output=True).returncode == 0:
            return words
    return None


# ---- Debian


def with_debian(room):
    source, folder = room.source(), room.fresh("debian", "c", "cpp", "python")
    shutil.copytree(f"{TOP}/debian", f"{source}/debian")
    ran(["dpkg-buildpackage", "-b", "-us", "-uc"], source, **room.given)
    packages = glob.glob(f"{os.path.dirname(source)}/*.deb")
    names = sorted(os.path.basename(it).partition("_")[0] for it in packages)
    wanted = ["asn-tool", f"libtulvorn{interface()}", "libtulvorn-dev", "python3-tulvorn"]
    expect(names, sorted(wanted))
    for it in packages:
        ran(["dpkg-deb", "-x", it, "root"], folder)
        expect(ran(["dpkg-deb", "-f", it, "Version"], folder).strip(), version())
    (libraries,) = glob.glob(f"{folder}/root/usr/lib/*/pkgconfig")
    libraries = os.path.dirname(libraries)
    compiled_in(room, folder, libraries)
    packages = f"{folder}/root/usr/lib/python3/dist-packages"
    expect(ran(["python3", "first.py"], folder, PYTHONPATH=packages, LD_LIBRARY_PATH=libraries), room.wanted)
    answers(f"{folder}/root/usr")


# ---- the command

# the name of each step, the tools that it needs, and its function
C = ["make", "gcc", "g++", "readelf"]
STEPS = (
    ("make install, by pkg-config", [*C, "pkg-config"], with_make),
    ("make install, by CMake", [*C, "cmake"], with_cmake),
    ("a static program with musl", ["musl-gcc"], with_musl),
    ("make install-program", ["make"], with_program),
    ("the crate, with an archive", ["cargo"], with_cargo),
    ("the crate, with the library that is installed", ["cargo", "make", "pkg-config", "readelf"], with_cargo_installed),
    ("pip install", ["python3 -m pip"], with_pip),
    ("pip wheel", ["python3 -m pip", "objdump"], with_wheel),
    ("pip install, of the source archive", ["python3 -m pip"], with_source_archive),
    ("python3 -m build", ["python3 -m pip", "python3 -m build"], with_build),
    ("packages of Debian", ["dpkg-buildpackage", "dh", "dh_python3", "pkg-config"], with_debian),
)


def is_there(tool):
    if tool == "python3 -m build":
        return built_by() is not None
    if tool == "python3 -m pip":
        return subprocess.run([*PIP, "--version"], env=ENV, capture_output=True).returncode == 0
    return shutil.which(tool) is not None


def main(words):
    if len(words) != 2 or words[0].startswith("-"):
        print(__doc__, file=sys.stderr)
        return 2
    counts = {"passed": 0, "failed": 0, "skipped": 0}
    with tempfile.TemporaryDirectory(prefix="tulvorn-installs-") as folder:
        room = Room(folder, *words)
        for name, tools, run in STEPS:
            missing = [it for it in tools if not is_there(it)]
            said, how = "passed", "passed"
            if missing:
                said, how = f"SKIPPED, without {' and '.join(missing)}", "skipped"
            else:
                try:
                    run(room)
                except Exception as error:
                    said, how = f"FAILED: {error}", "failed"
            counts[how] += 1
            print(f"{name}: {said}", flush=True)
    note = f", {counts['skipped']} skipped" if counts["skipped"] else ""
    print(f"{counts['passed']} passed, {counts['failed']} failed{note}")
    return 1 if counts["failed"] else 0


if __name__ == "__main__":
    sys.exit(main(sys.argv[1:]))
