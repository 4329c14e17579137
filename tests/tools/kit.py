"""The command of the kit as a module: its crates, their files, and the words of a check."""
import importlib.machinery
import importlib.util
import os
import shutil


def kit_command():
    loader = importlib.machinery.SourceFileLoader("rt_of_kit", os.path.realpath(shutil.which("rt")))
    module = importlib.util.module_from_spec(importlib.util.spec_from_loader("rt_of_kit", loader))
    loader.exec_module(module)
    return module


rt = kit_command()
rtlib = rt.rtlib

# The milliseconds for which the checker keeps memory that it has freed. Its allocator, mimalloc, reads this. With less a
# check takes some 2 percent longer.
os.environ.setdefault("MIMALLOC_PURGE_DELAY", "10000")


def remember_stamps():
    """Has the kit compute the stamp of a crate anew only if a file of the crate, or of one below it, changed."""
    make, made = rtlib.Crate.stamp, {}

    def stamp(crate):
        files = [file for it in [crate, *crate.below()] for file in rtlib.files_of(it.folder)]
        state = [(file, os.stat(file).st_mtime_ns) for file in files]
        if made.get(crate.folder, (None, None))[0] != state:
            made[crate.folder] = state, make(crate)
        return made[crate.folder][1]

    rtlib.Crate.stamp = stamp


remember_stamps()


def share_work():
    """Has a check take what checks in other copies of the repository on this machine kept, if the kit can."""
    if hasattr(rt, "share_work"):
        rt.share_work(True)
