"""The machines for which bindings/build.py builds the library without a proof, and what differs on each.

The kit compiles for x86-64. For another machine the compiler's LLVM module gets that machine's layout of data, and the
kit's clang compiles it. The kit has no allocator for it, so that c/heap.c takes its place.
"""
import re

NAMES = ("x86_64", "aarch64")
LAYOUT = "e-m:e-p270:32:32-p271:32:32-p272:64:64-i8:8:32-i16:16:32-i64:64-i128:128-n32:64-S128-Fn32"


class Machine:
    """A machine by its name, with the names of its gcc and binutils."""

    def __init__(self, name):
        self.name, self.has_kit = name, name == "x86_64"
        prefix = "" if self.has_kit else f"{name}-linux-gnu-"
        self.gcc, self.ld, self.objcopy, self.ar, self.nm = (
            f"{prefix}{it}" for it in ("gcc", "ld", "objcopy", "ar", "nm")
        )
        self.tools = (self.gcc, self.ld, self.objcopy, self.ar, self.nm)

    def front(self, words):
        """The options of clang for this machine, of those for x86-64."""
        if self.has_kit:
            return words
        text = " ".join(words).replace("--target=x86_64-", f"--target={self.name}-")
        return re.sub(r" -march=x86-64\b| -mllvm -no-x86-call-frame-opt", "", text).split()

    def lines(self, lines):
        """The lines of an LLVM module for this machine, of those for x86-64."""
        for line in lines:
            if self.has_kit:
                yield line
            elif line.startswith("target datalayout"):
                yield f'target datalayout = "{LAYOUT}"\n'
            elif line.startswith("target triple"):
                yield f'target triple = "{self.name}-unknown-linux-gnu"\n'
            else:
                yield re.sub(r' "target-cpu"="x86-64[^"]*"', "", line)
