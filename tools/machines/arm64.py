#!/usr/bin/env python3
"""Compiles a module of the program `rewind` for Linux on arm64, and links it statically.

    python3 -m tools.machines.arm64 [--quick] MODULE.bc PROGRAM      (--quick: less is inlined, in half the time)

The toolchain's clang compiles the module. Debian's `gcc-aarch64-linux-gnu` compiles `arm64.c` and links both with its C library.
"""
from __future__ import annotations

import argparse
import os
import shutil
import subprocess
import tempfile
from collections.abc import Iterable, Iterator

from tools import kit
from tools.machines.retarget import Machine, NeedsX86, changed

HERE = os.path.dirname(os.path.realpath(__file__))
LINKER = "aarch64-linux-gnu-gcc"
ARM64 = Machine("e-m:e-p270:32:32-p271:32:32-p272:64:64-i8:8:32-i16:16:32-i64:64-i128:128-n32:64-S128-Fn32", "aarch64-unknown-linux-gnu")
AS_TEXT = ["--no-default-config", "--target=x86_64-unknown-linux-gnu", "-S", "-emit-llvm", "-O0", "-Xclang", "-disable-llvm-passes"]
CODE = ["--no-default-config", f"--target={ARM64.triple}", "-ffunction-sections", "-fdata-sections", "-fPIE", "-mllvm", "-trap-unreachable"]
FAST_TO_BUILD = ["-O1", "-mllvm", "-inline-threshold=75"]
RELEASE = ["-O2"]
STATIC = ["-O2", "-Wall", "-Werror", "-static-pie", "-s", "-Wl,--gc-sections", "-Wl,--build-id=none"]


def retarget(lines: Iterable[str]) -> Iterator[str]:
    """The lines of a module for x86-64 as those of a module for arm64. Calls of the system by their number go through `arm64.c`."""
    for line in lines:
        yield changed(line.replace("@syscall(", "@syscall_of_x86_64("), ARM64)


def retargeted(clang: str, module: str, work: str) -> str:
    """The module as text for arm64."""
    before, after = f"{work}/x86.ll", f"{work}/arm64.ll"
    subprocess.run([clang, *AS_TEXT, "-x", "ir", module, "-o", before], check=True)
    with open(before, encoding="latin-1") as lines, open(after, "w", encoding="latin-1") as out:
        try:
            out.writelines(retarget(lines))
        except NeedsX86 as line:
            kit.stop(f"the program needs an x86-64 processor: {line}")
    os.remove(before)
    return after


def build(module: str, program: str, work: str, how: list[str]) -> None:
    clang = f"{kit.folder()}/toolchain/bin/clang"
    text, compiled = retargeted(clang, module, work), f"{work}/program.o"
    subprocess.run([clang, *CODE, *how, "-c", "-x", "ir", text, "-o", compiled], check=True)
    subprocess.run([LINKER, compiled, f"{HERE}/arm64.c", "-o", f"{program}.part", *STATIC], check=True)
    os.replace(f"{program}.part", program)


def main() -> None:
    parser = argparse.ArgumentParser(description="Compiles a module of the program for Linux on arm64, and links it.")
    parser.add_argument("--quick", action="store_true", help="less is inlined, in half the time")
    parser.add_argument("module", metavar="MODULE.bc")
    parser.add_argument("program", metavar="PROGRAM")
    asked = parser.parse_args()
    if not os.path.isfile(asked.module):
        kit.stop(f"there is no module {asked.module}")
    if not shutil.which(LINKER):
        kit.stop(f"there is no '{LINKER}': install Debian's gcc-aarch64-linux-gnu")
    kit.writable(asked.program)
    with tempfile.TemporaryDirectory(prefix="rewind-arm64-") as work:
        build(asked.module, asked.program, work, FAST_TO_BUILD if asked.quick else RELEASE)


if __name__ == "__main__":
    main()
