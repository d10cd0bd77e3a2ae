#!/usr/bin/env python3
"""Compiles an LLVM module of the program, and links it with the toolchain's C library.

    python3 -m tools.build.quick_program [--static] MODULE.bc PROGRAM      (--static: with the system's C library in it, and no symbols)
"""
import argparse
import os
import shlex
import shutil
import subprocess
import tempfile

from tools import kit

TARGET = ["--target=x86_64-unknown-linux-gnu", "-march=x86-64", "--no-default-config", "-no-canonical-prefixes",
          "-fintegrated-cc1"]
STATIC = ["-static-pie", "-s", "-Wl,--build-id=none"]
CODE = ["-ffunction-sections", "-fdata-sections", "-mllvm", "-no-trap-after-noreturn", "-mllvm", "-trap-unreachable", "-fPIE"]
RELEASE = ["-O2"]
# Less is inlined than in a release: it compiles in half the time, and a step takes a fifth more instructions. The passes of -O1
# take two thirds of that time again, and a step a tenth more. These passes are nine tenths of the work: code that is generated
# side by side saves little.
FAST_TO_BUILD = ["-O1", "-mllvm", "-inline-threshold=75"]


def main() -> None:
    parser = argparse.ArgumentParser(description="Compiles an LLVM module of the program, and links it.")
    parser.add_argument("--static", action="store_true", help="with the system's C library in it, and no symbols")
    parser.add_argument("module", metavar="MODULE.bc")
    parser.add_argument("program", metavar="PROGRAM")
    asked = parser.parse_args()
    static = STATIC if asked.static else []
    code = CODE + (RELEASE if asked.static else FAST_TO_BUILD)
    module, program = asked.module, asked.program
    if not os.path.isfile(module):
        kit.stop(f"there is no module {module}")
    kit.writable(program)
    linker = shlex.split(os.environ.get("CC") or "cc")
    if not shutil.which(linker[0]):
        kit.stop(f"there is no C compiler '{linker[0]}' to link with: install one, or name one in CC")
    folder = kit.folder()
    with tempfile.TemporaryDirectory(prefix="rewind-quick-") as work:
        words = ["clang", *TARGET, *code, "-c", "-x", "ir", module, "-o", f"{work}/program.o"]
        subprocess.run(words, executable=f"{folder}/toolchain/bin/clang", check=True)
        parts = [f"{work}/program.o", f"{folder}/c/libos_c.a", f"{folder}/c/liblibc_c.a"]
        subprocess.run([*linker, *parts, "-o", f"{program}.part", "-Wl,--gc-sections", *static], check=True)
    os.replace(f"{program}.part", program)


main()
