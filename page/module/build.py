#!/usr/bin/env python3
"""Compiles a module of the program `rewind` to WebAssembly, and links it with the C files of this folder.

    python3 -m page.module.build [--quick] MODULE.bc OUT.wasm      (--quick: less is inlined, in half the time)
"""
from __future__ import annotations

import argparse
import os
import subprocess
import tempfile

from page.module.retarget import always_inlined, retarget
from tools import kit
from tools.machines.retarget import NeedsX86

HERE = os.path.dirname(os.path.realpath(__file__))

STACK = "8388608"
TARGET = ["--no-default-config", "--target=wasm64-unknown-unknown", "-mcpu=lime1"]
AS_TEXT = ["--no-default-config", "--target=x86_64-unknown-linux-gnu", "-S", "-emit-llvm", "-O0", "-Xclang",
           "-disable-llvm-passes"]
# Neither a division nor a conversion of 128 bits may call a library that is not there.
PLAIN = ["-mllvm", "-expand-div-rem-bits=64", "-mllvm", "-expand-fp-convert-bits=64", "-mllvm", "-trap-unreachable"]
FAST_TO_BUILD = ["-mllvm", "-inline-threshold=75"]
SECTIONS = ["-ffunction-sections", "-fdata-sections"]
C_WORDS = ["-O2", "-ffreestanding", "-fno-builtin", "-fno-strict-aliasing", "-nostdinc", "-ffunction-sections", "-Wall"]


class Tools:
    """The toolchain's compiler and linker. Where one refuses what it is given, the program ends with what it says."""

    def __init__(self, folder: str) -> None:
        self.folder = folder
        self.compiler = f"{folder}/toolchain/bin/clang"

    def run(self, words: list[str], executable: str | None = None) -> None:
        ran = subprocess.run(words, executable=executable, stderr=subprocess.PIPE, text=True, errors="replace")
        if ran.returncode:
            said = ran.stderr.strip().splitlines() or [f"status {ran.returncode}"]
            kit.stop(f"{os.path.basename(words[0])} does not make the page's program: {said[0]}")

    def clang(self, *words: str) -> None:
        self.run(["clang", *words], self.compiler)

    def archive(self, out: str, parts: list[str]) -> None:
        self.run(["llvm-ar", "rc", out, *parts], self.compiler)

    def link(self, out: str, archive: str) -> None:
        words = ["--target", "wasm64-unknown-unknown", "--toolchain", f"{self.folder}/toolchain", "--stack", STACK]
        self.run([f"{self.folder}/bin/rattle-link", *words, "-o", out, archive])


def retargeted(module: str, work: str, tools: Tools) -> str:
    """The module as text for wasm64."""
    before, after = f"{work}/x86.ll", f"{work}/wasm.ll"
    tools.clang(*AS_TEXT, "-x", "ir", module, "-o", before)
    with open(before, encoding="latin-1") as lines:
        inlined = always_inlined(lines)
    with open(before, encoding="latin-1") as lines, open(after, "w", encoding="latin-1") as out:
        try:
            out.writelines(retarget(lines, inlined))
        except NeedsX86 as line:
            kit.stop(f"the program needs an x86-64 processor, and the page has none: {line}")
    os.remove(before)
    return after


def build(module: str, out: str, work: str, tools: Tools, more: list[str]) -> None:
    parts = [f"{work}/program.o"]
    text = retargeted(module, work, tools)
    tools.clang(*TARGET, *PLAIN, *SECTIONS, *more, "-O2", "-Werror", "-c", "-x", "ir", text, "-o", parts[0])
    for name in ("heap", "system", "threads"):
        parts.append(f"{work}/{name}.o")
        tools.clang(*TARGET, *C_WORDS, "-Werror", "-c", f"{HERE}/{name}.c", "-o", parts[-1])
    tools.archive(f"{work}/program.a", parts)
    tools.link(f"{out}.part", f"{work}/program.a")
    os.replace(f"{out}.part", out)


def main() -> None:
    parser = argparse.ArgumentParser(description="Compiles a module of the program to WebAssembly, and links it.")
    parser.add_argument("--quick", action="store_true", help="less is inlined, in half the time")
    parser.add_argument("module", metavar="MODULE.bc")
    parser.add_argument("out", metavar="OUT.wasm")
    asked = parser.parse_args()
    module, out = asked.module, asked.out
    if not os.path.isfile(module):
        kit.stop(f"there is no module {module}")
    kit.writable(out)
    tools = Tools(kit.folder())
    with tempfile.TemporaryDirectory(prefix="rewind-page-") as work:
        build(module, out, work, tools, FAST_TO_BUILD if asked.quick else [])


main()
