#!/usr/bin/env python3
"""Leaves the LLVM module of the proved program `rewind`.

    python3 -m page.module.proved_module OUT.bc

The crate rewind_cli and those below it are built already (`make` does that). `rattle build` proves the program again over what it
kept, and hands its module to tools/build/keep_module. What it says is left in OUT.bc.log.
"""
import argparse
import filecmp
import os
import shutil
import subprocess
import tempfile

from tools import kit

CRATE = f"{kit.ROOT}/crates/rewind_cli"


def words_of_build(folder: str, tools: str, program: str) -> list[str]:
    """The command line that `rt` would give to `rattle build` of the program."""
    os.chdir(CRATE)
    crate = kit.library(folder).Crate(CRATE, kit.ROOT, {}, ())
    words = [f"{folder}/bin/rattle", "build", *crate.words(["--jobs", "1"]), "--incremental", "out/incremental"]
    # The test of the processor at the start would not link.
    return [*words, "--toolchain", tools, "--backend", "llvm", "--cpu=x86-64", "-o", program]


def keep(module: str, out: str) -> None:
    """Leaves a module as `out`. One that has not changed stays as it is, so that `make` compiles nothing again."""
    if not os.path.exists(out) or not filecmp.cmp(module, out, shallow=False):
        shutil.move(module, f"{out}.part")
        os.replace(f"{out}.part", out)


def main() -> None:
    parser = argparse.ArgumentParser(description="Leaves the LLVM module of the proved program `rewind`.")
    parser.add_argument("out", metavar="OUT.bc")
    out = os.path.abspath(parser.parse_args().out)
    kit.writable(out)
    folder = kit.folder()
    if not os.path.exists(f"{CRATE}/out/rewind_cli"):
        kit.stop("the program is not proved yet: run 'make' first")
    with tempfile.TemporaryDirectory(prefix="rewind-page-") as work:
        tools = kit.tools(folder, f"{work}/tools", kit.Way.BUILD)
        with open(f"{out}.log", "w", encoding="utf-8") as log:
            words = words_of_build(folder, tools, f"{work}/program.o")
            built = subprocess.run(words, stdin=subprocess.DEVNULL, stdout=log, stderr=subprocess.STDOUT)
        if built.returncode or not os.path.exists(f"{tools}/module.bc"):
            kit.fail(f"the program is not proved: see {out}.log")
        keep(f"{tools}/module.bc", out)


main()
