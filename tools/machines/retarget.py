"""An LLVM module for x86-64, changed to one for another machine.

Both have 64-bit pointers and put the low byte first. Data layout, triple and the attributes of the processor are changed. A module
with instructions of assembly, or with an operation of x86 alone, is refused.
"""
from __future__ import annotations

import re
from typing import NamedTuple

OF_PROCESSOR = re.compile(
    r' (?:"(?:probe-stack|stack-probe-size|target-cpu|target-features|tune-cpu|frame-pointer)"="[^"]*"|sanitize_address)(?= )'
)
# A hint to the processor that a loop only waits.
PAUSE = re.compile(r"^ *(?:tail )?(?:call|declare) void @llvm\.x86\.sse2\.pause\(\)")
# Assembly without an instruction only keeps the compiler from moving memory accesses, on any machine.
BARRIER = re.compile(r'\basm sideeffect "", "~\{memory\}"\(\)')
OF_X86 = re.compile(r"@llvm\.x86\.|\basm ")


class Machine(NamedTuple):
    """A machine, as LLVM names it."""

    layout: str
    triple: str


class NeedsX86(Exception):
    """A line of the module that wants an x86-64 processor."""


def group(line: str) -> str:
    """A group of attributes without those of the processor. LLVM refuses an empty group."""
    return OF_PROCESSOR.sub("", line).replace("{ }", "{ nounwind }")


def checked(line: str) -> str:
    """The line, or nothing where it is only a hint to the processor."""
    if PAUSE.match(line):
        return ""
    if OF_X86.search(BARRIER.sub("", line)):
        raise NeedsX86(line.strip())
    return line


def changed(line: str, machine: Machine) -> str:
    """A line of the module as it is for the machine."""
    if line.startswith("attributes #"):
        return group(line)
    if line.startswith("target datalayout"):
        return f'target datalayout = "{machine.layout}"\n'
    if line.startswith("target triple"):
        return f'target triple = "{machine.triple}"\n'
    # A line that begins with '@' or ';' is data or a remark, whatever words it has.
    if ("llvm.x86." in line or "asm " in line) and line[0] not in "@;":
        return checked(line)
    return line
