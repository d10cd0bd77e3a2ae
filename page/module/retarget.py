"""An LLVM module for x86-64, changed to one for wasm64.

Beside what `tools.machines.retarget` changes, `main` is renamed, and functions that are not internal are exported.
"""
import re
from collections.abc import Iterable, Iterator

from tools.machines.retarget import Machine, changed

WASM64 = Machine("e-m:e-p:64:64-p10:8:8-p20:8:8-i64:64-i128:128-n32:64-S128", "wasm64-unknown-unknown")
NAMED = re.compile(r"^define (?!internal)[^@]*@(\w+)\(")
ATTRIBUTES = re.compile(r" (?=(?:#\d+ )?\{$)")
LOCAL = re.compile(r" = alloca \[(\d+) x i8\]")
# Bytes of locals. A function with more is not inlined: where one function copies large locals to each other, LLVM takes them
# apart, and took half a minute for a single function.
LARGE = 8192


def with_attribute(attribute: str, head: str) -> str:
    return ATTRIBUTES.sub(f" {attribute} ", head, count=1)


def always_inlined(lines: Iterable[str]) -> set[str]:
    """The groups of attributes by which a function is inlined wherever it is called."""
    return {line.split()[1] for line in lines if line.startswith("attributes #") and " alwaysinline " in line}


def is_large(lines: Iterable[str]) -> bool:
    return sum(int(size) for line in lines if " = alloca [" in line for size in LOCAL.findall(line)) > LARGE


def definition(lines: list[str], inlined: set[str]) -> list[str]:
    """The lines of a function's definition, with the attributes that it needs here."""
    head = lines[0].replace("define i32 @main(", "define i32 @program_main(")
    named = NAMED.match(head)
    if named:
        head = with_attribute(f'"wasm-export-name"="{named[1]}"', head)
    if inlined.isdisjoint(head.split()) and is_large(lines):
        head = with_attribute("noinline", head)
    return [head, *lines[1:]]


def retarget(lines: Iterable[str], inlined: set[str]) -> Iterator[str]:
    """The lines of a module for x86-64 as those of a module for wasm64. `inlined` is what `always_inlined` says of its lines."""
    function: list[str] = []
    for line in lines:
        line = changed(line, WASM64)
        if function or line.startswith("define "):
            function.append(line)
        else:
            yield line
        if function and line == "}\n":
            yield from definition(function, inlined)
            function = []
