"""Sources for what the documents say, read from a text beside this file:

    == CLAIM or SECTION / ROW
    + SOURCE              is accepted
    - CODE: SOURCE        is refused with this code
    > OUTPUT: SOURCE      is accepted, and prints this, lines joined by ' / '

A source is the body of `main`. What begins with `func` stands beside `main`, separated by ` | ` from the body; what
begins with `package` is a whole file. In a source `\\n` is a new line, `\\t` a tab, `\\\\` a backslash, `\\x..` a
byte and `\\u....` a character.
"""
from __future__ import annotations

import os
import re

from .checks import Checks
from .markdown import Row
from .program import Scratch

HERE = os.path.dirname(os.path.abspath(__file__))


class Example:
    """A source, how it is marked, and what comes of it."""

    def __init__(self, mark: str, result: str, text: str) -> None:
        self.mark, self.result, self.text = mark, result, text
        self.source = source_of(text)


def file_of(body: str, beside: str = "") -> str:
    """A file whose `main` has a body, which begins on line 3 where nothing stands beside it."""
    return f"package main\n{beside}func main() {{\n\t{body}\n}}\n"


def meant(escape: re.Match[str]) -> str:
    """What an escape stands for. A byte that is no character is kept as `surrogateescape` has it."""
    if escape[1] in "nt\\":
        return {"n": "\n", "t": "\t", "\\": "\\"}[escape[1]]
    number = int(escape[1][1:], 16)
    return chr(0xDC00 + number) if escape[1][0] == "x" and number > 127 else chr(number)


def source_of(text: str) -> str:
    whole = re.sub(r"\\(n|t|\\|x[0-9a-f]{2}|u[0-9a-f]{4})", meant, text)
    if whole.lstrip("\ufeff").startswith("package"):
        return whole + "\n"
    if whole.startswith("func"):
        beside, _, body = whole.partition(" | ")
        return file_of(body, beside + "\n")
    return file_of(whole)


def entries_of(name: str) -> dict[str, list[Example]]:
    """The examples of a text, by claim or row."""
    found: dict[str, list[Example]] = {}
    key = ""
    with open(os.path.join(HERE, name), encoding="utf-8") as file:
        for line in file.read().splitlines():
            if line.startswith("== "):
                key = line[3:]
                found[key] = []
            elif line and not line.startswith("#"):
                mark, rest = line[0], line[2:]
                result, _, text = rest.partition(": ") if mark != "+" else ("", "", rest)
                found[key].append(Example(mark, result, text))
    return found


def check_meaning(checks: Checks, program: Scratch, row: Row, code: str) -> None:
    """Whether `--explain` begins with the meaning that a row has in its second cell."""
    told = program.run(["--explain", code]).out.split("\n")[0]
    checks.same(row.place, f"--explain {code}", f"{code}: " + row.cells[1].replace("`", "'"), told)
