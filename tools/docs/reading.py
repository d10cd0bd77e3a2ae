#!/usr/bin/env python3
"""Counts the lines of the definitions that docs/THEOREMS.md and docs/CLAIM.md list, and finds those that THEOREMS lacks.

    python3 -m tools.docs.reading [--check]

Writes the last column of their tables 'To believe' anew: the lines of the named modules without imports, comments and
empty lines. With --check it changes nothing, and tells each number that is not right. It tells, and changes nothing, where a row
has another form or names a module that is not there. It always tells which modules the table of THEOREMS lacks of those that
the promises above it need (tools/docs/cited.py has the rule), and which of its modules no promise needs.
"""
from __future__ import annotations

import argparse
import os
import re
import sys
from collections.abc import Iterator

from tools.docs import cited

TOP = os.path.dirname(os.path.dirname(os.path.dirname(os.path.realpath(__file__))))

WHOLE = "docs/THEOREMS.md"
PAGES = (WHOLE, "docs/CLAIM.md")
HEAD = "| To believe | Read | Lines |"
ROW = re.compile(r"(\| .* \| (`gr_\w+`: .*|`\w+`: .*) \|) [\d,]+ \|")


def path_of(crate: str, module: str) -> str:
    return os.path.join(TOP, "crates", crate, "specs", module + ".antt")


def lines_of(crate: str, module: str) -> int:
    with open(path_of(crate, module), encoding="utf-8") as file:
        lines = [line.strip() for line in file]
    return sum(1 for line in lines if line and not line.startswith(("--", "use ", "pub use ")))


def modules_of(reading: str) -> Iterator[tuple[str, str]]:
    """(crate, module) of each module of 'crate: Module, Module; crate: Module', crates in backquotes."""
    for part in reading.split(";"):
        crate, _, modules = part.partition(":")
        for module in modules.split(","):
            yield crate.strip(" `"), module.strip()


def rows(page: str, lines: list[str]) -> Iterator[tuple[str, re.Match[str] | None]]:
    """(place, row) of each row of the table of a page; a row that is not as it should be is None."""
    head = lines.index(HEAD)
    for number, line in enumerate(lines[head + 2:], head + 3):
        if not line.startswith("|"):
            return
        yield f"{page}:{number}", ROW.fullmatch(line)


def faults(page: str, lines: list[str]) -> Iterator[str]:
    """What is wrong with the table itself: it is not there, a row has another form, or names what is not there."""
    if HEAD not in lines:
        yield f"{page}: no table '{HEAD}'"
        return
    for place, row in rows(page, lines):
        if not row:
            yield f"{place}: a row of another form than '| WORDS | `CRATE`: MODULE, MODULE | NUMBER |'"
        for crate, module in modules_of(row[2]) if row else ():
            if not os.path.exists(path_of(crate, module)):
                yield f"{place}: {crate} has no specs/{module}.antt"


def counted(line: str) -> str:
    """The line of the page with the number that is right, if it has one."""
    row = ROW.fullmatch(line)
    if not row:
        return line
    total = sum(lines_of(crate, module) for crate, module in modules_of(row[2]))
    return f"{row[1]} {total:,} |"


def differences(page: str, lines: list[str]) -> Iterator[str]:
    """What to tell of each number that is not right."""
    for place, row in rows(page, lines):
        if not row:
            continue
        told, right = row[0].split("|")[-2].strip(), counted(row[0]).split("|")[-2].strip()
        if told != right:
            what = row[0].split("|")[1].strip()
            yield f"{place}: '{what}' has {told}, and its modules have {right} lines (tools/docs/reading.py)"


def strangers(lines: list[str]) -> Iterator[str]:
    """What to tell of each module that is needed and not listed, or listed and not needed."""
    needed = cited.needed(lines)
    listed = {it for _, row in rows(WHOLE, lines) if row for it in modules_of(row[2])}
    for crate, module in sorted(needed.keys() - listed):
        why = needed[crate, module]
        yield f"docs/THEOREMS.md: the table 'To believe' lacks {module} of {crate}: a promise needs its {why}"
    for crate, module in sorted(listed - needed.keys()):
        yield f"docs/THEOREMS.md: no promise above needs {module} of {crate}, which is in the table 'To believe'"


def of_page(page: str, only_checks: bool) -> list[str]:
    """What is wrong with a page, the numbers of which are written anew unless it is only checked."""
    path = os.path.join(TOP, page)
    with open(path, encoding="utf-8") as file:
        lines = file.read().split("\n")
    wrong = list(faults(page, lines))
    if wrong:
        return wrong
    wrong = list(strangers(lines)) if page == WHOLE else []
    if only_checks:
        return wrong + list(differences(page, lines))
    with open(path, "w", encoding="utf-8") as file:
        file.write("\n".join(map(counted, lines)))
    return wrong


def main() -> int:
    parser = argparse.ArgumentParser(description="Counts the lines of the definitions that THEOREMS and CLAIM list.")
    parser.add_argument("--check", action="store_true", help="change nothing, and tell each number that is not right")
    asked = parser.parse_args()
    wrong = [it for page in PAGES for it in of_page(page, asked.check)]
    for line in wrong:
        print(line)
    return 1 if wrong else 0


if __name__ == "__main__":
    sys.exit(main())
