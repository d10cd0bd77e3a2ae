"""Contracts and definitions that a document quotes: a block of `rattle` or `antt` stands in a source, line by line. And links whose
text is a function: the file that they lead to has that function."""
from __future__ import annotations

import os
import re

from . import repository
from .checks import Checks
from .markdown import Block, Page
from .program import Scratch

ENDINGS = {"rattle": ".rt", "antt": ".antt"}
LINK = re.compile(r"\[`(\w+::)?(\w+)`\]\(([^)#]+\.rt)\)")


def stripped(lines: list[str]) -> str:
    return "\n".join(line.strip() for line in lines if line.strip())


def is_quote(block: Block) -> bool:
    return block.info in ENDINGS


def check_quote(checks: Checks, program: Scratch, block: Block) -> None:
    """The lines of a block stand in a source, one behind the other, whatever their margin."""
    wanted = stripped(block.lines)
    known = (it for it in repository.files() if it.startswith("crates/") and it.endswith(ENDINGS[block.info]))
    checks.holds(block.place(), any(wanted in stripped(repository.read(it).split("\n")) for it in known), "no source has these lines")


def check(checks: Checks, document: Page) -> None:
    for number, line in enumerate(document.prose):
        for _, function, link in LINK.findall(line):
            path = os.path.normpath(os.path.join(os.path.dirname(document.name), link))
            has = path in repository.files() and re.search(rf"\bfn {function}\b", repository.read(path))
            checks.holds(f"{document.name}:{number + 1}", has, f"{link} has no function {function}")
