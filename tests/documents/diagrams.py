"""Diagrams of crates: what they name in words with `_` between them are crates."""
from __future__ import annotations

import re

from . import repository
from .checks import Checks
from .markdown import Block
from .program import Scratch


def is_diagram(block: Block) -> bool:
    return bool(re.search(r"[─│├└►▲▼◄]", block.text))


def check_diagram(checks: Checks, program: Scratch, block: Block) -> None:
    for number, line in enumerate(block.lines):
        for name in re.findall(r"\b[a-z]+(?:_[a-z]+)+\b", line):
            checks.holds(block.place(number), name in repository.crates(), f"there is no crate {name}")
