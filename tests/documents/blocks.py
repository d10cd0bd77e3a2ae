"""Runs the code blocks of the documents. The kind of a block is seen by what is in it; a block of no known kind is
a failure, so that none stands untested. A comment `<!-- not run: REASON -->` before a block says why it is not run."""
from __future__ import annotations

from collections.abc import Callable
from typing import Optional

from . import contracts, diagrams, editors, fragments, shell, stories
from .checks import Checks
from .markdown import Block, Page
from .program import Scratch

# How blocks of a kind are checked.
Check = Callable[[Checks, Scratch, Block], None]


def first_line(block: Block) -> str:
    return next((line for line in block.lines if line.strip()), "")


def begins(block: Block, start: str) -> bool:
    return any(line.startswith(start) for line in block.lines)


def kind_of(block: Block) -> Optional[Check]:
    """The function that checks blocks of this kind, if one does."""
    if contracts.is_quote(block):
        return contracts.check_quote
    if fragments.is_go_file(block):
        return fragments.check_source
    if begins(block, "$ "):
        return shell.check_transcript
    if first_line(block).startswith("from rewind_client"):
        return fragments.check_python
    if begins(block, "> "):
        return stories.check_session
    if begins(block, "(rewind) "):
        return stories.check_terminal
    if editors.kind_of(block):
        return editors.check_settings
    if diagrams.is_diagram(block):
        return diagrams.check_diagram
    if shell.is_commands(block):
        return shell.check_commands
    return fragments.check_fragment if block.info == "go" else None


def check_block(checks: Checks, program: Scratch, block: Block) -> None:
    if block.reason:
        checks.skip(block.place(), block.reason)
        return
    check = kind_of(block)
    if check is None:
        checks.fail(block.place(), f"a block of a kind that no check knows: {first_line(block)!r}")
    else:
        check(checks, program, block)


def check(checks: Checks, program: Scratch, document: Page) -> None:
    for block in document.blocks:
        check_block(checks, program, block)
