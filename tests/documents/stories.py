"""Sessions that a document prints: a source, and blocks of commands with their replies. The blocks of a section are
one session. The source is the one printed in the section, or the example session that is named last before the
block."""
from __future__ import annotations

import os
import re
from typing import Optional

from . import repository
from .checks import Checks
from .fragments import is_go_file
from .markdown import Block, Page, page, spans
from .program import PROMPT, Scratch

PAGE = "docs/SESSIONS.md"


def session_named(text: str) -> str:
    """The example session that a text in code font names, if it names one."""
    name = re.sub(r"\.go$", "", os.path.basename(text))
    return name if name in repository.session_names() else ""


def source_of(block: Block) -> Optional[str]:
    """The source of the session of a block: the last one that is printed or named before it in its section."""
    document = page(block.page)
    printed = [it for it in document.blocks if it.line < block.line and it.section == block.section and is_go_file(it)]
    if printed:
        return printed[-1].text
    for line in document.words_before(block.line):
        named = [name for name in map(session_named, spans(line)) if name]
        if named:
            return repository.read(f"{repository.SESSIONS}/{named[-1]}.go")
    return None


def commands_of(block: Block) -> list[str]:
    return [line[2:] for line in block.lines if line.startswith("> ")]


def printed_replies(block: Block) -> list[str]:
    return [line for line in block.lines if not line.startswith("> ")]


def session_before(block: Block) -> list[Block]:
    """The blocks of a session up to this one."""
    source = source_of(block)
    same = [it for it in page(block.page).blocks if it.section == block.section and it.line <= block.line]
    return [it for it in same if commands_of(it) and not it.reason and source_of(it) == source]


def answered(commands: list[str]) -> list[str]:
    """The commands that have a reply: a blank line has none."""
    return [it for it in commands if it.strip()]


def check_session(checks: Checks, program: Scratch, block: Block) -> None:
    """Whether the commands of a block, typed after those of the blocks before it, get the replies that it prints."""
    source = source_of(block)
    if source is None:
        checks.fail(block.place(), "no source is printed or named for this session")
        return
    before = [it for it in session_before(block) if it is not block]
    typed = [command for it in before for command in commands_of(it)]
    replies = program.replies(source, typed + commands_of(block))[len(answered(typed)):]
    got, replies = [], list(replies)
    for line in block.lines:
        if line.startswith("> "):
            got.append(line)
            got += replies.pop(0) if line[2:].strip() and replies else []
    checks.same_lines(block.place, "session", block.lines, got + [line for it in replies for line in it])


def check_terminal(checks: Checks, program: Scratch, block: Block) -> None:
    """A session at a terminal: the banner may be left out of what is printed, since it comes once."""
    source = source_of(block)
    if source is None:
        checks.fail(block.place(), "no source is printed or named for this session")
        return
    typed = [line[len(PROMPT):] for line in block.lines if line.startswith(PROMPT)]
    ran = program.at_terminal(["./rewind", program.write("terminal.go", source)], typed)
    got = ran.out.rstrip("\n").split("\n")
    first = next((n for n, line in enumerate(got) if line.startswith(PROMPT)), 0)
    if block.lines[0].startswith(PROMPT):
        got = got[first:]
    if got and got[-1] == PROMPT and block.lines[-1] != PROMPT.rstrip():
        got.pop()
    checks.same_lines(block.place, "session at a terminal", block.lines, got)


def stories_of(document: Page) -> list[tuple[int, list[Block]]]:
    """(section, blocks) of each section that prints a source and a session."""
    found = []
    for section in document.sections:
        blocks = [it for it in document.blocks if it.section == section]
        if any(is_go_file(it) for it in blocks) and any(commands_of(it) for it in blocks):
            found.append((section, blocks))
    return found


def name_of_story(document: Page, section: int) -> str:
    """The example session of a story: that of its picture."""
    text = "\n".join(line for _, line in document.words_of(section))
    pictures: list[str] = re.findall(r"/(\w+)\.svg\)", text)
    return next((it for it in pictures if it in repository.session_names()), "")


def check_story(checks: Checks, document: Page, section: int, blocks: list[Block]) -> None:
    """Whether a story prints the source, the commands and the replies of its example session."""
    place = f"{document.name}:{section + 1}"
    name = name_of_story(document, section)
    if not checks.holds(place, name, "a story without a picture of an example session"):
        return
    folder = f"{repository.SESSIONS}/{name}"
    source = next(it for it in blocks if is_go_file(it))
    checks.same_lines(source.place, f"source of {name}.go", repository.read(f"{folder}.go").splitlines(), source.lines)
    sessions = [it for it in blocks if commands_of(it)]
    printed = [(it, n) for it in sessions for n, line in enumerate(it.lines) if line.startswith("> ")]
    places = [it.place(n) for it, n in printed] + [sessions[-1].place(len(sessions[-1].lines) - 1)]
    wanted = repository.read(f"{folder}.script").splitlines()
    got = [it.lines[n][2:] for it, n in printed]
    checks.same_lines(lambda n: places[min(n, len(places) - 1)], f"commands of {name}.script", wanted, got)
    expected = repository.read(f"{folder}.expect").splitlines()
    replies = [line for it in sessions for line in printed_replies(it)]
    checks.same_lines(lambda n: place, f"replies of {name}.expect", expected, replies)


def check_table(checks: Checks) -> None:
    """Whether the table of sessions has each example session once, and no other."""
    document = page(PAGE)
    rows = document.rows_of("Session")
    named = [name for row in rows for name in spans(row.cells[0])]
    place = f"{document.name}:{rows[0].line if rows else 1}"
    checks.same_sets(place, "the table of sessions", repository.session_names(), named)
    for name in sorted({it for it in named if named.count(it) > 1}):
        checks.fail(place, f"the table of sessions: {name} is there twice")


def check_stories(checks: Checks) -> None:
    """Each story of the page of sessions is an example session."""
    document = page(PAGE)
    for section, blocks in stories_of(document):
        check_story(checks, document, section, blocks)


def check_count(checks: Checks) -> None:
    """The number of sessions that the gate tells."""
    count = f"{len(repository.session_names())} sessions are as expected"
    checks.same("crates/sessions/stdout:1", "the number of sessions", count, repository.read("crates/sessions/stdout").splitlines()[0])


PARTS = (check_table, check_stories, check_count)
