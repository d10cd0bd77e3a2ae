"""The example sessions show each form of a command, kind of step, fault, end of a run and refusal.

The codes are those of words/codes.txt, the forms of commands those of words/commands.txt, and the sessions those of
crates/sessions/data. A form is shown where a command of that form is answered `ok`: each can be.
"""
from __future__ import annotations

import functools
import re
from collections.abc import Iterable, Iterator
from pathlib import Path

import pytest

from support.places import SESSIONS, TOP
from support.replies import answered

# What comes only where memory is refused, a device fails, threads can't start, for a source of 1 MiB, or after millions of
# goroutines.
NEVER = {"S7", "S8", "P4", "C11", "N6", "B6", "Q2", "E1", "E2", "NameCount", "read", "write", "threads", "memory"}


def read(path: Path) -> str:
    with open(path, encoding="latin-1", newline="\n") as file:
        return file.read()


def codes() -> Iterator[tuple[str, str]]:
    """Each code with the section that it stands in."""
    section = ""
    for line in read(TOP / "words" / "codes.txt").splitlines():
        head = re.match(r"== (\w+):", line)
        if head:
            section = head[1]
        elif section and re.fullmatch(r"[A-Za-z][\w-]*", line):
            yield section, line


def forms() -> list[str]:
    """The forms of the commands: each stands between the marks of a line that begins with one."""
    text = read(TOP / "words" / "commands.txt")
    return [form for line in text.splitlines() if line.startswith("`") for form in re.findall(r"`([^`]+)`", line)]


@functools.lru_cache(maxsize=None)
def done() -> frozenset[str]:
    """Each command of the sessions that is answered `ok`, its words apart by one space."""
    found = set()
    for path in sorted(SESSIONS.glob("*.script")):
        for line, reply in answered(read(path).split("\n"), read(path.with_suffix(".expect"))):
            if reply[-1].split()[0] == "ok":
                found.add(" ".join(line.split()))
    return frozenset(found)


@functools.lru_cache(maxsize=None)
def expected() -> str:
    """All that the sessions write."""
    return "\n".join(read(path) for path in sorted(SESSIONS.glob("*.expect")))


def is_shown(section: str, code: str, text: str) -> bool:
    """Whether some reply in this text has the code."""
    patterns = {
        "sources": rf"^rewind: {code}\b",
        "replies": rf"^no {code}\b",
        "kinds": rf"\bg0[.\d]*#\d+ {code}\b",
        "faults": rf"\bfault {code}\b",
        "ends": rf"^ok \d+ {code}\b",
    }
    return section in patterns and re.search(patterns[section], text, re.M) is not None


def pattern(word: str) -> str:
    """What stands in a command for a word of its form: itself if it has small letters, else any word; some for two dots."""
    return ".+" if word == ".." else word if word.islower() else r"\S+"


def is_answered(form: str, commands: Iterable[str]) -> bool:
    """Whether one of these commands has the form."""
    whole = re.compile(" ".join(map(pattern, form.split())))
    return any(whole.fullmatch(command) for command in commands)


@pytest.mark.parametrize("section, code", [found for found in codes() if found[1] not in NEVER])
def test_a_code(section: str, code: str) -> None:
    assert is_shown(section, code, expected()), f"no session shows {section}: {code}"


@pytest.mark.parametrize("form", forms())
def test_a_form_of_a_command(form: str) -> None:
    assert is_answered(form, done()), f"no session shows {form}"
