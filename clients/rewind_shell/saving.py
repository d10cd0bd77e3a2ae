"""The commands of a session, saved as they are given: as a script, or in one file with the source, as the page saves them.

In the one file the script stands behind the source, and each of its lines is a comment. A line of a script that begins with `//` is
no command: it says which version has saved it, and of an exercise of the page what its task is.
"""
from __future__ import annotations

import hashlib
import os
import re
import time
from collections.abc import Iterable, Sequence
from typing import IO, NamedTuple, Optional

from rewind_client.core import CHANGING, first_word
from rewind_client.errors import RewindError
from rewind_client.meanings import VERSION
from rewind_client.program import Program

# Between a source and the commands in one file.
COMMANDS = b"\n// commands of Rewind:\n"
ONE_FILE = ".go"
# What the script of an exercise says of it, in the order of the page.
OF_EXERCISE = re.compile(r"// (exercise|task|hint|goal|begins): ?(.*)$")
HEADING = "// commands for"
FIRST_LINE = re.compile(r"// commands for .*, SHA-256 ([0-9a-f]{64})$")
CONTROL = re.compile("[\x00-\x1f\x7f]")


class CannotSave(RewindError):
    """A file can't be written."""


def state_folder() -> str:
    """Where the shell keeps sessions and its history; it is made where it is not there."""
    base = os.environ.get("XDG_STATE_HOME") or os.path.join(os.path.expanduser("~"), ".local", "state")
    folder = os.path.join(base, "rewind")
    os.makedirs(folder, mode=0o700, exist_ok=True)
    return folder


class Script:
    """The script of a session: each command that changes it, and each that the user typed for Rewind."""

    def __init__(self, source: str) -> None:
        self.source = source
        self.lines: list[str] = []
        self.file: Optional[IO[str]] = None
        self.path = ""
        self.fault = ""

    def begin(self, program: Program) -> None:
        """Begins a new file, for a program; where that fails the session goes on without."""
        self.end()
        self.lines, self.path, self.fault = [], "", ""
        stem = os.path.splitext(os.path.basename(self.source))[0] or "session"
        try:
            folder = os.path.join(state_folder(), "sessions")
            os.makedirs(folder, mode=0o700, exist_ok=True)
            named = f"{stem}-{time.strftime('%Y%m%d-%H%M%S')}-{os.getpid()}"
            for number in range(1, 1000):
                path = os.path.join(folder, f"{named}{f'-{number}' if number > 1 else ''}.script")
                if not os.path.exists(path):
                    break
            self.file = open(path, "x", encoding="utf-8", errors="backslashreplace")
            self.file.write(heading(program) + "\n")
            self.path = path
        except OSError as fault:
            self.fault = f"the session is not saved, since {fault.filename} cannot be written: {fault.strerror}"

    def note(self, command: str) -> None:
        """Keeps a command that the library gives, where it changes the session."""
        if first_word(command) in CHANGING:
            self.keep(command)

    def typed(self, command: str) -> None:
        """Keeps a command that the user typed and that only asks."""
        if first_word(command) not in CHANGING:
            self.keep(command)

    def keep(self, command: str) -> None:
        self.lines.append(command)
        if self.file is None:
            return
        try:
            self.file.write(command + "\n")
            self.file.flush()
        except OSError as fault:
            self.fault = f"the session is saved no more: {fault.strerror}"
            self.file = None

    def save(self, path: str, program: Program) -> None:
        """Writes the commands so far to a file."""
        write_script(path, self.lines, program)

    def end(self) -> None:
        """Closes the file; one without a command goes."""
        if self.file is not None:
            file, self.file = self.file, None
            try:
                file.close()
                if not self.lines:
                    os.unlink(self.path)
            except OSError as fault:
                self.fault = f"the session is saved no more: {fault.strerror}"


def write_script(path: str, commands: Sequence[str], program: Program) -> None:
    """Writes commands to a file, whole or not at all: behind the source where the file is one of Go, else as a script."""
    if os.path.exists(path) and os.path.exists(program.path) and os.path.samefile(path, program.path):
        raise CannotSave(f"{path} is the source itself: name another file")
    made = path + ".new"
    try:
        with open(made, "wb") as file:
            file.write(one_file(commands, program) if path.endswith(ONE_FILE) else script(commands, program))
        os.replace(made, path)
    except (OSError, ValueError) as fault:
        raise CannotSave(f"{path} cannot be written: {getattr(fault, 'strerror', None) or fault}") from None


def script(commands: Sequence[str], program: Program) -> bytes:
    """Commands, a line each, behind a line that tells of which source they are."""
    return in_bytes(line + "\n" for line in [heading(program), *commands])


def one_file(commands: Sequence[str], program: Program) -> bytes:
    """The source, and behind it the version and the commands as comments; of an exercise of the page with its task."""
    told = [f"// version: {VERSION}", *exercise_in(program.written)]
    return source_part(program.written) + COMMANDS + in_bytes(f"// {line}\n" for line in [*told, *commands])


def in_bytes(lines: Iterable[str]) -> bytes:
    return "".join(lines).encode("utf-8", "backslashreplace")


def exercise_in(text: bytes) -> list[str]:
    """What a file of the page says of its exercise; nothing where it has none."""
    told = [line for line in commented(text.partition(COMMANDS)[2]) if OF_EXERCISE.match(line)]
    return told if any(line.startswith("// exercise:") for line in told) else []


def task_in(text: bytes) -> str:
    """The title and the task of an exercise of the page, in a line; nothing where the file has none."""
    said = {found.group(1): found.group(2) for found in map(OF_EXERCISE.match, exercise_in(text)) if found}
    return f"Exercise: {said['exercise']}. {said.get('task', '')}".strip() if said else ""


def heading(program: Program) -> str:
    """The first line of a script: the file of the source, and the SHA-256 of its text."""
    name = CONTROL.sub("?", os.path.basename(program.path))
    return f"{HEADING} {name}, SHA-256 {digest(source_part(program.written))}"


def digest(text: bytes) -> str:
    return hashlib.sha256(text).hexdigest()


def source_part(text: bytes) -> bytes:
    """The source of a file; the page may have written the commands of a session behind it."""
    return text.partition(COMMANDS)[0]


class Saved(NamedTuple):
    """The commands of a script, and the SHA-256 of the source of which they are, where it tells that."""

    commands: list[str]
    source: str = ""

    def is_of(self, program: Program) -> bool:
        """Whether the script may be one of a program."""
        return not self.source or self.source == digest(source_part(program.written))


def saved_in(text: bytes) -> Saved:
    """What a script tells: a line for each command, or a source with the script as comments behind it."""
    source, mark, behind = text.partition(COMMANDS)
    lines = commented(behind) if mark else lines_of(text)
    found = FIRST_LINE.match(lines[0]) if lines else None
    commands = [line for line in lines if line.strip() and not line.startswith("//")]
    return Saved(commands, digest(source) if mark else found.group(1) if found else "")


def commented(text: bytes) -> list[str]:
    """The lines of a script that stand in comments."""
    return [line[2:].strip() for line in lines_of(text) if line.startswith("//")]


def lines_of(text: bytes) -> list[str]:
    return [line.rstrip("\r") for line in text.decode("utf-8", "backslashreplace").split("\n")]


def read_script(path: str) -> Saved:
    """The script in a file."""
    try:
        with open(path, "rb") as file:
            return saved_in(file.read())
    except (OSError, ValueError) as fault:
        raise RewindError(f"{path} cannot be read: {getattr(fault, 'strerror', None) or fault}") from None
