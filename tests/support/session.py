"""A program under the debugger, asked command by command.

The clients have a process of their own (`rewind_client.process`), with time limits for programs that hang and answers that are not
waited for. It is what is tested, so the tests of the program do without it: here a program that does not answer meets the time
limit of the test.
"""
from __future__ import annotations

import os
import subprocess
import time
from collections.abc import Callable, Iterable, Mapping
from pathlib import Path
from typing import NamedTuple, Optional, Protocol

from .replies import Step, steps_of

SECONDS = 10


class Left(NamedTuple):
    """How a session ended: its status, and what stood on standard error."""

    status: int
    error: str


class Session:
    """A session on a source, with options of the program and variables of its environment. `script` has what was asked."""

    def __init__(self, program: str, source: str, *options: str, environment: Optional[Mapping[str, str]] = None) -> None:
        pipe = subprocess.PIPE
        words = [program, *options, source]
        settings = {**os.environ, **(environment or {})}
        self.child = subprocess.Popen(words, stdin=pipe, stdout=pipe, stderr=pipe, env=settings, text=True, errors="surrogateescape")
        self.script: list[str] = []
        self.left: Optional[Left] = None

    def ask(self, command: str) -> list[str]:
        """The lines of the reply, the last of which says whether it was done."""
        return self.ask_all([command])[0]

    def ask_all(self, commands: Iterable[str]) -> list[list[str]]:
        """The replies to a few commands, asked at once."""
        listed = list(commands)
        assert self.child.stdin
        self.script += listed
        self.child.stdin.write("".join(f"{command}\n" for command in listed))
        self.child.stdin.flush()
        return [self.reply(command) for command in listed]

    def reply(self, command: str) -> list[str]:
        """The next reply."""
        assert self.child.stdout
        lines: list[str] = []
        while not lines or lines[-1].startswith("|"):
            line = self.child.stdout.readline()
            if not line:
                raise EOFError(f"no reply to {command}")
            lines.append(line.rstrip("\n"))
        return lines

    def log(self) -> list[Step]:
        """The kept steps."""
        return steps_of(self.ask("log"))

    def threads(self) -> int:
        """How many threads the program has."""
        return len(os.listdir(f"/proc/{self.child.pid}/task"))

    def close(self) -> Left:
        """Ends the session by `quit`; it may be called again."""
        if self.left is None:
            try:
                error = self.child.communicate("quit\n", timeout=SECONDS)[1]
            except BrokenPipeError:
                error = ""
            finally:
                self.child.kill()
            self.left = Left(self.child.wait(), error)
        return self.left


class Begin(Protocol):
    """Starts a session on a source, with options of the program, and ends it behind the test."""

    def __call__(self, source: bytes | str | Path, *options: str) -> Session: ...


def comes(holds: Callable[[], bool], seconds: float = SECONDS) -> bool:
    """Whether something comes to hold in time."""
    end = time.monotonic() + seconds
    while not holds():
        if time.monotonic() > end:
            return False
        time.sleep(0.005)
    return True
