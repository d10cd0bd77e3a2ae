"""A `rewind` process: commands go in, answers come out.

A process may answer, end, hang or write without end; each of these is an answer or an error, within a time limit. A command whose
answer the user stopped waiting for is still owed its reply, which is read before the next command is sent.
"""
from __future__ import annotations

import os
import select
import subprocess
import time
from collections import deque
from collections.abc import Callable, Iterable, Sequence
from typing import NamedTuple, Optional

from .errors import Cancelled, MalformedReply, ProcessError
from .meanings import meaning_of_exit
from .replies import Reply, reply_of

TIMEOUT = 30.0
TICK_MS = 100
PART = 1 << 16
MAX_REPLY = 1 << 28
# Commands sent in one exchange: their replies are read while the next ones are written.
MAX_BATCH = 2000


def never() -> bool:
    return False


class Manner(NamedTuple):
    """How a program answers: whether another line of the same answer follows a line, and what the lines of one say to a command."""

    goes_on: Callable[[str], bool]
    read: Callable[[str, list[str]], Reply]


JSON = Manner(lambda line: False, lambda command, lines: reply_of(lines[0]))


class Process:
    """One process, asked command by command."""

    def __init__(
        self, words: Sequence[str], timeout: float = TIMEOUT, cancelled: Callable[[], bool] = never, manner: Manner = JSON
    ) -> None:
        """Starts the process; an answer is awaited for `timeout` seconds, or until `cancelled` holds.

        The process gets a session of its own, so that a Ctrl-C at the terminal does not end it.
        """
        self.name = words[0]
        self.timeout = timeout
        self.cancelled = cancelled
        self.manner = manner
        self.ended: Optional[str] = None
        self.owed = 0
        self.whole: deque[list[str]] = deque()
        self.begun: list[str] = []
        self.rest: list[bytes] = []
        self.held = 0
        pipe = subprocess.PIPE
        try:
            self.child = subprocess.Popen(words, stdin=pipe, stdout=pipe, stderr=pipe, bufsize=0, start_new_session=True)
        except (OSError, ValueError) as fault:
            raise ProcessError(f"{words[0]} cannot be started: {fault}") from None
        assert self.child.stdin and self.child.stdout and self.child.stderr
        self.input = self.child.stdin.fileno()
        self.output = self.child.stdout.fileno()
        self.said_by = self.child.stderr.fileno()
        for handle in (self.input, self.output, self.said_by):
            os.set_blocking(handle, False)

    def ask(self, command: str) -> Reply:
        """The answer to a command of one line, which must hold a word.

        Raises ProcessError where the process is gone or gives no answer in time; it is ended then. Raises Cancelled where the
        user stopped waiting.
        """
        return self.ask_all([command])[0]

    def ask_all(self, commands: Iterable[str]) -> list[Reply]:
        """The answers to commands, asked in one go."""
        listed = list(commands)
        replies: list[Reply] = []
        for at in range(0, len(listed), MAX_BATCH):
            replies += self.exchange(listed[at : at + MAX_BATCH])
        return replies

    def exchange(self, commands: Sequence[str]) -> list[Reply]:
        """Writes commands and reads their answers, each as the other end is ready for it."""
        if self.ended is not None:
            raise ProcessError(self.ended)
        until = time.monotonic() + self.timeout
        while self.owed:
            self.read_reply(memoryview(b""), until)
        rest = memoryview("".join(line + "\n" for line in commands).encode("utf-8", "backslashreplace"))
        self.owed = len(commands)
        replies = []
        for command in commands:
            lines, rest = self.read_reply(rest, until)
            replies.append(self.meaning(command, lines))
            until = time.monotonic() + self.timeout
        return replies

    def meaning(self, command: str, lines: list[str]) -> Reply:
        """What some lines say; where that is nothing the process ends, since no later answer could be trusted."""
        try:
            return self.manner.read(command, lines)
        except (LookupError, TypeError, ValueError):
            raise self.malformed(command, lines[-1]) from None

    def malformed(self, command: str, text: str) -> MalformedReply:
        """Ends the process for an answer that means nothing."""
        fault = MalformedReply(self.name, command, text)
        self.end(str(fault))
        return fault

    def read_reply(self, rest: memoryview, until: float) -> "tuple[list[str], memoryview]":
        """The next reply, and what is still to be written."""
        while not self.whole:
            if self.held > MAX_REPLY:
                raise self.ended_for(f"{self.name} gave an answer of more than {MAX_REPLY} bytes, and was ended")
            events = self.wait(len(rest), until)
            if events & 1:
                rest = self.write_some(rest)
            if events & 2:
                self.read_some()
        self.owed -= 1
        return self.whole.popleft(), rest

    def sort_out(self, read: bytes) -> None:
        """Sorts what was read into replies: each ends in the first line that no other one follows."""
        self.held += len(read)
        end = read.rfind(b"\n") + 1
        if not end:
            self.rest.append(read)
            return
        lines = b"".join([*self.rest, read[: end - 1]]).decode("utf-8", "replace").split("\n")
        self.rest = [read[end:]]
        for line in lines:
            self.begun.append(line)
            if not self.manner.goes_on(line):
                self.whole.append(self.begun)
                self.begun = []
                self.held = len(read) - end

    def write_some(self, rest: memoryview) -> memoryview:
        try:
            return rest[os.write(self.input, rest) :]
        except BlockingIOError:
            return rest
        except OSError:
            raise self.gone() from None

    def read_some(self) -> None:
        """Reads what is there, without waiting."""
        parts = []
        try:
            while True:
                part = os.read(self.output, PART)
                if not part:
                    break
                parts.append(part)
                if len(parts) >= 64:
                    break
        except BlockingIOError:
            pass
        if not parts:
            raise self.gone()
        self.sort_out(b"".join(parts))

    def wait(self, left: int, until: float) -> int:
        """Waits until the process takes something (1) or gives something (2), or has closed its end."""
        ready = select.poll()
        ready.register(self.output, select.POLLIN)
        if left:
            ready.register(self.input, select.POLLOUT)
        while True:
            found = ready.poll(TICK_MS)
            if time.monotonic() > until:
                raise self.ended_for(f"{self.name} gave no answer within {self.timeout:g} seconds, and was ended")
            if found:
                return sum(1 if handle == self.input else 2 for handle, _ in found)
            if left == 0 and self.cancelled():
                raise Cancelled("the answer was not waited for")

    def gone(self) -> ProcessError:
        """The process has closed its end: why, in words."""
        try:
            status: Optional[int] = self.child.wait(1)
        except subprocess.TimeoutExpired:
            status = None
        return self.ended_for(f"{self.name} has ended: {meaning_of_exit(status, self.said())}")

    def ended_for(self, why: str) -> ProcessError:
        """Ends the process, for a reason in words."""
        self.end(why)
        return ProcessError(why)

    def said(self) -> str:
        """What stands on standard error."""
        try:
            said = os.read(self.said_by, PART)
        except OSError:
            said = b""
        return said.decode("utf-8", "replace").strip()

    def end(self, why: str = "the session was ended") -> None:
        """Ends the process, which gets half a second to leave on its own; may be called again."""
        if self.ended is not None:
            return
        self.ended = why
        self.whole, self.begun, self.rest = deque(), [], []
        assert self.child.stdin and self.child.stdout and self.child.stderr
        self.child.stdin.close()
        try:
            self.child.wait(0.5)
        except subprocess.TimeoutExpired:
            self.child.kill()
            self.child.wait()
        self.child.stdout.close()
        self.child.stderr.close()
