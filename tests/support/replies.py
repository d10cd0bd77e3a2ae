"""The replies of the program, what a log says, and the commands that ask for all of a session.

The program writes a reply as lines, of which the last alone does not begin with `|`. This is written apart from the clients'
`rewind_client.replies`, so that tests of the program trust no client, and it is of text; hostile bytes go through `bytes_of`.
"""
from __future__ import annotations

from collections import Counter
from collections.abc import Iterable, Iterator, Sequence
from typing import AnyStr, NamedTuple, Union

# A command with its reply.
Asked = tuple[str, list[str]]


class Step(NamedTuple):
    """A kept step and its kind."""

    name: str
    kind: str

    @property
    def goroutine(self) -> str:
        return self.name.split("#")[0]

    def command(self) -> str:
        """The command that takes the step once more."""
        words = self.kind.split()
        return f"step {self.goroutine} {words[1]}" if words[0] == "pick" else f"step {self.goroutine}"


def replies_in(output: AnyStr) -> list[list[AnyStr]]:
    """The replies in an output; a line without its end is none."""
    newline, within = ("\n", "|") if isinstance(output, str) else (b"\n", b"|")
    found: list[list[AnyStr]] = []
    lines: list[AnyStr] = []
    for line in output.split(newline)[:-1]:
        lines.append(line)
        if not line.startswith(within):
            found.append(lines)
            lines = []
    return found


def answered(lines: list[str], text: str) -> Iterator[Asked]:
    """The commands that have an answer, each with its reply, up to `quit`."""
    left = text.splitlines()
    for line in lines:
        if not line.strip(" \t\r"):
            continue
        at = next((at for at, it in enumerate(left) if not it.startswith("| ")), None)
        if at is None:
            return
        yield line, left[: at + 1]
        left = left[at + 1 :]


def asked(commands: Iterable[bytes]) -> bytes:
    """Commands as the bytes of a stream."""
    return b"".join(line + b"\n" for line in commands)


def steps_of(reply: Sequence[Union[str, bytes]]) -> list[Step]:
    """The steps in the reply to `log`."""
    lines = [line if isinstance(line, str) else line.decode() for line in reply]
    return [Step(*line[2:].split(" ", 1)) for line in lines[:-1]]


def objects(log: Iterable[Step]) -> tuple[list[str], list[str]]:
    """The goroutines and channels that the steps of a log made, and `g0`."""
    goroutines, channels = ["g0"], []
    children: Counter[str] = Counter()
    made: Counter[str] = Counter()
    for step in log:
        if step.kind == "go":
            children[step.goroutine] += 1
            goroutines.append(f"{step.goroutine}.{children[step.goroutine]}")
        if step.kind == "make":
            made[step.goroutine] += 1
            channels.append(f"{step.goroutine}/c{made[step.goroutine]}")
    return goroutines, channels


def questions_of_state(log: Iterable[Step]) -> list[str]:
    """The commands that tell of each goroutine and channel of a session that has taken these steps."""
    goroutines, channels = objects(log)
    return [f"{word} {name}" for name in goroutines for word in ("show", "text")] + [f"chan {name}" for name in channels]


def questions(log: Iterable[Step]) -> list[bytes]:
    """The commands that tell all of a session that has taken these steps."""
    return [line.encode() for line in ["log", "console", *questions_of_state(log)]]
