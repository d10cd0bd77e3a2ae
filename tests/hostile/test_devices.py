"""Devices that fail, stop, are interrupted, or take and give one byte at a time, at every place of an example session.

For every k and j, under each example session that has commands, and in the short form under SHORT alone:

- The k-th read of the commands fails: status 3, `rewind: read`, and the replies to the whole lines before it went out, no more.
  It is interrupted: nothing comes of it. From it on the commands are at their end: the replies are those to what was read.
- A write fails, or takes nothing, after j bytes of the replies: status 3, `rewind: write`, and these j bytes went out, no more.
  It is interrupted: nothing comes of it.
- The k-th read of the source fails: status 1, `rewind: cannot read FILE`, and no reply. It is interrupted: nothing comes of it.
  This of a source that is refused, too.

Each with reads of one byte and with reads of all that is there; each write with writes of one byte, too. A read or write that
failed would succeed if it were tried again, so that it was not is seen from the end.
"""
from __future__ import annotations

from collections.abc import Callable

import pytest

from support.forms import short_first
from support.program import Preloaded, Program
from support.tally import Tally, cut

from .examples import examples, sessions

SHORT = ("hand_over",)
# All that is there, and one byte at a time.
BY_BYTE: tuple[dict[str, int], ...] = ({}, {"OUT_BYTE": 1})
NAMES = short_first(SHORT, sessions())


class Case:
    """A session of an example whose devices fail."""

    def __init__(self, name: str, program: Program, preloaded: Preloaded) -> None:
        self.name, self.program, self.preloaded, self.tally = name, program, preloaded, Tally()
        self.source, self.script = examples()[name], examples(".script")[name]
        self.whole = self.program.run(self.source, self.script)
        self.outputs: dict[bytes, bytes] = {}

    def output_of(self, script: bytes) -> bytes:
        """What goes out for a beginning of the commands."""
        if script not in self.outputs:
            self.outputs[script] = self.program.run(self.source, script).output
        return self.outputs[script]

    def tried(self, what: str, status: int, output: bytes, error: bytes, **devices: int) -> None:
        """Notes whether the session ends so under these devices."""
        settings = {key: str(value) for key, value in devices.items()}
        ended = self.program.run(self.source, self.script, {**settings, **self.preloaded.environment})
        is_so = ended[:3] == (status, output, error)
        seen = f"status {ended.status}, {cut(ended.output, 80)}, {cut(ended.error, 80)}"
        self.tally.note(what, None if is_so else f"{self.name}, {settings}: {seen}")

    def goes_on(self, what: str, **devices: int) -> None:
        """Notes whether nothing comes of these devices."""
        self.tried(what, self.whole.status, self.whole.output, self.whole.error, **devices)

    def reads(self) -> None:
        """Reads of the commands, of all that is there and of one byte."""
        script = self.script
        self.tried("all reads fail", 3, b"", b"rewind: read\n", IN_FAIL=1)
        self.tried("no commands", 0, b"", b"", IN_END=1)
        self.goes_on("one byte at a time", IN_BYTE=1)
        self.goes_on("interrupted reads", IN_INTERRUPT=1)
        for at in range(self.read_bytes() + 1):
            lines = script[: script.rfind(b"\n", 0, at) + 1]
            self.tried("failing reads", 3, self.output_of(lines), b"rewind: read\n", IN_BYTE=1, IN_FAIL=at + 1)
            self.tried("commands that end", 0, self.output_of(script[:at]), b"", IN_BYTE=1, IN_END=at + 1)
            self.goes_on("interrupted reads", IN_BYTE=1, IN_INTERRUPT=at + 1)

    def read_bytes(self) -> int:
        """How many bytes of the commands are read, if one is read at a time: up to `quit`, or all and that there is no more."""
        end = (b"\n" + self.script).find(b"\nquit\n")
        return len(self.script) if end < 0 else end + len(b"quit\n") - 1

    def writes(self) -> None:
        """Writes of the replies, of all that is there and of one byte."""
        self.goes_on("one byte at a time", OUT_BYTE=1)
        for at in range(len(self.whole.output)):
            for more in BY_BYTE:
                beginning = self.whole.output[:at]
                self.tried("failing writes", 3, beginning, b"rewind: write\n", OUT_FAIL=at, **more)
                self.tried("writes of nothing", 3, beginning, b"rewind: write\n", OUT_NONE=at, **more)
                self.goes_on("interrupted writes", OUT_INTERRUPT=at, **more)

    def sources(self) -> None:
        """Reads of the source, of all that is there and of one byte."""
        unreadable = b"rewind: cannot read " + self.program.source.encode() + b"\n"
        self.goes_on("one byte at a time", FILE_BYTE=1)
        for at in range(len(self.source) + 1):
            wholes: list[dict[str, int]] = [{}] * (at < 2)
            for more in [{"FILE_BYTE": 1}, *wholes]:
                self.tried("failing reads of the source", 1, b"", unreadable, FILE_FAIL=at + 1, **more)
                self.goes_on("interrupted reads of the source", FILE_INTERRUPT=at + 1, **more)


@pytest.fixture
def case(request: pytest.FixtureRequest, program: Program, preloaded: Preloaded) -> Case:
    name: str = request.param
    return Case(name, program, preloaded)


@pytest.mark.timeout(1200)
@pytest.mark.parametrize("case", NAMES, indirect=True)
def test_reads_of_commands(case: Case, told: Callable[[str], None]) -> None:
    if case.whole.status == 0:
        case.reads()
    told(case.tally.check())


@pytest.mark.timeout(1200)
@pytest.mark.parametrize("case", NAMES, indirect=True)
def test_writes_of_replies(case: Case, told: Callable[[str], None]) -> None:
    if case.whole.status == 0:
        case.writes()
    told(case.tally.check())


@pytest.mark.timeout(1200)
@pytest.mark.parametrize("case", NAMES, indirect=True)
def test_reads_of_the_source(case: Case, told: Callable[[str], None]) -> None:
    case.sources()
    told(case.tally.check())
