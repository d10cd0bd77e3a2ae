"""The process, with children that answer, end, hang and write without end."""
from __future__ import annotations

import os
import re
import signal
import sys
import time
from collections.abc import Callable
from pathlib import Path

import pytest

from rewind_client import process as process_module
from rewind_client.core import Core, Refused
from rewind_client.errors import Cancelled, MalformedReply, NotFound, ProcessError, SourceRefused
from rewind_client.finding import find_rewind, start
from rewind_client.plain import PLAIN
from rewind_client.process import JSON, Manner, Process
from rewind_client.replies import Reason, Reply
from support.places import TOP

HELLO = "package main\nfunc main() { println(1) }\n"


def fake(
    program: str, timeout: float = 5.0, cancelled: Callable[[], bool] = process_module.never, manner: Manner = JSON
) -> Process:
    """A child that runs some Python in place of Rewind."""
    return Process([sys.executable, "-u", "-c", "import json, sys, time\n" + program], timeout, cancelled, manner)


def json_of(text: str) -> str:
    """A line that prints the answer of a command that was done, with a text that an expression gives."""
    return f"print(json.dumps({{'reply': {{'answer': 'done'}}, 'text': {text}}}))"


def test_a_child_that_answers() -> None:
    child = fake(f"for line in sys.stdin: {json_of('line')}")
    assert child.ask("one") == Reply({"answer": "done"}, "one\n")
    assert [reply.lines for reply in child.ask_all(["two", "three"])] == [["two"], ["three"]]
    child.end()
    with pytest.raises(ProcessError, match="was ended"):
        child.ask("four")


def test_many_commands_in_one_go() -> None:
    child = fake(f"for line in sys.stdin: {json_of(repr('x' * 500))}")
    assert len(child.ask_all(["show g0"] * 5000)) == 5000
    child.end()


def test_a_child_that_ends() -> None:
    child = fake("sys.stdin.readline(); sys.exit(3)")
    with pytest.raises(ProcessError, match="reading or writing failed"):
        child.ask("step g0")


def test_a_child_that_is_killed() -> None:
    child = fake(f"sys.stdin.readline(); {json_of(repr('ok'))}; time.sleep(60)")
    assert child.ask("log").is_ok
    os.kill(child.child.pid, signal.SIGKILL)
    with pytest.raises(ProcessError, match="signal 9 ended it"):
        child.ask("log")


def test_a_child_that_hangs() -> None:
    child = fake("time.sleep(60)", timeout=0.5)
    begin = time.monotonic()
    with pytest.raises(ProcessError, match="no answer within 0.5 seconds"):
        child.ask("step g0")
    assert time.monotonic() - begin < 5


def test_a_child_that_writes_without_end(monkeypatch: pytest.MonkeyPatch) -> None:
    monkeypatch.setattr(process_module, "MAX_REPLY", 1 << 20)
    child = fake("sys.stdin.readline()\nwhile True: print('| ' + 'x' * 1000)", manner=PLAIN)
    with pytest.raises(ProcessError, match="more than 1048576 bytes"):
        child.ask("log")


def test_a_child_that_writes_one_line_without_end(monkeypatch: pytest.MonkeyPatch) -> None:
    monkeypatch.setattr(process_module, "MAX_REPLY", 1 << 20)
    child = fake("sys.stdin.readline()\nwhile True: sys.stdout.write('x' * 1000)")
    with pytest.raises(ProcessError, match="more than 1048576 bytes"):
        child.ask("log")


def test_an_answer_that_was_not_waited_for() -> None:
    child = fake(f"for line in sys.stdin: time.sleep(0.5); {json_of('line')}", cancelled=lambda: True)
    with pytest.raises(Cancelled):
        child.ask("run 1")
    child.cancelled = process_module.never
    assert child.ask("log").text == "log\n"
    child.end()


def test_a_child_that_is_not_there() -> None:
    with pytest.raises(ProcessError, match="cannot be started"):
        Process(["/nowhere/rewind", "x.go"])


STEPPED = '{"reply":{"answer":"stepped",%s},"text":"as told\\n"}'


@pytest.mark.parametrize("line", ["what", "ok", "12", "[]", "{}", '{"reply":1', *(
    STEPPED % parts for parts in ('"id":"g0#1"', '"id":"g0#1","kind":"nothing"', '"id":"g0#1","kind":"pick x"', '"id":"g0#1","kind":[]')
)])  # fmt: skip
def test_a_malformed_reply_is_named(line: str) -> None:
    core = Core(fake(f"for line in sys.stdin: print({line!r})"))
    told = "as told" if line.endswith("}") and "step" in line else line
    with pytest.raises(MalformedReply, match="to 'step g0' that means nothing: " + re.escape(told)):
        core.step("g0")
    assert core.process.ended


@pytest.mark.parametrize("line", ["what", "ok", "ok g0#1", "ok g0#1 nothing", "ok g0#1 pick x"])
def test_a_malformed_reply_of_the_plain_program_is_named(line: str) -> None:
    core = Core(fake(f"for line in sys.stdin: print({line!r})", manner=PLAIN))
    with pytest.raises(MalformedReply, match="to 'step g0' that means nothing: " + line):
        core.step("g0")


# Parts that only the protocol tells: of a run that stopped, and of steps that would change places.
LEFT_OUT = frozenset(("kind", "earlier", "later"))
COMMANDS = (
    "step g0.7", "step g0", "run 9", "show g0", "show g0.2", "chan g0/c1", "chan g0.1/c9", "log", "causes g0.2#1", "deps g0#1", "back g0#9",
    "redo", "undo", "order g0#2 g0#1", "break 12", "clear 12", "free 3", "text g0", "console", "what", "run 500", "show g0.1", "chan g0/c2",
)  # fmt: skip


@pytest.mark.parametrize("name", ["deadlock", "fibonacci_select", "default_selection"])
def test_the_plain_program_tells_the_same(rewind: str, name: str) -> None:
    """Its lines are read into the parts that the protocol tells, but for those that its lines do not have."""
    path = str(TOP / "crates" / "sessions" / "data" / f"{name}.go")
    plain, told = Process([rewind, path], manner=PLAIN), Process([rewind, "--json", path])
    for command in COMMANDS:
        left, right = plain.ask(command), told.ask(command)
        kept = {name: value for name, value in right.parts.items() if name not in LEFT_OUT}
        assert {name: value for name, value in left.parts.items() if name not in LEFT_OUT} == kept
        assert left.text == right.text
    plain.end()
    told.end()


def test_an_older_rewind(tmp_path: Path) -> None:
    older = tmp_path / "rewind"
    older.write_text("#!/bin/sh\necho \"error: unexpected argument '--json' found\" >&2; exit 2\n")
    older.chmod(0o755)
    with pytest.raises(ProcessError, match="is an older rewind, without --json"):
        start(str(older), "x.go")


def test_no_rewind(monkeypatch: pytest.MonkeyPatch) -> None:
    with pytest.raises(NotFound, match="which --rewind names"):
        find_rewind("/nowhere/rewind")
    monkeypatch.setenv("REWIND", "/nowhere/other")
    with pytest.raises(NotFound, match="REWIND names"):
        find_rewind()
    monkeypatch.delenv("REWIND")
    monkeypatch.setenv("PATH", "")
    monkeypatch.setattr("rewind_client.finding.REPOSITORY", "/nowhere")
    with pytest.raises(NotFound, match="no rewind was found"):
        find_rewind()


def test_a_session(core: Callable[[str], Core]) -> None:
    session = core(HELLO)
    assert str(session.step("g0").kind) == "pure"
    assert session.run(5).reason is Reason.ENDED
    assert session.end is Reason.ENDED
    assert [str(entry.kind) for entry in session.log()] == ["pure", "exit"]
    with pytest.raises(Refused, match="the program has ended") as refused:
        session.step("g0")
    assert refused.value.code == "N1"
    assert session.undo() == "g0#2"
    assert session.end is None
    assert session.redo() == ["g0#2"]
    assert session.end is Reason.ENDED
    assert session.console() == ["1"]
    assert session.show("g0.1") is None


def test_a_refused_source(core: Callable[[str], Core]) -> None:
    with pytest.raises(SourceRefused) as refused:
        core('package main\nimport "fmt"\nfunc main() {}\n')
    assert (refused.value.code, refused.value.line, refused.value.column) == ("P2", 2, 1)


def test_a_source_that_is_not_there(rewind: str) -> None:
    with pytest.raises(ProcessError, match="cannot read"):
        start(rewind, "/nowhere/x.go")
