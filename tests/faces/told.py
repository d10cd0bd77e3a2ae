"""What each face says of a state: the shell, the adapter, and the modules of the page, which node runs."""
from __future__ import annotations

import io
import json
import re
import subprocess
from collections.abc import Iterable
from pathlib import Path
from typing import Any, Optional

from rewind_client.explanations import explain
from rewind_shell.interrupts import Interrupts
from rewind_shell.shell import Shell
from rewind_shell.terminal import Screen

from dap.client import Client
from support.places import CLIENTS, TOP

LAST = 200
WORDS = CLIENTS / "rewind_client" / "words.json"

# What the page and the shell tell, as values of JSON.
Said = dict[str, Any]


def of_shell(program: str, path: Path, commands: Iterable[str]) -> Said:
    """The lines of `why`, for whom each goroutine waits, the cycle, and line, value and row of each of the last steps."""
    out = io.StringIO()
    shell = Shell(program, str(path), Screen(out, lambda: False), Interrupts(), None)
    try:
        for command in commands:
            shell.obey(command)
        lines = [answer_of(shell, out, "why"), answer_of(shell, out, f"history {LAST}")]
        found = explain(shell.session)
        facts = shell.session.facts.tail(LAST)
        rows = [line for line in lines[1] if re.match(r"g0[.0-9]*#", line)]
        steps = [{"id": fact.step, "line": fact.line, "row": row} for fact, row in zip(facts, rows)]
        waits = [[wait.goroutine, list(wait.waits_for)] for wait in found.waits]
        return {"why": lines[0], "cycle": list(found.cycle), "waits": waits, "standing": found.standing.value, "steps": steps}
    finally:
        shell.end()


def answer_of(shell: Shell, out: io.StringIO, line: str) -> list[str]:
    """What the shell writes in answer to a line, but for what depends on time."""
    out.seek(0)
    out.truncate()
    shell.obey(line)
    return timeless(out.getvalue())


def timeless(answer: str) -> list[str]:
    """The lines of an answer without the note on long logs, and without the step to blame, for which a search may take too long."""
    lines = [text for text in answer.splitlines() if not text.startswith("(")]
    last = next((at for at, text in enumerate(lines) if text.startswith("No schedule of the program") or " is to blame: " in text), None)
    return lines[:last]


def of_adapter(path: Path, commands: Iterable[str]) -> list[str]:
    """What the adapter answers to `why` in its console."""
    client = Client()
    try:
        client.launch(str(path))
        client.stop()
        answer = ""
        for command in [*commands, "why"]:
            answer = client.body("evaluate", {"expression": command, "context": "repl"})["result"]
        return timeless(answer)
    finally:
        client.close()


class Page:
    """The modules of the page in a process of node, which is started when it is wanted."""

    def __init__(self, program: str) -> None:
        self.words = ["node", str(TOP / "page" / "test" / "faces.mjs"), program, str(WORDS)]
        self.child: Optional[subprocess.Popen[str]] = None

    def told(self, source: str, commands: list[str]) -> Said:
        """What the page says after these commands."""
        if self.child is None or self.child.poll() is not None:
            self.child = subprocess.Popen(self.words, stdin=subprocess.PIPE, stdout=subprocess.PIPE, text=True)
        assert self.child.stdin and self.child.stdout
        self.child.stdin.write(json.dumps({"source": source, "commands": commands}) + "\n")
        self.child.stdin.flush()
        found: Said = json.loads(self.child.stdout.readline() or '{"fault": "node ended"}')
        if "fault" in found:
            raise RuntimeError(found["fault"])
        return found

    def end(self) -> None:
        if self.child is not None:
            assert self.child.stdin
            self.child.stdin.close()
            self.child.wait()
