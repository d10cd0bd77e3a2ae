"""The shell at a pseudo-terminal: the prompt, Ctrl-C, Ctrl-D, history, completion, colours and width."""
from __future__ import annotations

import os
import re
import signal
import subprocess
import sys
import time
from collections.abc import Callable, Iterator
from pathlib import Path
from typing import Optional

import pexpect
import pytest

from fakes import FIRST
from support.begun import Begun
from support.places import CLIENTS, EXAMPLES

SHELL = CLIENTS / "rewind-shell"
LIMIT = 30.0
ESCAPES = re.compile(r"\x1b\[[0-9;?]*[A-Za-z]|\x1b[=>78]|\x1b\][^\x07]*\x07|\r")
ENDLESS = "package main\nfunc main() {\n\tfor i := 0; ; i++ {\n\t}\n}\n"


class Terminal:
    """A shell at a terminal of some columns, with all that it wrote there, and what a person sees of it."""

    def __init__(self, words: list[str], environment: dict[str, str], columns: int) -> None:
        size = (40, columns)
        self.child = pexpect.spawn(words[0], words[1:], env=environment, dimensions=size, encoding="utf-8", codec_errors="replace")
        self.child.delaybeforesend = None
        self.raw = ""
        self.at = 0

    def write(self, text: str) -> None:
        self.child.send(text)

    def read(self, seconds: float) -> bool:
        """Reads what comes; False where nothing does, or the end has come. A question for the cursor's place is answered."""
        try:
            part = self.child.read_nonblocking(1 << 16, seconds)
        except (pexpect.TIMEOUT, pexpect.EOF):
            return False
        self.raw += part
        if "\x1b[6n" in part:
            self.write("\x1b[1;1R")
        return True

    @property
    def text(self) -> str:
        return ESCAPES.sub("", self.raw)

    def expect(self, wanted: str) -> str:
        """Reads until some text has come behind what was expected before: the text up to its end."""
        until = time.monotonic() + LIMIT
        while self.text.find(wanted, self.at) < 0:
            if time.monotonic() > until or (not self.read(0.5) and not self.child.isalive()):
                raise AssertionError(f"no {wanted!r} in {self.text[self.at :][-2000:]!r}")
        end = self.text.find(wanted, self.at) + len(wanted)
        found, self.at = self.text[self.at : end], end
        return found

    def say(self, line: str, wanted: str, prompt: str = "(rewind ") -> str:
        """Types a line, and reads up to some text and the next prompt."""
        self.write(line + "\r")
        return self.expect(wanted) + self.expect(prompt)

    def end(self) -> int:
        """The exit status, when the shell leaves."""
        while self.read(LIMIT):
            pass
        self.child.close()
        return int(self.child.exitstatus)

    def close(self) -> None:
        self.child.close(force=True)


Begin = Callable[..., Terminal]


@pytest.fixture
def begin(rewind: str, tmp_path: Path) -> Iterator[Begin]:
    begun: list[Terminal] = []

    def one(source: str = "lock_order", columns: int = 100, rewind_path: str = rewind, **more: Optional[str]) -> Terminal:
        path = EXAMPLES / (source + ".go")
        if "\n" in source:
            path = tmp_path / "source.go"
            path.write_text(source)
        environment = {**os.environ, "TERM": "xterm", "XDG_STATE_HOME": str(tmp_path / "state")}
        environment.pop("NO_COLOR", None)
        for name, value in more.items():
            environment[name] = value or ""
        begun.append(Terminal([sys.executable, str(SHELL), "--rewind", rewind_path, str(path)], environment, columns))
        begun[-1].expect("(rewind g0)")
        return begun[-1]

    yield one
    for terminal in begun:
        terminal.close()


def test_a_session(begin: Begin) -> None:
    terminal = begin()
    assert "The session is saved as it goes" in terminal.text
    terminal.say("run 1000", "Deadlock")
    terminal.say("why", "A cycle: g0.1 waits for g0.2")
    terminal.say("g g0.1", "g0.1 is waiting", "(rewind g0.1)")
    assert "\x1b[" in terminal.raw
    terminal.write("quit\r")
    assert terminal.end() == 0


def test_ctrl_d_leaves(begin: Begin) -> None:
    terminal = begin()
    terminal.write("\x04")
    assert terminal.end() == 0


def test_ctrl_c_ends_a_run_and_not_the_session(begin: Begin) -> None:
    terminal = begin(ENDLESS)
    terminal.write("finish\r")
    terminal.expect("finish")
    time.sleep(0.5)
    terminal.write("\x03")
    terminal.expect("Stopped by Ctrl-C after")
    terminal.say("step", "g0 is ready")
    terminal.write("\x03")
    terminal.expect("(rewind g0)")
    terminal.say("show g0", "ok")


def test_ctrl_c_where_rewind_hangs(begin: Begin, tmp_path: Path) -> None:
    path = tmp_path / "hangs"
    body = f"print({FIRST!r}, flush=True)\nsys.stdin.readline()\ntime.sleep(60)\n"
    path.write_text(f"#!{sys.executable}\nimport sys, time\nsys.stdin.readline()\n{body}")
    path.chmod(0o755)
    terminal = begin(rewind_path=str(path))
    terminal.write("log\r")
    time.sleep(0.3)
    terminal.write("\x03")
    terminal.expect("Stopped by Ctrl-C")
    terminal.expect("(rewind g0)")


def test_a_core_that_is_killed(begin: Begin) -> None:
    terminal = begin()
    terminal.say("step g0", "ok g0#1")
    path = re.search(r"saved as it goes: (\S+\.script)", terminal.text.replace("\n  ", " "))
    assert path
    children = subprocess.run(["ps", "-o", "pid=", "--ppid", str(terminal.child.pid)], stdout=subprocess.PIPE, text=True).stdout
    for number in children.split():
        os.kill(int(number), signal.SIGKILL)
    terminal.say("step g0", "signal 9 ended it")
    terminal.say("restart", "g0 is ready")
    assert Path(path.group(1)).read_text().splitlines()[1] == "step g0"
    terminal.say("load " + path.group(1), "commands of")


def test_a_ctrl_c_at_any_moment_of_the_start(rewind: str, tmp_path: Path) -> None:
    """It ends the shell, or is taken at the prompt; there is no traceback of ours."""
    begun = Begun(tmp_path)
    environment = {**begun.environment, "TERM": "xterm", "XDG_STATE_HOME": str(tmp_path / "state")}
    words = [sys.executable, str(SHELL), "--rewind", rewind, str(EXAMPLES / "lock_order.go")]
    for twentieths in range(12):
        begun.forget()
        terminal = Terminal(words, environment, 100)
        begun.wait()
        terminal.read(0.05 * twentieths)
        os.kill(terminal.child.pid, signal.SIGINT)
        while terminal.child.isalive() and "(rewind g0)" not in terminal.text:
            terminal.read(0.1)
        terminal.close()
        assert "rewind_" not in terminal.raw and "Error" not in terminal.raw, (twentieths, terminal.raw)


def test_history_and_completion(begin: Begin) -> None:
    terminal = begin()
    terminal.say("step g0", "ok g0#1")
    terminal.write("\x1b[A\r")
    terminal.expect("ok g0#2")
    terminal.expect("(rewind g0)")
    terminal.write("gorou\x08\x08\x08\x08oroutines\r")
    terminal.expect("* g0")
    terminal.expect("(rewind g0)")
    terminal.write("\x12step")
    time.sleep(0.3)
    terminal.write("\r")
    time.sleep(0.3)
    terminal.write("\r")
    terminal.expect("ok g0#3")
    terminal.expect("(rewind g0)")
    terminal.write("chan\t")
    terminal.expect("channels")


def test_enter_repeats_a_movement(begin: Begin) -> None:
    terminal = begin()
    terminal.say("step", "g0#1 make")
    terminal.say("", "g0#2 make")


def test_a_question_before_steps_go_back(begin: Begin) -> None:
    terminal = begin()
    terminal.say("run 4", "ok 4 count")
    terminal.write("back 17\r")
    terminal.expect("Take them back? [Y/n]")
    terminal.write("n\r")
    terminal.expect("(rewind g0)")
    terminal.say("log", "ok 4")


@pytest.mark.parametrize("more", [{"NO_COLOR": "1"}, {"TERM": "dumb"}])
def test_no_colours(begin: Begin, more: dict[str, str]) -> None:
    terminal = begin(**more)
    terminal.say("run 1000", "Deadlock")
    terminal.say("why", "A cycle")
    assert not re.search("\x1b\\[[0-9;]*[1-9][0-9]*m", terminal.raw)


def test_a_long_log_is_said_to_be_read(begin: Begin) -> None:
    terminal = begin("starved_select")
    terminal.say("run 30000", "ok 30000 count")
    assert "reading the log .." in terminal.say("why", "The program can go on")
    assert "reading the log .." not in terminal.say("history 2", "g0")


def test_twenty_columns(begin: Begin) -> None:
    terminal = begin(columns=20, TERM="dumb")
    terminal.say("run 1000", "ok 24 stuck")
    shown = (
        terminal.say("why", "A cycle:")
        + terminal.say("list", "=>")
        + terminal.say("goroutines", "g0.2")
        + terminal.say("help", "Ctrl-D")
    )
    lines = [line for line in shown.split("\n") if not line.startswith("(rewind") and len(line.split()) > 1]
    assert [line for line in lines if len(line) > 20] == []


def test_without_prompt_toolkit(begin: Begin, tmp_path: Path) -> None:
    folder = tmp_path / "without"
    folder.mkdir()
    (folder / "sitecustomize.py").write_text("import sys\nsys.modules['prompt_toolkit'] = None\n")
    terminal = begin(PYTHONPATH=str(folder), REWIND_SHELL_AGAIN="yes")
    assert terminal.text.count("need prompt_toolkit") == 1
    terminal.say("run 1000", "Deadlock")
    time.sleep(0.5)
    terminal.write("\x03")
    terminal.expect("'quit' or Ctrl-D leaves")
    # What is typed before the next prompt is lost.
    terminal.expect("(rewind ")
    time.sleep(0.5)
    terminal.write("\x04")
    assert terminal.end() == 0


def test_lines_that_are_pasted(begin: Begin) -> None:
    terminal = begin()
    terminal.write("\x1b[200~step g0\nstep g0\nwhy\x1b[201~\r")
    terminal.expect("ok g0#1")
    terminal.expect("ok g0#2")
    terminal.expect("The program can go on")
    terminal.say("log", "ok 2")
