"""A command at a terminal that lets each byte through: without echo, signals and changes of lines."""
from __future__ import annotations

import termios
from collections.abc import Iterable, Sequence
from pathlib import Path
from typing import Optional

import pexpect

SECONDS = 60
END = "\4"
# Runs in sh: a command whose standard output goes to a file, and not to the terminal.
APART = 'to=$1; shift; exec "$@" >"$to"'


def let_through() -> None:
    """What a child does before it begins."""
    mode = termios.tcgetattr(0)
    mode[0] &= ~(termios.ICRNL | termios.INLCR | termios.IGNCR | termios.ISTRIP | termios.IXON)
    mode[1] &= ~termios.OPOST
    mode[3] &= ~(termios.ECHO | termios.ECHONL | termios.ISIG | termios.IEXTEN)
    for key in (termios.VERASE, termios.VKILL, termios.VEOL):
        mode[6][key] = b"\0"
    termios.tcsetattr(0, termios.TCSANOW, mode)


class Terminal:
    """A command that asks for lines with a prompt. `written` has what it wrote there, and `screen` that with what was typed.

    With `output` what goes to standard output goes to that file, and not to the terminal.
    """

    def __init__(self, words: Sequence[str], prompt: str, folder: Optional[str] = None, output: Optional[Path] = None) -> None:
        line = list(words) if output is None else ["sh", "-c", APART, "sh", str(output), *words]
        self.prompt, self.written, self.screen = prompt, "", ""
        self.child = pexpect.spawn(
            line[0], line[1:], timeout=SECONDS, cwd=folder, encoding="utf-8", codec_errors="surrogateescape", preexec_fn=let_through
        )
        self.child.delaybeforesend = None
        self.child.ptyproc.delayafterclose = 0

    def is_asked(self) -> bool:
        """Waits for the prompt; false where the command has ended."""
        found = self.child.expect_exact([self.prompt, pexpect.EOF])
        text = self.child.before + (self.prompt if found == 0 else "")
        self.written += text
        self.screen += text
        return bool(found == 0)

    def type(self, lines: Iterable[str]) -> bool:
        """Types each text when a line is asked for; false where the command has ended before."""
        for text in lines:
            if not self.is_asked():
                return False
            self.child.send(text)
            self.screen += text
        return True

    def end(self) -> int:
        """Reads to the end: the exit status."""
        while self.is_asked():
            pass
        self.child.close()
        return int(self.child.exitstatus if self.child.exitstatus is not None else -self.child.signalstatus)
