"""Runs the program: with pipes, at a pseudo-terminal, and by a shell. All runs are in one scratch folder, which has
the repository's folders, and the program as `rewind`, `bin/rewind` and `bin/rewind-quick`."""
from __future__ import annotations

import os
import re
import subprocess

from support.terminal import END, Terminal

from . import repository

SECONDS = 50
PROMPT = "(rewind) "
# What the version of the quick build has more than that of the proved program.
UNPROVED = re.compile(r"(\+[0-9a-f]+(\.changed)?)? \(unproved build\)")


class Ran:
    """What a run wrote, and its exit status."""

    def __init__(self, status: int, out: str, err: str) -> None:
        self.status, self.out, self.err = status, proved(out), proved(err)


def proved(text: str) -> str:
    """A text as the proved program writes it, which does not say that it is unproved."""
    return UNPROVED.sub("", text)


def replies_of(lines: list[str]) -> list[list[str]]:
    """The replies among lines of output: each ends in a line of its own kind."""
    found, lines_so_far = [], []
    for line in lines:
        lines_so_far.append(line)
        if line == "ok" or line.startswith(("ok ", "no ", "? ")):
            found.append(lines_so_far)
            lines_so_far = []
    return found + ([lines_so_far] if lines_so_far else [])


class Scratch:
    """A built program, and the scratch folder of its runs. `shown` has the files there that a document shows, and `status`
    is that of the last line for a shell."""

    def __init__(self, path: str, folder: str) -> None:
        self.path, self.folder = os.path.abspath(path), folder
        self.shown, self.status = set[str](), 0
        os.mkdir(os.path.join(folder, "bin"))
        for name in ("rewind", "bin/rewind", "bin/rewind-quick"):
            os.symlink(self.path, os.path.join(folder, name))
        for name in sorted({it.split("/")[0] for it in repository.files()} - {"bin"}):
            os.symlink(repository.path_of(name), os.path.join(folder, name))
        self.environment = {**os.environ, "PATH": f"{folder}:{os.environ.get('PATH', '')}", "REWIND": self.path}

    def write(self, name: str, text: str) -> str:
        """Makes a file of the scratch folder."""
        with open(os.path.join(self.folder, name), "w", encoding="utf-8", errors="surrogateescape", newline="") as file:
            file.write(text)
        return name

    def run(self, arguments: list[str], script: str = "") -> Ran:
        words = [self.path, *arguments]
        ran = subprocess.run(words, input=script, capture_output=True, text=True, cwd=self.folder, timeout=SECONDS, check=False)
        return Ran(ran.returncode, ran.stdout, ran.stderr)

    def at_terminal(self, words: list[str], lines: list[str], prompt: str = PROMPT) -> Ran:
        """What a terminal shows of a command that asks for lines; the first word is the command."""
        path = os.path.join(self.folder, words[0]) if "/" in words[0] else words[0]
        terminal = Terminal([path, *words[1:]], prompt, self.folder)
        is_open = terminal.type([f"{line}\n" for line in lines])
        if is_open and lines and lines[-1].strip() != "quit" and terminal.is_asked():
            terminal.child.send(END)
        return Ran(terminal.end(), terminal.screen, "")

    def shell(self, line: str) -> Ran:
        """What a shell writes for a line, both streams together. `$?` is the status of the line before."""
        words = ["sh", "-c", line.replace("$?", str(self.status))]
        ran = subprocess.run(
            words, stdin=subprocess.DEVNULL, stdout=subprocess.PIPE, stderr=subprocess.STDOUT, text=True, cwd=self.folder,
            env=self.environment, timeout=SECONDS, check=False,
        )
        self.status = ran.returncode
        return Ran(ran.returncode, ran.stdout, "")

    def check(self, source: str) -> str:
        """What `--check` says of a source: '' where it is accepted, else the code with its place."""
        ran = self.run(["--check", self.write("checked.go", source)])
        told = ran.err.splitlines()[0] if ran.err else ""
        return told[len("rewind: "):] if told.startswith("rewind: ") else told

    def replies(self, source: str, commands: list[str]) -> list[list[str]]:
        """The replies of a session on a source."""
        ran = self.run([self.write("source.go", source)], "".join(it + "\n" for it in commands))
        return replies_of((ran.out + ran.err).splitlines())
