"""The command line of `rewind-shell`."""
from __future__ import annotations

import argparse
import importlib.util
import os
import sys
from collections.abc import Callable
from typing import NoReturn, Optional

from rewind_client.errors import NotFound, RewindError, SourceRefused
from rewind_client.finding import find_rewind
from rewind_client.versions import version_of

from .completing import Completing
from .interpreter import python_with
from .interrupts import Interrupts
from .reading import MISSING, CannotRead, FileReader, PlainReader, Reader, RichReader, has_rich_terminal
from .saving import COMMANDS, saved_in, task_in
from .shell import Shell, refusal_in_words
from .terminal import Screen, error
from .words import word_of

REPEATED = frozenset(("step", "next", "undo", "continue", "reverse-next", "reverse-continue", "list"))
AGAIN = "REWIND_SHELL_AGAIN"
REFUSED, USAGE, FAILED, INTERRUPTED = 1, 2, 3, 130


class Parser(argparse.ArgumentParser):
    """A parser that tells what is wrong in one sentence."""

    def error(self, message: str) -> NoReturn:
        error(f"{message}; 'rewind-shell --help' tells how it is used")
        sys.exit(USAGE)


def arguments(words: list[str]) -> argparse.Namespace:
    parser = Parser(prog="rewind-shell", description="A shell on rewind: debugs the Go program in FILE.")
    parser.add_argument(
        "--rewind", metavar="PATH", help="the rewind to take; else $REWIND, that of the repository, or that on the path"
    )
    parser.add_argument("--load", metavar="SCRIPT", help="take the commands of a script first")
    parser.add_argument("--version", action="store_true", help="print the version of the rewind that is taken")
    parser.add_argument("file", metavar="FILE", nargs="?", help="the source; one that the page has saved with its commands takes them")
    given = parser.parse_args(words)
    if not given.file and not given.version:
        parser.error("name a FILE")
    return given


def take_better_python() -> None:
    """Goes on with a Python that has prompt_toolkit, where this one has not and that of the system has."""
    if AGAIN in os.environ or not has_rich_terminal() or importlib.util.find_spec("prompt_toolkit"):
        return
    better = python_with("prompt_toolkit")
    if better:
        os.environ[AGAIN] = "yes"
        os.execv(better, [better, *sys.argv])


def main(words: list[str]) -> int:
    given = arguments(words)
    try:
        if given.version:
            print(f"rewind-shell {version_of(find_rewind(given.rewind))}")
            return 0
        if sys.stdin is None:
            raise RewindError("standard input is closed: there is nobody to give commands")
        take_better_python()
        return begun(given)
    except SourceRefused as refused:
        error(refusal_in_words(given.file, refused))
        return REFUSED
    except CannotRead as fault:
        error(str(fault))
        return FAILED
    except (RewindError, NotFound) as fault:
        error(str(fault))
        return USAGE


def begun(given: argparse.Namespace) -> int:
    """Begins a session on the file, and converses."""
    if os.path.isdir(given.file):
        raise RewindError(f"{given.file} is a folder: name the source in it")
    if not os.path.isfile(given.file):
        raise RewindError(f"there is no file {given.file}")
    interrupts = Interrupts()
    shell = Shell(find_rewind(given.rewind), given.file, Screen(sys.stdout, interrupts.pending), interrupts, asking())
    try:
        return converse(shell, given.load)
    finally:
        shell.end()


def asking() -> Optional[Callable[[str], str]]:
    """Who answers a question: the user at a terminal, else nobody."""
    return input if sys.stdin.isatty() else None


def reader_for(shell: Shell) -> Reader:
    if not sys.stdin.isatty():
        return FileReader()
    if has_rich_terminal():
        if importlib.util.find_spec("prompt_toolkit"):
            return RichReader(Completing(shell), shell.screen.has_colours)
        shell.screen.say(MISSING, "note")
    return PlainReader()


def converse(shell: Shell, script: Optional[str]) -> int:
    """Reads lines and obeys them, until the session is over or there are no more."""
    is_terminal = sys.stdin.isatty()
    reader = reader_for(shell)
    if is_terminal:
        shell.screen.say(f"Rewind on {shell.program.path}: 'help' lists the commands, 'quit' leaves.")
        shell.script.begin(shell.program)
        shell.tell_saved()
    shell.guarded(lambda: take_saved(shell, script))
    before = ""
    while not shell.is_over:
        try:
            before = obey_next(shell, reader, before, is_terminal)
        except EOFError:
            if is_terminal:
                shell.screen.line()
            break
        except KeyboardInterrupt:
            if not is_terminal:
                return INTERRUPTED
            shell.screen.say("('quit' or Ctrl-D leaves)")
        if shell.is_lost and not is_terminal:
            return FAILED
    return 0


def take_saved(shell: Shell, script: Optional[str]) -> None:
    """Takes the commands of a script; without one those that the page has written behind the source."""
    if script:
        shell.load_file(script)
    elif COMMANDS in shell.program.written:
        task = task_in(shell.program.written)
        if task:
            shell.screen.say(task, "note")
        shell.take(saved_in(shell.program.written).commands, shell.path)


def obey_next(shell: Shell, reader: Reader, before: str, is_terminal: bool) -> str:
    """Reads a line and obeys it; an empty one stands for the one before. The line that an empty one after it stands for."""
    text = reader.read(f"(rewind {shell.chosen}) ")
    if is_terminal and not text.strip():
        text = before
    lines = text.split("\n")
    for line in lines:
        if line.strip() and (not is_terminal or len(lines) > 1):
            shell.screen.line("> " + line)
        shell.obey(line)
    words = text.split()
    return text if len(lines) == 1 and words and word_of(words[0]) in REPEATED else ""
