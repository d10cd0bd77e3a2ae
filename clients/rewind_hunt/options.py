"""The command line of `rewind-hunt`, as what is to be hunted for."""
from __future__ import annotations

import argparse
import os
import re
from collections.abc import Callable, Sequence
from enum import Enum
from typing import NamedTuple, NoReturn, Optional, Pattern

from rewind_client.errors import RewindError
from rewind_client.finding import find_rewind

from .choosers import CHOOSERS, FILE, chooser_of
from .files import File, check_names
from .hunting import Plan
from .outcomes import Kind

KINDS = [kind.value for kind in Kind]
DESCRIPTION = "Takes random schedules of a program, and tells how they ended and what they printed. Of those that end badly it shows \
the few commands that lead there: in a panic or a deadlock, not at all, with a leak that other schedules have not, or with an output \
other than --expect."
EPILOGUE = "Exit status: 0 where nothing bad was found, 1 where something was, 2 where the command line, FILE or rewind is at fault, \
and 3 where nothing bad was found but the outputs differ and no --expect says which is right. Of several FILEs the worst counts: 2, \
then 1, then 3."


class Form(Enum):
    """How a hunt tells what it found."""

    TEXT = "text"
    JSON = "json"
    SARIF = "sarif"


class Parser(argparse.ArgumentParser):
    """Tells what is wrong with a command line in one sentence."""

    def error(self, message: str) -> NoReturn:
        raise RewindError(f"{message}; 'rewind-hunt --help' tells how it is used")


class Wanted(NamedTuple):
    """What the command line asks for."""

    files: Sequence[str]
    rewind: str
    runs: int
    seed: int
    jobs: int
    most_steps: int
    expected: Optional[Pattern[str]]
    ignored: tuple[Kind, ...]
    stop: bool
    each: bool
    full: bool
    script: Optional[str]
    schedulers: tuple[str, ...]
    form: Form
    version: bool

    def plan(self, file: File) -> Plan:
        """The hunt in one of the files."""
        jobs = min(self.jobs, self.runs)
        settings = (self.runs, self.seed, jobs, self.most_steps, self.expected, self.ignored, self.stop, self.schedulers)
        return Plan(self.rewind, file.path, file.name, *settings)


def parser() -> Parser:
    made = Parser(prog="rewind-hunt", description=DESCRIPTION, epilog=EPILOGUE)
    made.add_argument("files", metavar="FILE", nargs="*", help="a source; - for standard input")
    made.add_argument("--runs", type=number(1, 1_000_000), default=200, metavar="N", help="schedules to take (200)")
    unended = "a schedule of N steps is taken as unended (5000)"
    made.add_argument("--steps", type=number(1, 100_000), default=5000, metavar="N", help=unended)
    made.add_argument("--seed", type=number(0, 1_000_000_000), default=1, metavar="N", help="another seed gives other schedules (1)")
    made.add_argument("--jobs", type=number(1, 64), default=processors(), metavar="N", help="processes at once (as many as processors)")
    made.add_argument("--expect", metavar="PATTERN", help="a regular expression that is to match in what is printed, line by line")
    made.add_argument("--ignore", metavar="KINDS", default="", help="kinds that are not bad, of " + ",".join(KINDS))
    made.add_argument("--stop", action="store_true", help="end the hunt at the first bad schedule")
    made.add_argument("--each", action="store_true", help="show the commands to each different output, also where it is not bad")
    made.add_argument("--full", action="store_true", help="show all that was found, and each step of the scripts")
    made.add_argument("--script", metavar="FILE", help="write the commands to the first thing found to a file")
    choosers = f"who chooses: {', '.join(CHOOSERS)}, or a file of Python; may be given more than once"
    made.add_argument("--scheduler", action="append", default=[], metavar="NAME", help=choosers)
    forms = made.add_mutually_exclusive_group()
    as_json = "write what was found as JSON, an object for each FILE in a line"
    forms.add_argument("--json", action="store_const", const="json", dest="form", default="text", help=as_json)
    forms.add_argument("--sarif", action="store_const", const="sarif", dest="form", help="write what was found as SARIF 2.1.0")
    made.add_argument("--rewind", metavar="PATH", help="the rewind to take")
    made.add_argument("--version", action="store_true", help="print the version of the rewind that is taken")
    return made


def number(least: int, most: int) -> Callable[[str], int]:
    """Reads a number between two."""

    def read(text: str) -> int:
        if not (text.isascii() and text.isdecimal() and least <= int(text) <= most):
            raise argparse.ArgumentTypeError(f"{text} is no number from {least} to {most}")
        return int(text)

    return read


def processors() -> int:
    return len(os.sched_getaffinity(0)) if hasattr(os, "sched_getaffinity") else os.cpu_count() or 1


def wanted(words: Sequence[str]) -> Wanted:
    """What is to be hunted for."""
    given = parser().parse_args(words)
    if not given.version:
        check_files(given.files, given.script)
    rewind = find_rewind(given.rewind)
    return Wanted(
        given.files, rewind, given.runs, given.seed, given.jobs, given.steps, pattern(given.expect), kinds(given.ignore), given.stop,
        given.each, given.full, given.script, schedulers(given.scheduler),
        Form(given.form), given.version,
    )  # fmt: skip


def check_files(files: list[str], script: Optional[str]) -> None:
    if not files:
        raise RewindError("name a FILE, or - for standard input; 'rewind-hunt --help' tells how it is used")
    check_names(files)
    if script and len(files) > 1:
        raise RewindError("--script keeps the commands for one FILE: name one")
    if script and not may_write(script):
        raise RewindError(f"{script} cannot be written")


def pattern(text: Optional[str]) -> Optional[Pattern[str]]:
    try:
        return re.compile(text, re.MULTILINE) if text is not None else None
    except re.error as fault:
        raise RewindError(f"--expect has a pattern that means nothing: {fault}") from None


def schedulers(names: Sequence[str]) -> tuple[str, ...]:
    """The schedulers that are named, each once; a file by its whole path."""
    for name in names:
        chooser_of(name)
    return tuple(dict.fromkeys(os.path.abspath(name) if name.endswith(FILE) else name for name in names))


def kinds(text: str) -> tuple[Kind, ...]:
    ignored = [word for word in text.split(",") if word]
    unknown = [word for word in ignored if word not in KINDS]
    if unknown:
        raise RewindError(f"--ignore has a kind that is none: {unknown[0]} (there are {', '.join(KINDS)})")
    return tuple(Kind(word) for word in ignored)


def may_write(path: str) -> bool:
    """Whether a file can be written there, as far as can be told before."""
    folder = os.path.dirname(os.path.abspath(path))
    return not os.path.isdir(path) and os.path.isdir(folder) and os.access(path if os.path.exists(path) else folder, os.W_OK)
