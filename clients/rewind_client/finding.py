"""Which `rewind` to take, and a session of it on a source."""
from __future__ import annotations

import os
import re
import shutil
import subprocess
from collections.abc import Callable
from dataclasses import dataclass
from typing import Optional

from .core import Core, unnoted
from .errors import NotFound, ProcessError, SourceRefused
from .meanings import REFUSED_SOURCES
from .plain import PLAIN
from .process import JSON, TIMEOUT, Process, never

REPOSITORY = os.path.dirname(os.path.dirname(os.path.dirname(os.path.abspath(__file__))))
PROGRAMS = ("rewind", "rewind-quick")
UNKNOWN = "unexpected argument '--json'"
REFUSAL = re.compile(r"rewind: ([SPC][0-9]+)(?: at ([0-9]+):([0-9]+))?")


def is_program(path: str) -> bool:
    return os.path.isfile(path) and os.access(path, os.X_OK)


def rewind_for_node() -> Optional[str]:
    """The `rewind` that node runs, which lies beside this file where the clients were installed for any machine."""
    path = os.path.join(os.path.dirname(os.path.abspath(__file__)), "rewind.mjs")
    return path if is_program(path) and shutil.which("node") else None


def find_rewind(named: Optional[str] = None) -> str:
    """The `rewind` to take: the one named, that of `$REWIND`, one in bin of the repository, that on the path, or the one for Node."""
    for how, path in (("--rewind", named), ("$REWIND", os.environ.get("REWIND"))):
        if path:
            if not is_program(path):
                raise NotFound(f"there is no program {path}, which {how} names")
            return os.path.abspath(path)
    beside = [os.path.join(REPOSITORY, "bin", name) for name in PROGRAMS]
    found = next(filter(is_program, beside), None) or shutil.which("rewind") or rewind_for_node()
    if not found:
        looked = f"{beside[0]}, {beside[1]} and the path"
        raise NotFound(f"no rewind was found in {looked}: build one by 'make quick', or name one by --rewind PATH")
    return found


@dataclass(frozen=True)
class Settings:
    """How a session runs: how long an answer is awaited, when the wait is cancelled, what is told of commands, and how many workers."""

    timeout: float = TIMEOUT
    cancelled: Callable[[], bool] = never
    journal: Callable[[str], None] = unnoted
    workers: int = 0


USUAL = Settings()


def start(rewind: str, path: str, settings: Settings = USUAL) -> Core:
    """A session on a source; SourceRefused where Rewind refuses it.

    Rewind says nothing of a source that it accepts, so it is asked for `g0`. Beside workers it is the plain program that is asked.
    """
    words, manner = (["--workers", str(settings.workers)], PLAIN) if settings.workers else (["--json"], JSON)
    process = Process([rewind, *words, path], settings.timeout, settings.cancelled, manner)
    try:
        Core(process).show("g0")
    except ProcessError as fault:
        raise refusal_of(rewind, path, str(fault)) from None
    return Core(process, settings.journal)


def explained(rewind: str, code: str) -> list[str]:
    """What a `rewind` tells of a code, in any letters; nothing where it is none."""
    for text in (code, code.upper()):
        try:
            done = subprocess.run([rewind, "--explain", text], capture_output=True, timeout=10, check=False)
        except (OSError, ValueError, subprocess.SubprocessError):
            return []
        if done.returncode == 0:
            return done.stdout.decode("utf-8", "replace").splitlines()
    return []


def refusal_of(rewind: str, path: str, said: str) -> Exception:
    """What a `rewind` that ended at once said: that it refuses the source, or is an older one, or else what went wrong."""
    if UNKNOWN in said:
        return ProcessError(f"{rewind} is an older rewind, without --json: these clients want that of their own release")
    found = REFUSAL.search(said)
    if not found:
        return ProcessError(said)
    code, line, column = found.group(1), int(found.group(2) or 0), int(found.group(3) or 0)
    place = f":{line}:{column}" if line else ""
    sentence = f"{path}{place}: {REFUSED_SOURCES.get(code, 'it is refused')} ({code})"
    return SourceRefused(sentence, code, line, column)
