"""The debugger, run on a source and commands from beginning to end; and the library under which its requests fail.

Hostile tests run it hundreds of thousands of times, so it is started by `posix_spawn`, with files in memory.
"""
from __future__ import annotations

import os
import signal
import subprocess
import tempfile
from collections.abc import Mapping, Sequence
from pathlib import Path
from types import MappingProxyType
from typing import NamedTuple, Union

from .places import TOP

# Files that are written thousands of times are best kept in memory.
MEMORY = "/dev/shm"
NOTHING: Mapping[str, str] = MappingProxyType({})


class Ended(NamedTuple):
    """What came of a run: its status (below 0 a signal), what it wrote, and the seconds of a processor that it took."""

    status: int
    output: bytes
    error: bytes
    seconds: float


def read_all(pipe: int) -> bytes:
    parts = []
    while part := os.read(pipe, 1 << 16):
        parts.append(part)
    return b"".join(parts)


class Program:
    """A debugger with options, run on sources and commands that are given as bytes."""

    def __init__(self, path: str, options: Sequence[str] = ()) -> None:
        self.path, self.options = path, list(options)
        self.folder = tempfile.TemporaryDirectory(dir=MEMORY if os.path.isdir(MEMORY) else None)
        self.source = os.path.join(self.folder.name, "program.go")
        self.commands = os.path.join(self.folder.name, "commands")

    def run(self, source: bytes, commands: bytes = b"", environment: Mapping[str, str] = NOTHING) -> Ended:
        """The run to its end on a source, with more variables in its environment."""
        Path(self.source).write_bytes(source)
        return self.run_words([self.source], commands, environment)

    def run_words(self, words: Sequence[Union[str, bytes]], commands: bytes = b"", environment: Mapping[str, str] = NOTHING) -> Ended:
        """The run to its end of a command line. Standard error is read last: it gets a line at most."""
        Path(self.commands).write_bytes(commands)
        output, error = os.pipe(), os.pipe()
        actions = [
            (os.POSIX_SPAWN_OPEN, 0, self.commands, os.O_RDONLY, 0),
            (os.POSIX_SPAWN_DUP2, output[1], 1),
            (os.POSIX_SPAWN_DUP2, error[1], 2),
        ]
        line = [self.path, *self.options, *words]
        child = os.posix_spawn(self.path, line, {**os.environ, **environment}, file_actions=actions)
        os.close(output[1])
        os.close(error[1])
        try:
            written, said = read_all(output[0]), read_all(error[0])
        except BaseException:  # the time limit of the test
            os.kill(child, signal.SIGKILL)
            os.waitpid(child, 0)
            raise
        finally:
            os.close(output[0])
            os.close(error[0])
        status, used = os.wait4(child, 0)[1:]
        return Ended(os.waitstatus_to_exitcode(status), written, said, used.ru_utime + used.ru_stime)


class Preloaded:
    """The library under which requests fail as variables of the environment say (tests/hostile/faults.c)."""

    def __init__(self, folder: Path) -> None:
        path = folder / "faults.so"
        source = TOP / "tests" / "hostile" / "faults.c"
        subprocess.run(["cc", "-O2", "-shared", "-fPIC", "-o", str(path), str(source), "-ldl"], check=True)
        self.environment = {"LD_PRELOAD": str(path)}
