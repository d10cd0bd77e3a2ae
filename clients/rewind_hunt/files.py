"""The sources that are hunted in: files, and what comes from standard input or a pipe, which is read once."""
from __future__ import annotations

import os
import stat
import sys
from collections.abc import Iterator, Sequence
from contextlib import contextmanager
from tempfile import TemporaryDirectory
from typing import NamedTuple

from rewind_client.errors import RewindError

STANDARD_INPUT = "-"
# A source has at most 1 MiB; what is behind that and one byte more is not read.
MOST_BYTES = (1 << 20) + 1


class File(NamedTuple):
    """A source as the user names it, and where the processes read it."""

    name: str
    path: str

    def replace(self, text: bytes) -> None:
        """Gives the processes another text to read."""
        try:
            with open(self.path, "wb") as copy:
                copy.write(text)
        except OSError as fault:
            raise RewindError(f"a copy of {self.name} cannot be written: {fault.strerror}") from None


@contextmanager
def readable(name: str) -> Iterator[File]:
    """The source as a file that can be read many times: a copy of it, since it may be a pipe, or change meanwhile."""
    with TemporaryDirectory(prefix="rewind-hunt-") as folder:
        path = os.path.join(folder, os.path.basename(name) if name.endswith(".go") else "source.go")
        with open(path, "wb") as copy:
            copy.write(content(name))
        yield File("standard input" if name == STANDARD_INPUT else name, path)


def content(name: str) -> bytes:
    """The bytes of a source, as far as they may be one."""
    try:
        if name == STANDARD_INPUT and sys.stdin is None:
            raise RewindError("standard input is closed")
        if name == STANDARD_INPUT:
            return sys.stdin.buffer.read(MOST_BYTES)
        if stat.S_ISDIR(os.stat(name).st_mode):
            raise RewindError(f"{name} is a folder: name the source in it")
        with open(name, "rb") as file:
            return file.read(MOST_BYTES)
    except (OSError, ValueError) as fault:
        raise RewindError(f"{name} cannot be read: {getattr(fault, 'strerror', None) or fault}") from None


def check_names(names: Sequence[str]) -> None:
    """Standard input can be read once."""
    if names.count(STANDARD_INPUT) > 1:
        raise RewindError("- stands for standard input, which is read once: name it once")
