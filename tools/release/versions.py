"""The version of the program, and what else the files of a release read of the repository."""
from __future__ import annotations

import re

from tools import kit


def read(path: str) -> str:
    with open(path, encoding="utf-8") as file:
        return file.read()


def first(pattern: str, path: str) -> str:
    """What the group of a pattern finds first in a file."""
    found = re.search(pattern, read(path), re.M)
    return found[1] if found else kit.stop(f"{path} has nothing of the form {pattern}")


def version() -> str:
    """The program's version, by the file that its texts are made from."""
    return first(r"^version\n    text: (\S+)$", f"{kit.ROOT}/words/program.txt")
