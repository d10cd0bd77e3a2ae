"""Asks the program whether it accepts a source."""
from __future__ import annotations

import re
import subprocess
import tempfile
from collections.abc import Iterable
from concurrent.futures import ThreadPoolExecutor
from pathlib import Path
from typing import Optional

from rewind_client.finding import find_rewind

SOURCES = sorted(Path(__file__).with_name("refused").glob("*.go"))
TOLD = re.compile(r"rewind: ([SPC]\d+)(?: at (\d+):(\d+))?\n")
Code = tuple[str, int, int]


def source_of(path: Path) -> str:
    """The source in a file, with bytes that are not UTF-8 as surrogate escapes."""
    return path.read_bytes().decode("utf-8", "surrogateescape")


def code_of(source: str) -> Optional[Code]:
    """The code and the place with which a source is refused, or none where it is accepted."""
    with tempfile.NamedTemporaryFile(suffix=".go") as file:
        file.write(source.encode("utf-8", "surrogateescape"))
        file.flush()
        done = subprocess.run([find_rewind(), "--check", file.name], capture_output=True, text=True, check=False)
    told = TOLD.fullmatch(done.stderr)
    assert done.returncode == 0 or told, done.stderr
    return (told.group(1), int(told.group(2) or 0), int(told.group(3) or 0)) if told else None


def checked_all(sources: Iterable[str]) -> list[Optional[Code]]:
    """The codes of some sources."""
    with ThreadPoolExecutor(2) as workers:
        return list(workers.map(code_of, sources))
