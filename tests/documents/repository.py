"""The files of the repository."""
from __future__ import annotations

import functools
import os
import shutil
import subprocess
from typing import Optional

ROOT = os.path.dirname(os.path.dirname(os.path.dirname(os.path.abspath(__file__))))
SESSIONS = os.path.join("crates", "sessions", "data")
MADE = ("bin", "out", "page/out", ".git", "__pycache__")


def path_of(name: str) -> str:
    return os.path.join(ROOT, name)


def exists(name: str) -> bool:
    return os.path.exists(path_of(name))


@functools.lru_cache(maxsize=None)
def read(name: str) -> str:
    with open(path_of(name), encoding="utf-8") as file:
        return file.read()


def at(commit: str, name: str) -> Optional[str]:
    """A file as it was at a commit; None where git does not have that."""
    if not exists(".git") or not shutil.which("git"):
        return None
    told = subprocess.run(["git", "-C", ROOT, "show", f"{commit}:{name}"], stdout=subprocess.PIPE, stderr=subprocess.DEVNULL, text=True)
    return told.stdout if told.returncode == 0 else None


def is_made(name: str) -> bool:
    """Whether a path lies in a folder that `make` fills."""
    parts = name.split("/")
    return any(name == it or name.startswith(it + "/") or it in parts for it in MADE)


def walked() -> list[str]:
    """All files but those that are made."""
    found: list[str] = []
    for folder, below, names in os.walk(ROOT):
        here = os.path.relpath(folder, ROOT)
        below[:] = [it for it in below if not is_made(os.path.normpath(os.path.join(here, it)))]
        found += [os.path.normpath(os.path.join(here, it)) for it in names]
    return found


@functools.lru_cache(maxsize=None)
def files() -> list[str]:
    """The files that git knows or would add; where there is no git, all that are not made."""
    words = ["git", "-C", ROOT, "ls-files", "--cached", "--others", "--exclude-standard"]
    if not exists(".git") or not shutil.which("git"):
        return sorted(walked())
    told = subprocess.run(words, stdout=subprocess.PIPE, text=True, check=True)
    return sorted({it for it in told.stdout.splitlines() if exists(it)})


@functools.lru_cache(maxsize=None)
def folders() -> set[str]:
    """Every folder that has a file somewhere below it."""
    found = set()
    for name in files():
        while "/" in name:
            name = name.rpartition("/")[0]
            found.add(name)
    return found


@functools.lru_cache(maxsize=None)
def documents() -> list[str]:
    """Every Markdown file."""
    return [name for name in files() if name.endswith(".md")]


@functools.lru_cache(maxsize=None)
def crates() -> list[str]:
    """The names of the crates."""
    return sorted({name.split("/")[1] for name in files() if name.startswith("crates/") and name.count("/") > 1})


@functools.lru_cache(maxsize=None)
def session_names() -> list[str]:
    """The names of the example sessions."""
    return sorted(os.path.basename(it)[:-3] for it in files() if os.path.dirname(it) == SESSIONS and it.endswith(".go"))


@functools.lru_cache(maxsize=None)
def make_targets() -> set[str]:
    """The targets of the Makefile."""
    found = set()
    for line in read("Makefile").splitlines():
        head, colon, rest = line.partition(":")
        if colon and head and not line[0].isspace() and not line.startswith("#") and not rest.startswith("="):
            found.update(head.split())
    return found - {".PHONY"}
