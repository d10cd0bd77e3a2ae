"""The version of the program that a client starts."""
from __future__ import annotations

import os
import subprocess
from collections.abc import Sequence

from .errors import RewindError
from .finding import REPOSITORY

UNRELEASED = "-dev"
SECONDS = 10


def version_of(rewind: str) -> str:
    """The version that a `rewind` prints; one that is no release with the commit of the checkout in which the clients lie."""
    said = output([rewind, "--version"]).split(" ", 1)
    if len(said) != 2 or said[0] != "rewind":
        raise RewindError(f"{rewind} does not tell its version")
    version = said[1]
    commit = output(["git", "-C", REPOSITORY, "rev-parse", "--short", "HEAD"]) if is_unreleased(version) else ""
    return f"{version} ({commit})" if commit else version


def is_unreleased(version: str) -> bool:
    """Whether a version is that of a build between two releases which names no commit, in a checkout of git."""
    return UNRELEASED in version and "+" not in version and os.path.exists(os.path.join(REPOSITORY, ".git"))


def output(words: Sequence[str]) -> str:
    """The first line that a program prints; an empty text where it cannot be run, or fails."""
    try:
        done = subprocess.run(words, capture_output=True, stdin=subprocess.DEVNULL, timeout=SECONDS, check=False)
    except (OSError, subprocess.SubprocessError):
        return ""
    lines = done.stdout.decode("utf-8", "replace").splitlines()
    return lines[0] if done.returncode == 0 and lines else ""
