"""The page in headless Chromium, in the short form: the example sessions byte for byte, and one story by clicks.

The page is made where it is missing or, of the quick build, out of date. What the test needs of Debian is installed where that is
missing. Where that cannot be done, the test is skipped; it fails if the variable CI is set.
"""
from __future__ import annotations

import os
import subprocess
from pathlib import Path

import pytest

from support.places import TOP

PACKAGES = ["chromium", "nodejs", "libjs-codemirror", "esbuild", "node-typescript", "eslint"]
TARGETS = {TOP / "bin" / "rewind": "page", TOP / "bin" / "rewind-quick": "quick-page"}


def run(*words: str) -> "tuple[int, str]":
    """The exit status of a command, and what it writes. It is told nothing of a `make` that runs this test."""
    env = {name: value for name, value in os.environ.items() if not name.startswith("MAKE")}
    ran = subprocess.run(
        words, cwd=TOP, env=env, stdin=subprocess.DEVNULL, stdout=subprocess.PIPE, stderr=subprocess.STDOUT, text=True, errors="replace", check=False
    )
    return ran.returncode, ran.stdout


@pytest.fixture(scope="module")
def page(rewind: str) -> str:
    """The page of the program."""
    target = TARGETS.get(Path(rewind))
    if target is None:
        pytest.skip("a page is made of this repository's programs alone")
    status, said = run("page/needs.sh", *PACKAGES)
    if status:
        why = said.strip().splitlines()[-1]
        assert not os.environ.get("CI"), why
        pytest.skip(why)
    path = f"{rewind}.html"
    if target == "quick-page" or not os.path.exists(path):
        status, said = run("make", target)
        assert status == 0, said
    return path


@pytest.mark.long
@pytest.mark.timeout(900)
def test_the_page(page: str) -> None:
    status, said = run("page/test.sh", page, "--short")
    assert status == 0, said
