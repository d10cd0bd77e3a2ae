"""The command line of `rewind-carry`: its help, its version, and what is wrong with one."""
from __future__ import annotations

import re
import subprocess

import pytest
from rewind_client.meanings import VERSION

from support.carried import CARRY
from support.places import TOP


@pytest.fixture(scope="session", autouse=True)
def carry() -> None:
    """The tool is built of its sources as they are now; Go is installed first, where it is missing."""
    subprocess.run(["make", "-s", "carry"], cwd=TOP, check=True)


def said(*words: str) -> subprocess.CompletedProcess[str]:
    return subprocess.run([CARRY, *words], capture_output=True, text=True, timeout=20, check=False)


def test_help_tells_each_option_of_the_usage() -> None:
    done = said("--help")
    assert (done.returncode, done.stderr) == (0, "")
    usage, rest = done.stdout.split("\n", 1)
    assert set(re.findall(r"\[(--?[a-z]+)", usage)) <= set(re.findall(r"^  (?:-h, )?(--?[a-z]+)", rest, re.M))
    assert said("-h").stdout == done.stdout


def test_its_version_is_that_of_rewind() -> None:
    assert said("--version").stdout == f"rewind-carry {VERSION}\n"


@pytest.mark.parametrize("words", [[], ["--nope", "x.go"], ["a.go", "b.go"], ["--go", "two", "a.go"], ["there_is_none.go"]], ids=" ".join)
def test_a_wrong_command_line_is_told_in_a_line(words: list[str]) -> None:
    done = said(*words)
    assert (done.returncode, done.stdout) == (2, "") and done.stderr.startswith("rewind-carry: ") and done.stderr.count("\n") == 1
