"""Tests that are written in crates, as `rt try` builds them, without proofs; and each growth in some of them refused.

`races` is a program: it races two desks and four workers twice over each of four sources, once with commands that are drawn.
"""
from __future__ import annotations

import re
import subprocess

import pytest

from support.places import TOP

# Desks, workers, commands of each desk, races.
RACE = ["2", "4", "1000", "2"]
SECONDS = 900


def said_by(words: list[str], folder: str) -> str:
    """What a command writes, which must end well."""
    ran = subprocess.run(
        words, cwd=TOP / folder, stdin=subprocess.DEVNULL, stdout=subprocess.PIPE, stderr=subprocess.STDOUT, text=True, errors="replace", check=False
    )
    assert ran.returncode == 0, ran.stdout
    return ran.stdout


@pytest.mark.long
@pytest.mark.timeout(SECONDS)
@pytest.mark.parametrize("crate", ["test_sessions", "test_parts"])
def test_a_crate(crate: str) -> None:
    said = said_by(["rt", "try", "--test"], f"crates/{crate}")
    ends = re.findall(r"^test (\S+) \.\.\. (\w+)", said, re.M)
    assert ends and all(end == "ok" for _, end in ends), said


@pytest.mark.long
@pytest.mark.timeout(SECONDS)
def test_races() -> None:
    sources = sorted(str(path) for path in (TOP / "crates" / "races").glob("data/*.go"))
    said = said_by(["rt", "try", "--", *RACE, *sources], "crates/races")
    found = re.findall(r"^\S+\.go: (\d+) of (\d+) alike", said, re.M)
    assert len(found) == len(sources) and all(alike == races for alike, races in found), said


@pytest.mark.long
@pytest.mark.timeout(SECONDS)
def test_growths_of_channels_refused() -> None:
    said_by(["tests/refusals.sh"], ".")
