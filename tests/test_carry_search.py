"""Programs that were carried over, and all their schedules.

`rewind --search` finds a bad end of each program of carry/testdata that has one among its outcomes, and says of the others that
none ends badly. Two programs are searched in a smaller form. The programs of carry/testdata/races have data races: the race
detector of Go reports each in the long form, and the schedules of the carried program come to more than one outcome, as a lost
update or an odd value.
"""
from __future__ import annotations

import os
import subprocess
from collections.abc import Iterator
from pathlib import Path

import pytest

from support.carried import Schedules, carried
from support.forms import short_first
from support.places import TOP

FOLDER = TOP / "carry" / "testdata"
NONE_BAD, BAD = 0, 4
# States that a search keeps, and how long it may take.
STATES, SECONDS = 1_000_000, 300
# Programs with more states than a test has time for, and what makes them smaller.
WIDE = {
    "fan_in_with_context": (('"a", 2)', '"a", 1)'), ('"b", 2)', '"b", 1)'), ("count == 3", "count == 1")),
    "philosophers": (("const N = 5", "const N = 3"),),
}  # fmt: skip
SCHEDULES = 300
RUNS = 5
PROGRAMS = sorted(it for it in FOLDER.glob("*.go") if it.with_suffix(".outcomes").exists())
RACES = sorted((FOLDER / "races").glob("*.go"))


@pytest.fixture(scope="session", autouse=True)
def carry() -> None:
    """The tool is built of its sources as they are now; Go is installed first, where it is missing."""
    subprocess.run(["make", "-s", "carry"], cwd=TOP, check=True)


@pytest.fixture
def program(path: Path, tmp_path: Path) -> Path:
    """The program to which a source is carried over; of a wide one to which its smaller form is."""
    out, source = tmp_path / path.name, tmp_path / f"{path.stem}_source.go"
    text = path.read_text(encoding="utf-8")
    for wide, small in WIDE.get(path.stem, ()):
        assert wide in text
        text = text.replace(wide, small)
    source.write_text(text, encoding="utf-8")
    done = carried(source, out)
    assert done.returncode == 0, done.stderr
    return out


def ends_badly(path: Path) -> bool:
    """Whether some outcome of a program is a deadlock or a panic."""
    return any(line.split(" / ")[0] != "ended" for line in path.with_suffix(".outcomes").read_text(encoding="utf-8").splitlines())


@pytest.mark.timeout(SECONDS + 60)
@pytest.mark.parametrize("path", short_first(PROGRAMS[::6], PROGRAMS), ids=lambda it: str(it.stem))
def test_bad_ends_are_found(path: Path, program: Path, rewind: str) -> None:
    words = [rewind, "--search", str(program), "--states", str(STATES)]
    done = subprocess.run(words, capture_output=True, text=True, timeout=SECONDS, check=False)
    assert done.returncode == (BAD if ends_badly(path) else NONE_BAD), done.stderr


@pytest.fixture
def schedules(program: Path, rewind: str) -> Iterator[Schedules]:
    found = Schedules(rewind, program)
    yield found
    found.scheduler.end()


@pytest.mark.parametrize("path", short_first(RACES[::4], RACES), ids=lambda it: str(it.stem))
def test_a_race_is_shown(path: Path, schedules: Schedules) -> None:
    """A data race of the source is a difference between schedules of the carried program."""
    assert len(schedules.some(SCHEDULES)) > 1


@pytest.mark.parametrize("path", short_first([], RACES), ids=lambda it: str(it.stem))
def test_a_race_is_one_for_go(path: Path, tmp_path: Path) -> None:
    made = tmp_path / path.stem
    settings = {**os.environ, "GO111MODULE": "off", "CGO_ENABLED": "1"}
    built = subprocess.run(["go", "build", "-race", "-o", made, path], capture_output=True, text=True, env=settings, check=False)
    if built.returncode:
        pytest.skip("this Go has no race detector: " + built.stderr.strip().splitlines()[-1])
    runs = (subprocess.run([made], capture_output=True, text=True, timeout=60, check=False) for _ in range(RUNS))
    assert any("DATA RACE" in run.stderr for run in runs)
