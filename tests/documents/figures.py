"""Figures: the tables of `bench` have a row for each bench and each crate of their commit, and COMPARED says of a step what they say."""
from __future__ import annotations

import math
import re

from . import repository
from .checks import Checks

BENCHES = ("steps", "core", "rollback", "workers", "channels", "front")
RESULTS, GATE, COMPARED = "bench/RESULTS.md", "bench/GATE.md", "docs/COMPARED.md"


def rows(name: str) -> list[list[str]]:
    """The rows of the tables of a document, each as its cells."""
    lines = repository.read(name).splitlines()
    return [[cell.strip() for cell in line.strip("|").split("|")] for line in lines if line.startswith("|")]


def check_gate(checks: Checks) -> None:
    """The table of the gate has a row for each crate that there was at its commit."""
    commit = rows(GATE)[2][1]
    told = repository.at(commit, "crates.txt")
    if told is None:
        checks.skip(GATE, f"git does not have {commit}")
        return
    crates = [line.split(":")[0].split()[0] for line in told.splitlines() if ":" in line and not line.startswith("#")]
    after = [row[0] for row in rows(GATE) if len(row) == 8 and not row[0].startswith("---")]
    checks.same_sets(GATE, "crates", crates, [name for name in after if name not in ("Crate", "others", "together")])


def check_step(checks: Checks) -> None:
    """What a step takes, from the least to the most of the programs that are measured."""
    steps = [re.match(r"(\d+) ns a step, .*?([\d.]+) bytes a step", row[2]) for row in rows(RESULTS) if row[0] == "core"]
    times, sizes = zip(*((int(step[1]) / 1000, float(step[2])) for step in steps if step))
    sizes_told = f"{min(sizes):.0f} to {math.ceil(max(sizes))} bytes"
    wanted = f"{sizes_told}, {min(times):.1f} to {max(times):.1f} microseconds a step"
    checks.holds(COMPARED, wanted in repository.read(COMPARED), f"of a step it does not say '{wanted}', as {RESULTS} does")


def check_benches(checks: Checks) -> None:
    """The table of results has a row for each bench."""
    found = [row[0] for row in rows(RESULTS)]
    checks.same_sets(RESULTS, "benches", BENCHES, {name for name in found if name in BENCHES})


PARTS = (check_benches, check_gate, check_step)
