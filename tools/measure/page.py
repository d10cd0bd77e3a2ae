#!/usr/bin/env python3
"""How soon the page is painted, and how much memory it takes in a log of 1,000,000 steps, in headless Chromium.

    python3 -m tools.measure.page PAGE [--table FILE]

Prints, and writes as Markdown where --table names a file, what page/test/figures.mjs tells of the page. Times depend on what
else the machine does: leave it alone. The status is 1 where an aim is missed.
"""
from __future__ import annotations

import argparse
import os
import subprocess
import sys

from tools.measure.figures import TOP, origin, told


def markdown(lines: list[str]) -> str:
    """The figures as a table."""
    what = (
        "Written by `make page-figures`. The processes are those of the browser for pages. Their memory has what they share with others, "
        "too, which is the larger part before a run."
    )
    head = ["# The page", "", what, "", origin(Browser=told("chromium", "--version")), "", "| What | Figure |", "|---|---|"]
    rows = [f"| {name} | {figure.strip()} |" for name, _, figure in (line.partition(":") for line in lines)]
    return "\n".join([*head, *rows, ""])


def main() -> int:
    options = argparse.ArgumentParser(description=__doc__.splitlines()[0])
    options.add_argument("page")
    options.add_argument("--table", metavar="FILE", help="write the table here, as Markdown")
    given = options.parse_args()
    ran = subprocess.run(["node", f"{TOP}/page/test/figures.mjs", os.path.realpath(given.page)], stdout=subprocess.PIPE, text=True)
    print(ran.stdout, end="")
    if given.table and ran.stdout:
        with open(given.table, "w", encoding="utf-8") as file:
            file.write(markdown(ran.stdout.splitlines()))
    return ran.returncode


if __name__ == "__main__":
    sys.exit(main())
