#!/usr/bin/env python3
"""Which functions and proof files of crates took longest in their last check.

    python3 -m tools.measure.slowest [--most N] CRATE..      (folders of crates, as `make` or `rt check` left them)

The toolchain writes each module of a proof when it has checked it. So a module took the time since the one before it. That
holds for a check of one job: with more, modules are checked side by side, and take longer than is told here.

Prints, as Markdown, the N functions and the N proof files that took longest (12 of each), in seconds.
"""
from __future__ import annotations

import argparse
import collections
import os
import re

# What the toolchain writes for a function, beside the files of its folder in proofs/.
PARTS = re.compile(r"(\.(Code|Mir|Statement|Key|Symbol|Layout|Kinds[-0-9]*|Lts[^.]*|Named|Met|Reads|Tie|Proof|Goals|Given"
                   r"|TheLink|TheImpl))+$")
# A module of one of several functions that call each other: the name of their group, which begins with '+', and its own.
MEMBER = re.compile(r"(.*\+\w+)\.Lts-([^.]+)")

Seconds = dict[str, float]
# Seconds, a crate, and a function or a proof file.
Row = tuple[float, str, str]


def modules(crate: str) -> list[tuple[str, float]]:
    """The modules of a crate's last check in the order in which they were written: each with its seconds."""
    found: list[tuple[float, str]] = []
    for folder, _, names in os.walk(f"{crate}/out/incremental"):
        if os.path.basename(folder) != "records":
            found += [(os.path.getmtime(f"{folder}/{name}"), name) for name in names if name.endswith(".oantt")]
    found.sort()
    return [(name.removesuffix(".oantt"), at - before) for (before, _), (at, name) in zip(found, found[1:])]


def file_of(crate: str, module: str) -> str | None:
    """The proof file that a module is, if it is one."""
    path = module.partition("-proofs.")[2].replace(".", "/")
    return f"proofs/{path}.antt" if path and os.path.exists(f"{crate}/proofs/{path}.antt") else None


def seconds_of(crate: str) -> tuple[Seconds, Seconds]:
    """The seconds of each function, or group of functions that call each other, and of each proof file of a crate."""
    functions: Seconds = collections.defaultdict(float)
    files: Seconds = collections.defaultdict(float)
    for module, seconds in modules(crate):
        file, part = file_of(crate, module), module.partition("-proofs.")[2]
        if file:
            files[file] += seconds
        elif part:
            functions[PARTS.sub("", part)] += seconds
    return functions, files


def members_of(crate: str) -> dict[str, set[str]]:
    """The functions of each group of a crate."""
    groups: dict[str, set[str]] = collections.defaultdict(set)
    for module, _ in modules(crate):
        member = MEMBER.match(module.partition("-proofs.")[2])
        if member:
            groups[member[1]].add(member[2])
    return groups


def shown(name: str, members: set[str] | None) -> str:
    """A function, a group with the number of its functions, or a proof file, as a cell of the table."""
    return f"`{name}`, {len(members)} functions that call each other" if members else f"`{name}`"


def table(heading: str, rows: list[Row]) -> str:
    lines = [f"| {crate} | {name} | {seconds:.1f} |" for seconds, crate, name in rows]
    return "\n".join([f"| Crate | {heading} | Seconds |", "|---|---|---|", *lines])


def main() -> None:
    options = argparse.ArgumentParser(description="Which functions and proof files took longest in the last check of crates.")
    options.add_argument("--most", type=int, default=12, metavar="N", help="how many of each are told (12)")
    options.add_argument("crates", nargs="+", metavar="CRATE", help="the folder of a crate")
    given = options.parse_args()
    functions: list[Row] = []
    files: list[Row] = []
    for crate in given.crates:
        name, groups = os.path.basename(os.path.abspath(crate)), members_of(crate)
        for rows, seconds in zip((functions, files), seconds_of(crate)):
            rows += [(each, name, shown(what, groups.get(what))) for what, each in seconds.items()]
    for heading, rows in (("Function", functions), ("Proof file", files)):
        print(table(heading, sorted(rows, reverse=True)[:given.most]), end="\n\n")


if __name__ == "__main__":
    main()
