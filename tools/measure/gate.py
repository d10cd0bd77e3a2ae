#!/usr/bin/env python3
"""Where the time of the gate goes, crate by crate.

    python3 -m tools.measure.gate [--here FOLDER] [--table FILE] [--log FILE]

Runs `make gate` in a fresh clone of this repository at HEAD, or in the clone FOLDER, and watches its processes: each check
names its crate in its arguments, works for tests where it has `--test`, and for a must-fail edit where it runs in a
folder of its own outside the repository. Prints, and writes as Markdown where --table names a file, the processor
minutes of each crate's proof, tests and edits, and the minutes that they took by the clock, the longest chain of crates
by the clock, the totals, and the gate's last line. The gate's own output goes to --log (gate.log where it is started).

A process is looked at every fifth of a second until it ends, so of each the last moment is not seen. The total is the
system's own and exact; the row `others` has what no crate was seen to take. A program is compiled as part of its proof.
Ctrl-C ends the gate.
"""
from __future__ import annotations

import argparse
import json
import os
import re
import resource
import signal
import subprocess
import sys
import tempfile
import time

from tools.measure.figures import TOP, origin

PHASES = ("proof", "tests", "edits")
# The parent and the processor seconds of each process.
Processes = dict[int, tuple[int, float]]
# A crate and a phase that a process works for, and the minutes of each.
Task = tuple[str, str]
Minutes = dict[Task, float]
# The crates, each with those of them that it stands on.
Below = dict[str, list[str]]
# Minutes, and the crates that stand on each other.
Chain = tuple[float, list[str]]
# A crate, its processor minutes by phase, their sum, and its wall minutes by phase.
Row = tuple[str, list[float], float, list[float]]
PAUSE = 0.2
TICKS = os.sysconf("SC_CLK_TCK")
MINUTES = f"{TOP}/tools/build/minutes.json"


def crates_below(folder: str) -> Below:
    """The crates of crates.txt, each with those of them that it stands on."""
    listed = {}
    with open(os.path.join(folder, "crates.txt"), encoding="utf-8") as lines:
        for line in lines:
            head, colon, below = line.partition("#")[0].partition(":")
            if colon:
                listed[head.split()[0]] = below.split()
    return {crate: [name for name in below if name in listed] for crate, below in listed.items()}


def stat_of(pid: int) -> tuple[int, float]:
    """The parent of a process, and the processor seconds of it and of its children that have ended."""
    with open(f"/proc/{pid}/stat", "rb") as file:
        fields = file.read().rpartition(b")")[2].split()
    return int(fields[1]), sum(int(field) for field in fields[11:15]) / TICKS


def processes() -> Processes:
    """All processes: the parent and the processor seconds of each."""
    found: Processes = {}
    for name in os.listdir("/proc"):
        if name.isdigit():
            try:
                found[int(name)] = stat_of(int(name))
            except (OSError, ValueError, IndexError):
                pass  # it has ended since
    return found


def descendants(top: int, found: Processes) -> list[int]:
    """The processes below one, nearest first."""
    children: dict[int, list[int]] = {}
    for pid, (parent, _) in found.items():
        children.setdefault(parent, []).append(pid)
    reached = [top]
    for pid in reached:
        reached.extend(children.get(pid, []))
    return reached[1:]


def task_of(pid: int, folder: str) -> Task | None:
    """The crate and the phase that a process works for, by its arguments and its folder; None if it names none."""
    try:
        with open(f"/proc/{pid}/cmdline", "rb") as file:
            words = file.read().decode(errors="replace").split("\0")
        room = os.readlink(f"/proc/{pid}/cwd")
    except OSError:
        return None
    if "--crate-name" in words[:-1]:
        crate = words[words.index("--crate-name") + 1]
        if not (room + "/").startswith(folder + "/"):
            return crate, "edits"
        return crate, "tests" if "--test" in words else "proof"
    program = re.search(r"/rt-run-[^/]*/bin/(\w+?)(_tests)?$", next((word for word in words if "/rt-run-" in word), ""))
    return (program[1], "tests") if program else None


class Watch:
    """What was seen of each process that works for a crate: its task, its seconds, and when it was seen."""

    def __init__(self, folder: str) -> None:
        self.folder = folder
        # By process and task: processor seconds, first seen, last seen.
        self.seen: dict[tuple[int, Task], list[float]] = {}

    def look(self, top: int, now: float) -> None:
        found = processes()
        counted: set[int] = set()
        for pid in descendants(top, found):
            parent, seconds = found[pid]
            if parent in counted:
                counted.add(pid)  # its parent's task has it once it ends, and it works for the same
                task = None
            else:
                task = task_of(pid, self.folder)
            if task:
                counted.add(pid)
                seconds += sum(found[below][1] for below in descendants(pid, found))
                entry = self.seen.setdefault((pid, task), [0.0, now, now])
                entry[0], entry[2] = max(entry[0], seconds), now

    def table(self) -> tuple[Minutes, Minutes]:
        """The processor minutes of each crate and phase, and the wall minutes in which it was worked for."""
        minutes: Minutes = {}
        walls: Minutes = {}
        for (_, task), (seconds, first, last) in self.seen.items():
            minutes[task] = minutes.get(task, 0.0) + seconds / 60
            walls[task] = walls.get(task, 0.0) + (last - first + PAUSE) / 60
        return minutes, walls


def longest_chain(below: Below, walls: Minutes) -> Chain:
    """The chain of crates, each standing on the one before it, whose proofs take the most wall time."""
    best: dict[str, Chain] = {}

    def chain_to(crate: str) -> Chain:
        if crate not in best:
            none: Chain = (0.0, [])
            under = max((chain_to(name) for name in below[crate]), default=none)
            best[crate] = (under[0] + walls.get((crate, "proof"), 0.0), under[1] + [crate])
        return best[crate]

    return max((chain_to(crate) for crate in below), default=(0.0, []))


def watch_to_the_end(gate: subprocess.Popen[bytes], watch: Watch, started: float) -> resource.struct_rusage:
    """Looks at the gate's processes until it ends, and answers what it used. Where this fails, it ends the gate."""
    try:
        while True:
            usage: resource.struct_rusage
            pid, status, usage = os.wait4(gate.pid, os.WNOHANG)
            if pid:
                gate.returncode = os.waitstatus_to_exitcode(status)
                return usage
            watch.look(gate.pid, time.monotonic() - started)
            time.sleep(PAUSE)
    except BaseException:
        # The checks run in a group of their own, whose guard ends them where rt has ended.
        os.killpg(gate.pid, signal.SIGKILL)
        gate.wait()
        raise


def run_gate(folder: str, log: str) -> tuple[Watch, float, float, int]:
    """Runs the gate there and watches it. Answers the watch, the wall seconds, the processor seconds and the status."""
    watch = Watch(os.path.realpath(folder))
    started = time.monotonic()
    with tempfile.TemporaryDirectory(prefix="gate-files-") as room, open(log, "wb") as out:
        os.chmod(room, 0o711)  # programs run as nobody, below this folder
        env = {**os.environ, "TMPDIR": room}
        gate = subprocess.Popen(["make", "-s", "gate"], cwd=folder, env=env, stdin=subprocess.DEVNULL, stdout=out, stderr=out,
                                start_new_session=True)
        usage = watch_to_the_end(gate, watch, started)
    return watch, time.monotonic() - started, usage.ru_utime + usage.ru_stime, gate.returncode


def last_line(log: str) -> str:
    with open(log, encoding="utf-8", errors="replace") as lines:
        return ([line.strip() for line in lines if line.strip()] or ["(it printed nothing)"])[-1]


def rows_of(below: Below, watch: Watch, processor: float) -> list[Row]:
    """The rows of the table: a crate, its processor minutes by phase, their sum, and its wall minutes by phase."""
    minutes, walls = watch.table()
    rows: list[Row] = []
    none = [0.0] * len(PHASES)
    for crate in below:
        own = [minutes.get((crate, phase), 0.0) for phase in PHASES]
        rows.append((crate, own, sum(own), [walls.get((crate, phase), 0.0) for phase in PHASES]))
    rows.sort(key=lambda row: -row[2])
    sums = [sum(row[1][k] for row in rows) for k in range(len(PHASES))]
    rows.append(("others", none, max(processor / 60 - sum(sums), 0.0), none))
    rows.append(("together", sums, processor / 60, none))
    return rows


def markdown(below: Below, watch: Watch, wall: float, processor: float, ended: str) -> str:
    rows = rows_of(below, watch, processor)
    chain_minutes, chain = longest_chain(below, watch.table()[1])
    lines = ["# The gate, crate by crate", "", "Written by `make gate-times`.", "", origin(), ""]
    lines += ["| Crate | Proof | Tests | Edits | Together | Clock: proof | Tests | Edits |", "|---" * 8 + "|"]
    for crate, own, whole, own_walls in rows:
        cells = [f"{minutes:.1f}" if minutes >= 0.05 else "" for minutes in [*own, whole, *own_walls]]
        lines.append(f"| {crate} | {' | '.join(cells)} |")
    lines += ["", f"Processor minutes, and from 'Clock' on minutes by the clock. The gate took {wall:.0f} seconds on "
              f"{len(os.sched_getaffinity(0))} processors, {processor / 60:.1f} processor minutes."]
    lines += ["", f"The longest chain of proofs takes {chain_minutes:.1f} minutes: {', '.join(chain)}."]
    return "\n".join([*lines, "", f"Last line of the gate: `{ended}`", ""])


def write_minutes(rows: list[Row]) -> None:
    """Writes the processor minutes of each crate's proof, by which tools/build/prove.py orders its checks."""
    minutes = {crate: round(own[0], 1) for crate, own, _, _ in rows if own[0] >= 0.05 and crate != "together"}
    with open(MINUTES, "w", encoding="utf-8") as file:
        json.dump(minutes, file, indent=1)
        file.write("\n")


def measure(folder: str, log: str, table: str | None) -> int:
    below = crates_below(folder)
    watch, wall, processor, status = run_gate(folder, log)
    text = markdown(below, watch, wall, processor, last_line(log))
    print(text, end="")
    if table:
        with open(table, "w", encoding="utf-8") as file:
            file.write(text)
        write_minutes(rows_of(below, watch, processor))
    return 0 if status == 0 else 1


def main() -> int:
    options = argparse.ArgumentParser(description="Runs the gate and tells where its time goes, crate by crate.")
    options.add_argument("--here", metavar="FOLDER", help="run in this clone, in place of a fresh one")
    options.add_argument("--table", metavar="FILE", help="write the table here, and minutes.json of tools/build")
    options.add_argument("--log", metavar="FILE", default="gate.log", help="the gate's own output (gate.log)")
    given = options.parse_args()
    signal.signal(signal.SIGTERM, lambda *_: sys.exit(143))
    try:
        if given.here:
            return measure(given.here, given.log, given.table)
        with tempfile.TemporaryDirectory(prefix="gate-") as room:
            clone = os.path.join(room, "clone")
            subprocess.run(["git", "clone", "--quiet", TOP, clone], check=True)
            return measure(clone, given.log, given.table)
    except KeyboardInterrupt:
        print("ended", file=sys.stderr)
        return 130


if __name__ == "__main__":
    sys.exit(main())
