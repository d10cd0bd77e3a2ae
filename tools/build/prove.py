#!/usr/bin/env python3
"""Proves a program and the crates that it stands on, and says how far it is.

    python3 -m tools.build.prove CRATE PROGRAM [WORD..]      (runs it once, with these words)

Each crate is proved once those below it are, beside others where there are processors for that (RT_JOBS says how many).
Leaves the program as PROGRAM, and what the toolchain says in make.log beside it. What is proved already stays proved.

The toolchain keeps a crate and all below it to itself while it proves one. So crates that are proved side by side have a
room each: a folder with a copy of the sources, to which the libraries below are lent. No file of a room changes, so the stamp
of a crate is made once for each command there. What was proved in a room is moved here, and noted for checks in other clones.
"""
import argparse
import functools
import json
import os
import shutil
import subprocess
import tempfile
import time
from typing import Any, Protocol, TextIO

from tools import kit

# The jobs of the check on which most depends; each other check has one. Each job reads the libraries below for itself, and a
# check begins new jobs several times. So only a crate that stands on few others has two.
JOBS_OF_THE_FIRST = 2
FEW_BELOW = 20
# How far other checks stand back behind the first one.
STANDS_BACK = 10
# What stands beside the longest chain is done long before its end.
MOST_ROOMS = 3
RT = f"{kit.ROOT}/tools/build/rt_once.py"
# The minutes of a crate that tools/build/minutes.json does not have. There are those of each crate's proof, by the last
# `make gate-times`.
UNTOLD = 0.1
# The memory for which there may be a room: two jobs of some 2.3 GB.
ROOM_BYTES = 5 << 30


class Crate(Protocol):
    """A crate of the repository, as the toolchain's module knows it."""

    name: str
    folder: str
    deps: list["Crate"]

    def is_built(self) -> bool:
        """Whether it is proved, and its files are those that were."""

    def stamp(self) -> str:
        """What stands for its files, and for those of the crates below it."""


def order(crate: Crate, found: list[Crate]) -> list[Crate]:
    """Adds the libraries below a crate that the repository has to those found already, lowest first."""
    for it in crate.deps:
        if it not in found:
            found = [*order(it, found), it]
    return found


def times() -> dict[str, float]:
    """The processor minutes of each crate's proof."""
    with open(f"{kit.ROOT}/tools/build/minutes.json", encoding="utf-8") as file:
        told: dict[str, float] = json.load(file)
    return told


def heights(crates: list[Crate]) -> dict[Crate, float]:
    """For each crate, the minutes of the longest chain of those given that begins with it, each standing on the one before it."""
    told = times()
    minutes = {crate: told.get(crate.name, UNTOLD) for crate in crates}
    height = dict(minutes)
    for crate in reversed(crates):
        for below in crate.deps:
            if below in height:
                height[below] = max(height[below], minutes[below] + height[crate])
    return height


class Room:
    """A folder in which one crate at a time is proved."""

    def __init__(self, place: str) -> None:
        shutil.copytree(f"{kit.ROOT}/crates", f"{place}/crates", ignore=shutil.ignore_patterns("out"))
        shutil.copy(f"{kit.ROOT}/crates.txt", place)
        self.place = place

    def folder(self, crate: Crate) -> str:
        return f"{self.place}/crates/{crate.name}"

    def take_in(self, crate: Crate) -> None:
        """Lends the libraries below a crate, and moves here what was kept of earlier checks of it."""
        for below in order(crate, []):
            lent = f"{self.folder(below)}/out/rlib"
            if not os.path.isdir(lent):
                shutil.copytree(f"{below.folder}/out/rlib", lent, copy_function=os.link)
        if os.path.isdir(f"{crate.folder}/out"):
            os.rename(f"{crate.folder}/out", f"{self.folder(crate)}/out")

    def give_back(self, crate: Crate) -> None:
        if os.path.isdir(f"{self.folder(crate)}/out"):
            os.rename(f"{self.folder(crate)}/out", f"{crate.folder}/out")


class Check:
    """A crate's check while it runs in a room, with what it has said so far. The processors serve one that leads first."""

    def __init__(self, crate: Crate, room: Room, jobs: int, leads: bool) -> None:
        self.crate, self.room = crate, room
        self.said = tempfile.TemporaryFile("w+", encoding="utf-8", errors="replace")
        room.take_in(crate)
        words = [RT, "lib", "--jobs", str(jobs)]
        if not leads:
            words = ["nice", "-n", str(STANDS_BACK), *words]
        self.process = subprocess.Popen(words, cwd=room.folder(crate), stdin=subprocess.DEVNULL, stdout=self.said,
                                        stderr=subprocess.STDOUT)

    def end(self, log: TextIO) -> bool:
        """Whether it ended well. Adds what it said to the log."""
        ended = self.process.wait()
        self.room.give_back(self.crate)
        self.said.seek(0)
        log.write(f"rt lib in {self.crate.folder}\n")
        shutil.copyfileobj(self.said, log)
        log.flush()
        self.said.close()
        return ended == 0


def note(rt: Any, crate: Crate) -> None:
    """Notes where the kept work of a proved crate is, so that checks in other clones on this machine begin with it."""
    rt.offer(crate, crate.stamp())


class Prover:
    """The crates that wait for their proof, and the checks that run."""

    def __init__(self, rt: Any, crates: list[Crate], rooms: list[Room], processors: int, log: TextIO) -> None:
        self.rt, self.waiting, self.rooms, self.processors, self.log = rt, list(crates), rooms, processors, log
        self.running: list[Check] = []
        self.height, self.count, self.start = heights(crates), len(crates), time.monotonic()

    def minutes(self) -> str:
        return f"{(time.monotonic() - self.start) / 60:.1f} minutes"

    def ready(self) -> list[Crate]:
        """The crates that stand on proved ones alone, those with most above them first."""
        unproved = {*self.waiting, *(it.crate for it in self.running)}
        free = [it for it in self.waiting if not unproved.intersection(order(it, []))]
        return sorted(free, key=lambda it: -self.height[it])

    def begin(self, crate: Crate) -> None:
        """Begins a check. The crate with the longest chain above it, of those that wait or run, leads."""
        others = [*self.waiting, *(it.crate for it in self.running)]
        leads = all(self.height[crate] >= self.height[it] for it in others)
        reads_few = len(order(crate, [])) <= FEW_BELOW
        jobs = min(JOBS_OF_THE_FIRST, self.processors) if leads and reads_few else 1
        number = self.count - len(self.waiting) + 1
        print(f"crate {number} of {self.count}: {crate.name} ({self.minutes()} so far)", flush=True)
        self.waiting.remove(crate)
        self.running.append(Check(crate, self.rooms.pop(), jobs, leads))

    def begin_those_ready(self) -> None:
        """Begins as many checks as there are rooms."""
        for crate in self.ready()[:len(self.rooms)]:
            self.begin(crate)

    def end(self, check: Check) -> None:
        """Ends the program where the check did not end well, once the others have ended."""
        self.running.remove(check)
        self.rooms.append(check.room)
        if not check.end(self.log):
            for other in self.running:
                other.end(self.log)
            kit.fail(f"{check.crate.name} is not proved: see {self.log.name}")
        note(self.rt, check.crate)

    def prove(self) -> None:
        while self.waiting or self.running:
            self.begin_those_ready()
            time.sleep(0.1)
            for check in [it for it in self.running if it.process.poll() is not None]:
                self.end(check)


def memory() -> int:
    """The bytes of memory of this machine."""
    return os.sysconf("SC_PAGE_SIZE") * os.sysconf("SC_PHYS_PAGES")


def run(program: Crate, room: Room, words: list[str], log: TextIO) -> bool:
    """Whether the toolchain proves the program in the room, and runs it well."""
    log.write(f"rt run in {program.folder}\n")
    log.flush()
    room.take_in(program)
    said = subprocess.run([RT, "run", "--", *words], cwd=room.folder(program), stdin=subprocess.DEVNULL, stdout=log,
                          stderr=subprocess.STDOUT)
    room.give_back(program)
    return said.returncode == 0


def prove_all(rt: Any, program: Crate, words: list[str], processors: int, log: TextIO) -> None:
    """Proves the crates that are not proved yet, and then the program."""
    crates = order(program, [])
    count = max(1, min(processors, MOST_ROOMS, memory() // ROOM_BYTES))
    with tempfile.TemporaryDirectory(prefix="rooms-", dir=os.path.dirname(log.name)) as place:
        rooms = [Room(f"{place}/{number}") for number in range(count)]
        unproved = [it for it in crates if not it.is_built()]
        for crate in crates:
            if crate not in unproved:
                note(rt, crate)
        prover = Prover(rt, unproved, rooms, processors, log)
        prover.prove()
        print(f"the program: {program.name} ({prover.minutes()} so far)", flush=True)
        if not run(program, rooms[0], words, log):
            kit.fail(f"{program.name} is not proved: see {log.name}")
    print(f"proved in {prover.minutes()}")


def main() -> None:
    parser = argparse.ArgumentParser(description="Proves a program and the crates that it stands on, and says how far it is.")
    parser.add_argument("crate", metavar="CRATE")
    parser.add_argument("program", metavar="PROGRAM")
    parser.add_argument("words", metavar="WORD", nargs=argparse.REMAINDER, help="it is run once with these words")
    asked = parser.parse_args()
    name, out = asked.crate, os.path.abspath(asked.program)
    kit.writable(out)
    place = f"{kit.ROOT}/crates/{name}"
    if not os.path.isdir(place):
        kit.stop(f"there is no crate {name}")
    processors = int(os.environ.get("RT_JOBS") or len(os.sched_getaffinity(0)))
    rt = kit.command(kit.folder())
    library = rt.rtlib
    # A stamp is made of those of all crates below: each is made once.
    library.Crate.stamp = functools.lru_cache(maxsize=None)(library.Crate.stamp)
    os.chdir(place)
    program = library.Crate(place, kit.ROOT, {}, ())
    with open(f"{os.path.dirname(out)}/make.log", "a", encoding="utf-8") as log:
        prove_all(rt, program, asked.words, processors, log)
    shutil.copy(f"{place}/out/{name}", f"{out}.part")
    os.replace(f"{out}.part", out)


main()
