"""The program `rewind-hunt`: a hunt in each file, and its report."""
from __future__ import annotations

import json
import sys
from collections.abc import Iterable, Sequence
from typing import Optional, TextIO

from rewind_client.carried import left_of
from rewind_client.errors import ProcessError, RewindError, SourceRefused
from rewind_client.opening import carried_over
from rewind_client.program import Program, read_program
from rewind_client.refusals import explain_refusal
from rewind_client.searching import DEADLOCK, Answer, Searched, search
from rewind_client.versions import version_of
from rewind_shell.saving import write_script

from .files import File, readable
from .hunting import Found, Hunt, hunt
from .options import Form, Wanted, wanted
from .outcomes import Kind
from .records import Record, Told, failure, record_of, sarif
from .report import Report, by_search, last_line
from .scripts import Reducer
from .shortening import Short, Shortener
from .story import Story
from .ways import Ways

NOTHING, SOMETHING, FAULT, OPEN = 0, 1, 2, 3
# Of several files the first of these that came counts.
WORST = (FAULT, SOMETHING, OPEN, NOTHING)
BAR = 30
# So many things that were found get a script, unless all are wanted.
TOLD = 3
# So long all schedules are searched first, before some are taken by chance.
SEARCH_SECONDS = 1.0


def main(words: list[str]) -> int:
    try:
        given = wanted(words)
        if given.version:
            print(f"rewind-hunt {version_of(given.rewind)}")
            return NOTHING
    except RewindError as fault:
        return failed(str(fault))
    if given.form is not Form.TEXT:
        return recorded(given)
    statuses = [in_file(given, name, number) for number, name in enumerate(given.files)]
    return worst(statuses)


def worst(statuses: Sequence[int]) -> int:
    return next(status for status in WORST if status in statuses)


def recorded(given: Wanted) -> int:
    """Hunts in all files, and writes what was found as data: the exit status."""
    records = []
    for name in given.files:
        records.append(record_in(given, name))
        if given.form is Form.JSON:
            say([json.dumps(records[-1])])
    if given.form is Form.SARIF:
        say([json.dumps(sarif(records, version_of(given.rewind)), indent=1)])
    return worst([record["status"] for record in records])


def record_in(given: Wanted, name: str) -> Record:
    """What is found in one file, or why nothing was hunted there."""
    try:
        with readable(name) as file:
            return Teller(given, file).record()
    except RewindError as fault:
        return failure(name, FAULT, str(fault).replace("\n", " "))


def failed(why: str) -> int:
    print(f"rewind-hunt: {why}", file=sys.stderr)
    return FAULT


def in_file(given: Wanted, name: str, number: int) -> int:
    """Hunts in one file: the exit status."""
    try:
        with readable(name) as file:
            try:
                if number:
                    print()
                return Teller(given, file).status()
            except SourceRefused as refused:
                text = read_program(file.path).bytes.decode("utf-8", "surrogateescape")
                told = explain_refusal(text, refused.code, refused.line, refused.column).text(file.name)
                print("\n".join([told, *left_of(refused)]), file=sys.stderr)
    except RewindError as fault:
        return failed(str(fault))
    return FAULT


class Teller:
    """Hunts, and tells what was found."""

    def __init__(self, given: Wanted, file: File) -> None:
        self.given = given
        self.plan = given.plan(file)
        self.program = self.accepted(file)

    def accepted(self, file: File) -> Program:
        """The program, or that to which it is carried over, which then takes its place in the file."""
        try:
            self.plan.begin().process.end()
            return read_program(file.path)
        except SourceRefused as refused:
            program = carried_over(file.path, file.name, refused)
        file.replace(program.bytes)
        print(f"rewind-hunt: {program.told()}", file=sys.stderr)
        return program

    def searched(self) -> Optional[Searched]:
        """What a search of all schedules tells; nothing where the `rewind` makes none."""
        try:
            return search(self.plan.rewind, self.plan.path, seconds=SEARCH_SECONDS)
        except ProcessError:
            return None

    def hunted(self) -> Hunt:
        progress = Progress(len(self.plan.numbers()), sys.stderr)
        found = hunt(self.plan, progress.told)
        progress.clear()
        return found

    def record(self) -> Record:
        """All of it as data."""
        searched, found = self.searched(), self.hunted()
        report, reducer, told = Report(found, self.program, True), Reducer(found, self.program), []
        try:
            for one, outcomes in found.groups().items():
                short = Shortener(reducer, one, outcomes).short()
                way = Ways(reducer, short.commands, one).search().way if short and one.kind is not Kind.UNENDED else None
                told.append(Told(one, outcomes, short, way))
        finally:
            reducer.end()
        is_bad = bool(told) or bool(searched and is_found_by_search(searched, found))
        return record_of(found, told, report, searched, SOMETHING if is_bad else OPEN if found.is_open() else NOTHING)

    def status(self) -> int:
        """Tells all of it: the exit status."""
        searched, found = self.searched(), self.hunted()
        report = Report(found, self.program, self.given.full)
        say(report.summary())
        bad = list(found.groups())
        self.tell_scripts(found, report, bad)
        is_more = bool(searched and is_found_by_search(searched, found))
        if searched and is_more:
            say(["", *by_search(searched, self.given.full)])
        say(["", last_line(searched)])
        return SOMETHING if bad or is_more else OPEN if found.is_open() else NOTHING

    def tell_scripts(self, found: Hunt, report: Report, bad: list[Found]) -> None:
        """The commands to what is bad, and where the user wants that to each different output."""
        groups = found.groups()
        told = bad if self.given.full else bad[:TOLD]
        reducer = Reducer(found, self.program)
        path, most = self.given.script, report.most_why(len(told))
        try:
            for one in told:
                short = Shortener(reducer, one, groups[one]).short()
                say(["", report.title(one, groups[one]), *self.behind(reducer, report, one, short, most)])
                path = self.kept(path, short)
            if len(bad) > len(told):
                say(["", f"{len(bad) - len(told)} things more were found: --full shows them"])
            for outcomes in found.outputs().values() if self.given.each else ():
                one = Found(Kind.OUTPUT)
                short = Shortener(reducer, one, outcomes).short()
                say(["", report.output_title(outcomes), *report.in_short(short)])
                path = self.kept(path, short)
        finally:
            reducer.end()

    def behind(self, reducer: Reducer, report: Report, found: Found, short: Optional[Short], most: int) -> list[str]:
        """The commands to what was found, where to go back, and why the program stands as it does behind them."""
        lines = list(report.in_short(short))
        if short is None:
            return lines
        if found.kind is not Kind.UNENDED:
            if self.given.full:
                lines += report.step_by_step(short.script, Story(self.plan.begin, self.program).told(short.script))
            lines.append(report.way(Ways(reducer, short.commands, found).search(), found))
        return lines + report.why(reducer, short.commands, found, most)

    def kept(self, path: Optional[str], short: Optional[Short]) -> Optional[str]:
        """Writes the first script, if it is wanted; the file that is still to be written."""
        if not path or short is None:
            return path
        write_script(path, short.commands, self.program)
        return None


def is_found_by_search(searched: Searched, found: Hunt) -> bool:
    """Whether the search has come to a bad end that counts, and no schedule that was taken to one of its kind."""
    kind = Kind.DEADLOCK if DEADLOCK in searched.sentence else Kind.PANIC
    met = {one.kind for outcome in found.outcomes for one in found.against(outcome)}
    return searched.answer is Answer.BAD and kind not in met and kind not in found.plan.ignored


def say(lines: Iterable[str]) -> None:
    """Writes lines as they come: the next ones may take seconds."""
    for line in lines:
        print(line)
    sys.stdout.flush()


class Progress:
    """A bar at a terminal, and nothing elsewhere."""

    def __init__(self, runs: int, out: TextIO) -> None:
        self.runs = runs
        self.out = out
        self.shown = out.isatty()
        self.last = -1
        self.bad = 0

    def told(self, found: Hunt) -> None:
        count = len(found.outcomes)
        self.bad += not found.is_well(found.outcomes[-1])
        share = count * 100 // self.runs
        if not self.shown or share == self.last:
            return
        self.last = share
        filled = "#" * (BAR * count // self.runs)
        self.out.write(f"\r[{filled:{BAR}}] {count} of {self.runs}, {self.bad} bad")
        self.out.flush()

    def clear(self) -> None:
        """Takes the bar away."""
        if self.shown:
            self.out.write("\r" + " " * (BAR + 40) + "\r")
            self.out.flush()
