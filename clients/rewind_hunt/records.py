"""What a hunt found as data: an object for each file, and all of them as SARIF 2.1.0 for the review of code."""
from __future__ import annotations

from collections.abc import Iterator, Sequence
from typing import Any, NamedTuple, Optional

from rewind_client.searching import Answer, Searched

from .hunting import Found, Hunt
from .outcomes import Kind, Outcome, Spot
from .report import Report
from .shortening import Short
from .ways import WayBack

Record = dict[str, Any]
ANSWERS = {Answer.NONE_BAD: "no schedule ends badly", Answer.BAD: "a schedule ends badly", Answer.NOT_FINISHED: "not finished"}
SCHEMA = "https://json.schemastore.org/sarif-2.1.0.json"
RULES = {
    Kind.PANIC: "A schedule ends in a panic.",
    Kind.DEADLOCK: "In a schedule no goroutine can go on.",
    Kind.UNENDED: "A schedule does not end.",
    Kind.LEAK: "In a schedule a goroutine never ends.",
    Kind.OUTPUT: "A schedule prints something else than is expected.",
}


class Told(NamedTuple):
    """Something that was found, with its schedules, the fewest commands to it, and where to go back behind them."""

    found: Found
    outcomes: Sequence[Outcome]
    short: Optional[Short]
    way: Optional[WayBack]


def record_of(hunted: Hunt, told: Sequence[Told], report: Report, searched: Optional[Searched], status: int) -> Record:
    """What was found in a file, and what a search of all its schedules told, where there was one."""
    return {
        "file": hunted.plan.name,
        "status": status,
        "search": search_as(searched) if searched else None,
        "seed": hunted.plan.seed,
        "schedules": len(hunted.outcomes),
        "ends": list(ends(hunted, report)),
        "schedulers": list(schedulers(hunted)),
        "found": [found_as(report, one) for one in told],
    }


def search_as(searched: Searched) -> Record:
    """What a search of all schedules told, with how many states it saw where none ends badly."""
    return {"answer": ANSWERS[searched.answer], "states": searched.states, "commands": list(searched.commands)}


def ends(hunted: Hunt, report: Report) -> Iterator[Record]:
    """The ways to end, with how many schedules came to each."""
    for row, outcomes in hunted.rows().items():
        yield {
            "end": row.end.value,
            "fault": row.fault,
            "lines": report.lines(row.spots),
            "leaks": row.leaks,
            "printed": list(outcomes[0].console),
            "times": len(outcomes),
        }


def schedulers(hunted: Hunt) -> Iterator[Record]:
    for name in hunted.plan.schedulers:
        own = [it for it in hunted.outcomes if hunted.plan.scheduler_of(it.number) == name]
        yield {"scheduler": name, "schedules": len(own), "bad": sum(not hunted.is_well(it) for it in own)}


def found_as(report: Report, told: Told) -> Record:
    back = {"step": told.way.step, "commands": list(told.way.commands)} if told.way else None
    return {
        "kind": told.found.kind.value,
        "fault": told.found.fault,
        "places": [place_of(report, spot) for spot in told.found.spots],
        "times": len(told.outcomes),
        "message": report.title(told.found, told.outcomes),
        "commands": list(told.short.commands) if told.short else None,
        "back": back,
    }


def place_of(report: Report, spot: Spot) -> Record:
    functions, line = report.program.outside(spot.functions, spot.line)
    return {"function": functions[0] if functions else "", "line": report.program.shown(line)}


def failure(name: str, status: int, why: str) -> Record:
    """A file in which nothing was hunted."""
    return {"file": name, "status": status, "error": why}


def sarif(records: Sequence[Record], version: str) -> Record:
    """All that was found, as a log of SARIF."""
    rules = [{"id": kind.value, "shortDescription": {"text": text}} for kind, text in RULES.items()]
    driver = {"name": "rewind-hunt", "version": version, "rules": rules}
    results = [result(record["file"], found) for record in records for found in record.get("found", [])]
    failures = [{"level": "error", "message": {"text": f"{it['file']}: {it['error']}"}} for it in records if "error" in it]
    invocation = {"executionSuccessful": not failures, "toolExecutionNotifications": failures}
    return {"$schema": SCHEMA, "version": "2.1.0", "runs": [{"tool": {"driver": driver}, "invocations": [invocation], "results": results}]}


def result(name: str, found: Record) -> Record:
    """A finding, at each place that it is about; its commands stand in its properties."""
    commands = found["commands"]
    short = f" Commands: {'; '.join(commands)}" if commands else ""
    lines = [place["line"] for place in found["places"] if place["line"]]
    places = [{"physicalLocation": {"artifactLocation": {"uri": name}, "region": {"startLine": line}}} for line in lines]
    return {
        "ruleId": found["kind"],
        "level": "error" if found["kind"] in (Kind.PANIC.value, Kind.DEADLOCK.value) else "warning",
        "message": {"text": found["message"] + "." + short},
        "locations": places or [{"physicalLocation": {"artifactLocation": {"uri": name}}}],
        "properties": {"commands": commands, "back": found["back"]},
    }
