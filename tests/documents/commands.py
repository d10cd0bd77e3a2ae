"""The page of commands: each command, kind, fault, refusal, end of a run and exit status that it tells comes as it
says."""
from __future__ import annotations

import re

from .cases import ENDS, FAULTS, FORMS, KINDS, LINES, REFUSALS, STATUSES, TWO, WITHOUT_RUN
from .checks import Checks
from .examples import check_meaning, file_of
from .markdown import Row, page, spans
from .program import Scratch

PAGE = "docs/COMMANDS.md"
NAME = r"g0(?:\.\d+)*"
STEP = rf"{NAME}#\d+"
# What stands in a reply for what.
STANDS_FOR = {
    "G#N": STEP,
    "KIND": r"[a-z-]+(?: \d+)?",
    "REASON": r"[a-z]+(?: \d+)?",
    "IDS": rf"{STEP}(?: {STEP})*",
    "K": r"\d+",
    "N": r"\d+",
    "FILE": r"\S+",
    "CODE": r"[SPC]\d+",
    "LINE:COL": r"\d+:\d+",
    "LINE": r"\d+",
    "SCRIPT": r"\S+",
}


def last_reply(program: Scratch, source: str, before: list[str], command: str) -> str:
    """The last line of the reply to a command."""
    replies = program.replies(source, [*before, command])
    return replies[len(before)][-1] if len(replies) > len(before) else ""


def pattern_of(reply: str) -> str:
    """What a line looks like that the page writes with capitals in place of its parts."""
    words = [STANDS_FOR.get(word, re.escape(word)) for word in reply.split(" ")]
    return " ".join(words)


def reply_told(rows: dict[str, Row], cell: str) -> str:
    """The reply that a row tells, or the row that it names: `as step G`."""
    same = re.match(r"as `([^`]*)`", cell)
    return reply_told(rows, rows[same[1]].cells[2]) if same else spans(cell)[0]


def check_forms(checks: Checks, program: Scratch) -> None:
    """Each command that the table has gets the reply that it tells."""
    document = page(PAGE)
    rows = {form: row for row in document.rows_of("Command", "What it does", "Reply") for form in spans(row.cells[0])}
    codes = {row.cells[0] for row in document.rows_of("Code", "Meaning", "Example")}
    checks.same_sets(PAGE, "the commands with an example", rows, FORMS)
    for form in set(rows) & set(FORMS):
        source, before, command = FORMS[form]
        told = reply_told(rows, rows[form].cells[2])
        got = last_reply(program, source, before, command)
        as_told = re.fullmatch(pattern_of(told), got)
        checks.holds(rows[form].place, as_told, f"{command!r}: wanted {told!r}, got {got!r}")
        more = last_reply(program, source, before, f"{command} $")
        checks.same(rows[form].place, f"{form} with a word too many", "? bad command", more)
        refusals = set(re.findall(r"`no ([A-Z]\d)", rows[form].cells[2]))
        checks.holds(rows[form].place, refusals <= codes, f"{form}: not all of {sorted(refusals)} are in the table of codes")


def check_refusals(checks: Checks, program: Scratch) -> None:
    """Each refusal comes for its example, which names the command first in code font, and may name the reply behind it."""
    document = page(PAGE)
    for row in document.rows_of("Code", "Meaning", "Example"):
        code, _, example = row.cells[:3]
        check_meaning(checks, program, row, code)
        if code in WITHOUT_RUN:
            continue
        if not checks.holds(row.place, code in REFUSALS, f"no test has an example of {code}"):
            continue
        source, before, command = REFUSALS[code]
        parts = spans(example)
        checks.same(row.place, f"the example of {code}", command, parts[0])
        wanted = next((it for it in parts if it.startswith("no ")), f"no {code}")
        checks.same(row.place, f"the reply to {command!r}", wanted, last_reply(program, source, before, command))


def kinds_in(program: Scratch, source: str) -> list[str]:
    """The kinds of the steps of a run."""
    lines = program.replies(source, ["run 3000", "log"])[1]
    return [line.split(" ", 2)[2] for line in lines if line.startswith("| ")]


def check_kinds(checks: Checks, program: Scratch) -> None:
    document = page(PAGE)
    seen = {re.sub(r" .*", "", kind) for source in KINDS for kind in kinds_in(program, source)}
    told = [spans(row.cells[0])[0].split()[0] for row in document.rows_of("Kind", "What the step did")]
    checks.same_sets(PAGE, "the kinds of steps", seen, told)
    for row in document.rows_of("Kind", "What the step did"):
        check_meaning(checks, program, row, spans(row.cells[0])[0].split()[0])
        listed = spans(row.cells[1]) if "fault F" in row.cells[0] else []
        faults = [spans(it.cells[0])[0] for it in document.rows_of("Fault", "Meaning")]
        checks.same(row.place, "the faults", faults if listed else [], listed)


def check_faults(checks: Checks, program: Scratch) -> None:
    document = page(PAGE)
    for row in document.rows_of("Fault", "Meaning", "Example"):
        fault = spans(row.cells[0])[0]
        check_meaning(checks, program, row, fault)
        if fault not in WITHOUT_RUN and checks.holds(row.place, fault in FAULTS, f"no test has an example of {fault}"):
            checks.same(row.place, f"the last step for {fault}", f"fault {fault}", kinds_in(program, FAULTS[fault])[-1])
            example = spans(row.cells[2])[0]
            checks.holds(row.place, example in FAULTS[fault], f"the example of {fault} in the tests has no {example!r}")


def check_ends(checks: Checks, program: Scratch) -> None:
    """Each end of a run that the reply of `run` tells."""
    document = page(PAGE)
    row = next(it for it in document.rows_of("Command") if "`run N`" in it.cells[0])
    told = [it for it in spans(row.cells[2]) if not it.startswith("ok")]
    checks.same_sets(row.place, "the ends of a run", set(ENDS), set(told) - WITHOUT_RUN)
    for end in set(told) & set(ENDS):
        got = last_reply(program, *ENDS[end])
        wanted = pattern_of("ok K ") + end.replace(" L", r" \d+")
        checks.holds(row.place, re.fullmatch(wanted, got), f"{end}: got {got!r}")


def check_statuses(checks: Checks, program: Scratch) -> None:
    document = page(PAGE)
    program.write("two.go", TWO)
    program.write("refused.go", file_of("println(1 / 0)"))
    program.write("long.go", "package main\n" + "/" * 1048576)
    rows = {row.cells[0]: row for row in document.rows_of("Status", "When", "On standard error")}
    checks.same_sets(PAGE, "the statuses", STATUSES, rows)
    for status in set(rows) & set(STATUSES):
        for line, told in STATUSES[status]:
            ran = program.shell(line)
            checks.same(rows[status].place, f"the status of {line}", int(status), ran.status)
            checks.holds(rows[status].place, told in (None, ran.out), f"{line}: wanted {told!r}, got {ran.out!r}")
            forms = [pattern_of(it) for it in spans(rows[status].cells[2])]
            as_told = not told or any(re.fullmatch(it, told.strip()) for it in forms)
            checks.holds(rows[status].place, as_told, f"{line}: the page does not tell of {told!r}")


def check_lines(checks: Checks, program: Scratch) -> None:
    document = page(PAGE)
    for claim, lines in LINES.items():
        checks.holds(PAGE, document.has(claim), f"it no longer says {claim!r} (tests/documents/cases.py)")
        for line, wanted in lines:
            got = last_reply(program, TWO, [], line)
            checks.same(f"{PAGE}:{document.line_of(claim)}", f"the reply to {line[:40]!r}", wanted, got)
    blank = "A line without a word has no answer."
    checks.holds(PAGE, document.has(blank), f"it no longer says {blank!r} (tests/documents/cases.py)")
    replies = program.replies(TWO, ["", " \t", "step g0"])
    checks.same(f"{PAGE}:{document.line_of(blank)}", "blank lines", [["ok g0#1 pure"]], replies)


def check_codes(checks: Checks, program: Scratch) -> None:
    """Each code that the program says it knows has a page."""
    told = program.run(["--explain", "?"]).err
    listed = re.sub(r"\n    ", " ", told.partition("It knows these:")[2].partition("\n\n")[0])
    codes = [code for line in listed.splitlines() if ": " in line for code in line.partition(": ")[2].split(", ")]
    checks.holds("--explain", len(codes) > 50, f"the codes that the program knows are not listed: {told}")
    for code in codes:
        ran = program.run(["--explain", code])
        checks.holds("--explain", ran.status == 0 and ran.out.startswith(f"{code}: "), f"no page on {code}")


PARTS = (check_forms, check_refusals, check_kinds, check_faults, check_ends, check_statuses, check_lines, check_codes)
