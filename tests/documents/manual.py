"""The manual page and `--help`: their examples and their lists are those of the program."""
from __future__ import annotations

import re

from . import repository
from .checks import Checks
from .markdown import Block
from .program import Scratch
from .shell import ANSWERS, EXAMPLE, check_transcript

MANUAL = "docs/rewind.1"
FIRST = "package main\n\nfunc main() {\n\tx := 1\n\tprintln(x)\n}\n"


def plain(text: str) -> str:
    """A text of the manual page without its marks."""
    text = re.sub(r"\\f[BIRP]", "", text)
    return text.replace("\\&", "").replace("\\-", "-").replace("\\e", "\\")


def examples(name: str, text: str) -> list[Block]:
    """The blocks between `.nf` and `.fi`."""
    found, first = [], 0
    lines = text.split("\n")
    for number, line in enumerate(lines):
        if line == ".nf":
            first = number + 1
        elif line == ".fi":
            found.append(Block(name, first + 1, [plain(it) for it in lines[first:number]], "", 0, ""))
    return found


def example_of_help(text: str) -> Block:
    """The example of `--help`, without its margin."""
    after = text.split("Example:\n")[1].split("\n\n")[0]
    return Block("--help", 1, [line[2:] for line in after.splitlines()], "", 0, "")


def tagged(section: str, text: str) -> list[tuple[int, str, str]]:
    """(line, tag, text) of each `.TP` of a section."""
    found, here = [], ""
    lines = text.split("\n")
    for number, line in enumerate(lines):
        here = line[4:] if line.startswith(".SH ") else here
        if line == ".TP" and here == section:
            found.append((number + 2, plain(lines[number + 1]), plain(lines[number + 2])))
    return found


def check_synopsis(checks: Checks, program: Scratch) -> None:
    """Whether the program takes each form of the synopsis, with and without what stands in brackets."""
    text = repository.read(MANUAL)
    forms = re.findall(r"^\.B rewind\n(.+)$", text, re.M)
    checks.holds(MANUAL, forms, "no synopsis")
    values = {"N": "2", "FILE": EXAMPLE, "CODE": "N1", "SCRIPT": "-"}
    for form in map(plain, forms):
        for reading in {re.sub(r"\[[^\]]*\] ?", "", form), form.replace("[", "").replace("]", "")}:
            ran = program.run([values.get(it, it) for it in reading.split()])
            answers = next((ANSWERS[it] for it in reading.split() if it in ANSWERS), {0})
            checks.holds(MANUAL, ran.status in answers, f"status of rewind {reading}: {ran.status}")


def check_options(checks: Checks, program: Scratch) -> None:
    text = repository.read(MANUAL)
    help_text = program.run(["--help"]).out
    told = set(re.findall(r"--[a-z]+", help_text.split("\nCommands")[0]))
    options = {word for _, tag, _ in tagged("OPTIONS", text) for word in tag.split() if word.startswith("--")}
    checks.same_sets(MANUAL, "the options of the manual page", told, options)


def check_commands(checks: Checks, program: Scratch) -> None:
    """Whether the manual page and `--help` have the same commands."""
    text = repository.read(MANUAL)
    listed = program.run(["--help"]).out.split("Commands")[1].split("\n\n")[0]
    helped = [re.split(r"\s{2,}", line.strip())[0] for line in listed.splitlines()[1:] if re.match(r"  \S", line)]
    named = [tag for _, tag, _ in tagged("COMMANDS", text)]
    checks.same_sets(MANUAL, "the commands of the manual page", helped, named)


def check_meanings(checks: Checks, program: Scratch) -> None:
    """Whether each code of the manual page has the meaning there that `--explain` gives."""
    text = repository.read(MANUAL)
    sections = [it for it in re.findall(r"^\.SH (.+)$", text, re.M) if re.match(r"CODES|KINDS|ENDS|FAULTS|FAILURES", it)]
    checks.holds(MANUAL, sections, "no sections of codes")
    for section in sections:
        for line, tag, meaning in tagged(section, text):
            code = tag.split()[0]
            told = program.run(["--explain", code]).out.split("\n")[0].replace("'", "")
            checks.same(f"{MANUAL}:{line}", f"--explain {code}", f"{code}: {meaning}", told)


def check_version(checks: Checks, program: Scratch) -> None:
    """The version in the head of the manual page is that of the program."""
    text = repository.read(MANUAL)
    told = re.findall(r'^\.TH .* "Rewind ([^"]*)"', text, re.M)
    checks.same(f"{MANUAL}:2", "the version", [program.run(["--version"]).out.strip()], [f"rewind {it}" for it in told])


def check_examples(checks: Checks, program: Scratch) -> None:
    """The examples of the manual page and of `--help`."""
    program.write("first.go", FIRST)
    for block in examples(MANUAL, repository.read(MANUAL)) + [example_of_help(program.run(["--help"]).out)]:
        check_transcript(checks, program, block)


PARTS = (check_examples, check_version, check_synopsis, check_options, check_commands, check_meanings)
