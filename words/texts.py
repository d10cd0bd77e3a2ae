"""The texts beside this file: entries with their fields, by section, and how a text is written without its marks.

A file has sections (`== NAME: TITLE`), entries at the start of a line, and fields of an entry (`    KEY: TEXT`), which may go
on below.
"""
import os
import re

HERE = os.path.dirname(os.path.realpath(__file__))


class Entry:
    """A name, as a code or a command, with its texts."""

    def __init__(self, name: str) -> None:
        self.name = name
        self.texts: dict[str, str] = {}

    def __getattr__(self, key: str) -> str:
        return self.texts.get(key, "")


def sections(name: str) -> tuple[dict[str, list[Entry]], dict[str, str]]:
    """The entries of a file of texts, by section; what comes before the first section stands under ''."""
    found: dict[str, list[Entry]] = {"": []}
    titles: dict[str, str] = {}
    section, key = "", ""
    with open(os.path.join(HERE, name), encoding="utf-8") as file:
        lines = file.read().splitlines()
    for line in lines:
        text = line.strip()
        field = re.match(r"    (\w+): ?(.*)$", line)
        if not text or line.startswith("#"):
            continue
        if line.startswith("== "):
            section, _, title = line[3:].partition(": ")
            found[section], titles[section] = [], title
        elif not line.startswith(" "):
            found[section].append(Entry(text))
        elif field:
            key = field[1]
            found[section][-1].texts[key] = field[2]
        else:
            joint = "\n" if section == "example" else " "
            found[section][-1].texts[key] += joint + text
    return found, titles


PROGRAM, _ = sections("program.txt")
CODES, TITLES = sections("codes.txt")
COMMANDS = sections("commands.txt")[0][""]
SESSIONS = sections("sessions.txt")[0][""]
TEXTS = {entry.name: entry.text for entry in PROGRAM["texts"]}
EXAMPLE = {entry.name: entry.text for entry in PROGRAM["example"]}
FAULTS = [entry.name for entry in CODES["faults"]]


def listed(names: list[str], last: str) -> str:
    """Names between backquotes, with a word before the last."""
    quoted = [f"`{name}`" for name in names]
    return ", ".join(quoted[:-1]) + f" {last} {quoted[-1]}"


def filled(text: str) -> str:
    return text.replace("{faults}", listed(FAULTS, "or")).replace("{version}", TEXTS["version"])


def plain(text: str) -> str:
    """A text without marks: code stands between single quotes."""
    return re.sub(r"`([^`]*)`", r"'\1'", filled(text))


def bare(text: str) -> str:
    """A text without marks or quotes."""
    return filled(text).replace("`", "")
