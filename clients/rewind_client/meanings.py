"""What the codes, faults and exit statuses of Rewind mean, in words; those of the codes stand in words."""
from __future__ import annotations

import json
import os
from typing import Optional

with open(os.path.join(os.path.dirname(__file__), "words.json"), encoding="utf-8") as table:
    WORDS: dict[str, dict[str, str]] = json.load(table)
VERSION = WORDS["program"]["version"]
REFUSED_SOURCES = WORDS["sources"]
REFUSED_COMMANDS = WORDS["replies"]
# A fault in the words of Go, which has none for what is a limit of Rewind.
FAULTS = {name: WORDS["go"].get(name) or "a limit of Rewind: " + meaning for name, meaning in WORDS["faults"].items()}
DEADLOCK = WORDS["go"]["stuck"]

EXIT_STATUSES = {
    1: "the source cannot be read or is refused",
    2: "the command line is refused",
    3: "reading or writing failed, or there was no memory",
}


def meaning_of_refusal(reply: str) -> str:
    """A reply `no CODE ..` with the meaning of its code."""
    code = reply.split(" ")[1] if reply.startswith("no ") else ""
    meaning = REFUSED_COMMANDS.get(code, "it is no command" if reply.startswith("?") else "it was refused")
    return f"{meaning} ({reply})"


def meaning_of_exit(status: Optional[int], said: str) -> str:
    """What a `rewind` that is gone said on standard error, or else what its status means."""
    if said:
        return said
    if status is None:
        return "it closed its output and goes on"
    if status < 0:
        return f"signal {-status} ended it"
    return f"exit status {status}{': ' + EXIT_STATUSES[status] if status in EXIT_STATUSES else ''}"
