"""The answers of the plain program, whose lines are read into the parts that `rewind --json` tells.

Only beside workers is the plain program asked: `--json` has none.
"""
from __future__ import annotations

from collections.abc import Sequence
from typing import Any

from .process import Manner
from .replies import NO_COMMAND, Reply

# What begins the lines of a reply before its last one.
WITHIN = "| "
Parts = dict[str, Any]


def reply_of(command: str, lines: list[str]) -> Reply:
    """What the lines of a reply say to a command."""
    return Reply(parts_of(command.split()[0], lines), "".join(line + "\n" for line in lines))


def parts_of(word: str, lines: Sequence[str]) -> Parts:
    last = lines[-1].split(" ")
    if lines[-1] == NO_COMMAND:
        return {}
    if last[0] == "no":
        return refused(last[1:])
    if last[0] != "ok":
        raise ValueError(lines[-1])
    within = [line[len(WITHIN) :] for line in lines[:-1]]
    read = {"step": stepped, "run": ran, "undo": undone, "free": granted}.get(word)
    if read:
        return read(last[1:])
    if word in ("back", "redo", "deps", "causes"):
        return {"answer": "steps", "ids": last[2:]}
    return asked(word, within)


def refused(words: list[str]) -> Parts:
    if words[0] == "B6":
        return {"answer": "partly", "code": "B6", "ids": words[2:]}
    return {"answer": "refused", "code": words[0]}


def stepped(words: list[str]) -> Parts:
    return {"answer": "stepped", "id": words[0], "kind": " ".join(words[1:])}


def ran(words: list[str]) -> Parts:
    return {"answer": "ran", "steps": int(words[0]), "end": words[1], "line": int(words[2]) if words[1] == "break" else None}


def undone(words: list[str]) -> Parts:
    return {"answer": "undone", "id": words[0]}


def granted(words: list[str]) -> Parts:
    return {"answer": "granted", "steps": int(words[1])}


def asked(word: str, within: list[str]) -> Parts:
    """What a command told that only asks."""
    if word == "show":
        return goroutine(within)
    if word == "chan":
        return channel(within)
    if word in ("text", "console"):
        return {"answer": "lines", "lines": within}
    if word == "log":
        split = (line.partition(" ") for line in within)
        return {"answer": "log", "steps": [{"id": step, "kind": kind} for step, _, kind in split]}
    return {"answer": "done"}


def goroutine(within: list[str]) -> Parts:
    words = within[0].split(" ")
    line = int(words[4]) if len(words) > 4 else None
    frames = [frame(text.split(" ")) for text in within[1:]]
    return {"answer": "goroutine", "goroutine": words[0], "status": words[1], "steps": int(words[2]), "line": line, "frames": frames}


def frame(words: list[str]) -> Parts:
    pairs = (word.partition("=") for word in words[1:])
    return {"function": words[0], "variables": [{"name": name, "value": value} for name, _, value in pairs]}


def channel(within: list[str]) -> Parts:
    """The lines `cap N open`, `items V ..`, `senders G=V ..` and `receivers G@CASE ..`."""
    first, items, senders, receivers = (line.split(" ")[1:] for line in within)
    queues = {"senders": [waiter(text) for text in senders], "receivers": [waiter(text) for text in receivers]}
    return {"answer": "channel", "capacity": int(first[0]), "closed": first[1] == "closed", "items": items, **queues}


def waiter(text: str) -> Parts:
    """`G`, `G@CASE`, `G=V` or `G@CASE=V`."""
    who, _, value = text.partition("=")
    name, _, clause = who.partition("@")
    told = {"goroutine": name, "clause": int(clause) if clause else None}
    return {**told, "value": value} if value else told


PLAIN = Manner(lambda line: line.startswith(WITHIN), reply_of)
