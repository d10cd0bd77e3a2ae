"""The story of docs/EDITORS.md, byte for byte on the wire.

    tests/run.sh clients/tests/dap/test_story.py --record      writes the answers in story.txt anew
"""
from __future__ import annotations

import select
from pathlib import Path

import pytest

from .client import DATA, Client, framed

STORY = Path(__file__).with_name("story.txt")
SILENCE = 3.0


def read_story() -> list[str]:
    return STORY.read_text(encoding="utf-8").split("\n")


def body(line: str) -> bytes:
    """The body of the message that a line of the story tells."""
    return line[2:].replace("@DATA@", DATA).encode()


def record() -> None:
    """Writes the story anew: its requests and words as they are, and the answers as they come."""
    client, lines = Client(), []
    for line in read_story():
        if not line.startswith("< "):
            lines.append(line)
        if line.startswith("> "):
            client.write(framed(body(line)))
            lines += answers(client)
    client.close()
    STORY.write_text("\n".join(lines), encoding="utf-8")


def answers(client: Client) -> list[str]:
    """What the adapter says until it is silent."""
    while select.select([client.answers], [], [], SILENCE)[0] and client.more():
        pass
    bodies = []
    while client.unread:
        header, _, client.unread = client.unread.partition(b"\r\n\r\n")
        bodies.append("< " + client.take(int(header.split(b":")[1])).decode().replace(DATA, "@DATA@"))
    return bodies


def test_byte_for_byte(pytestconfig: pytest.Config) -> None:
    if pytestconfig.getoption("--record"):
        record()
    client = Client()
    for line in read_story():
        if line.startswith("> "):
            client.write(framed(body(line)))
        elif line.startswith("< "):
            wanted = framed(body(line))
            assert client.take(len(wanted)) == wanted
    assert not client.more(), "more was written after the story"
    assert client.close() == ""
    assert client.process.returncode == 0
