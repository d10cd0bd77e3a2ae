"""The example sessions: what each writes, byte for byte.

A session is NAME.go with the commands NAME.script, none where there is no such file, in crates/sessions/data. NAME.expect is what
goes to standard output and then to standard error.
"""
from __future__ import annotations

from pathlib import Path

import pytest

from support.places import SESSIONS
from support.program import Program


def difference(wanted: bytes, got: bytes) -> str:
    """The first line that differs, in words."""
    pairs = list(zip(wanted.split(b"\n"), got.split(b"\n")))
    at = next((at for at, (old, new) in enumerate(pairs) if old != new), len(pairs))
    lines = [text.split(b"\n")[at : at + 1] for text in (wanted, got)]
    told = [repr(line[0][:100].decode(errors="replace")) if line else "nothing" for line in lines]
    return f"line {at + 1}: wanted {told[0]}, got {told[1]}"


@pytest.mark.parametrize("source", sorted(SESSIONS.glob("*.go")), ids=lambda path: str(path.stem))
def test_a_session(source: Path, program: Program) -> None:
    script = source.with_suffix(".script")
    ended = program.run_words([str(source)], script.read_bytes() if script.exists() else b"")
    wanted, got = source.with_suffix(".expect").read_bytes(), ended.output + ended.error
    assert wanted == got, difference(wanted, got)
