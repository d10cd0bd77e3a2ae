"""The example sessions, as hostile tests use them, and the forms of names."""
from __future__ import annotations

import functools

from support.places import SESSIONS

NAMED = r"g0(?:\.[1-9]\d*)*"
STEP = NAMED + r"#[1-9]\d*"
FAULTS = "DivideByZero|NegativeShift|SendOnClosed|CloseOfClosed|CloseOfNil|BadSize|CallDepth|NameDepth|NameCount"
KIND = (
    r"(?:pure|call|return|exit|go|make|length|hand|meet|buffer|take|closed|send-wait|recv-wait|pick [1-9]\d*|default|select-wait"
    rf"|close|fault (?:{FAULTS}))"
)


@functools.lru_cache(maxsize=None)
def examples(ending: str = ".go") -> dict[str, bytes]:
    """The files of the example sessions with this ending, by name."""
    return {path.stem: path.read_bytes() for path in sorted(SESSIONS.glob(f"*{ending}"))}


def script_of(name: str) -> list[bytes]:
    """The commands of an example session, but for `quit` and blank lines."""
    script = examples(".script").get(name, b"")
    return [line for line in script.split(b"\n") if line.strip() and line.strip() != b"quit"]


def sessions() -> list[str]:
    """The names of the example sessions that have commands, but for the long ones, which reach a limit or are taken once more."""
    return [name for name in examples(".script") if not name.startswith("replayed") and not name.endswith("_the_limit")]
