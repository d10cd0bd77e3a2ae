"""Names of goroutines, channels and steps: `g0.2`, `g0.2/c1`, `g0.2#4`."""
from __future__ import annotations

import re

GOROUTINE = re.compile(r"g0(\.[1-9][0-9]*)*")
CHANNEL = re.compile(GOROUTINE.pattern + r"/c[1-9][0-9]*")
STEP = re.compile(GOROUTINE.pattern + r"#[1-9][0-9]*")


def is_goroutine(text: str) -> bool:
    return GOROUTINE.fullmatch(text) is not None


def is_channel(text: str) -> bool:
    return CHANNEL.fullmatch(text) is not None


def is_step(text: str) -> bool:
    return STEP.fullmatch(text) is not None


def step_owner(step: str) -> str:
    """The goroutine of a step."""
    return step.partition("#")[0]


def step_number(step: str) -> int:
    """The place of a step among those of its goroutine, counted from 1."""
    return int(step.partition("#")[2])


def step_of(goroutine: str, number: int) -> str:
    return f"{goroutine}#{number}"


def channel_maker(channel: str) -> str:
    """The goroutine that made a channel."""
    return channel.partition("/")[0]


def channel_of(maker: str, number: int) -> str:
    return f"{maker}/c{number}"


def child_of(goroutine: str, number: int) -> str:
    """The goroutine that another one started as its first, second, .."""
    return f"{goroutine}.{number}"


def name_order(goroutine: str) -> tuple[int, ...]:
    """A key that sorts goroutines as Rewind does."""
    return tuple(int(count) for count in goroutine[1:].split("."))


def channel_order(channel: str) -> tuple[int, ...]:
    """A key that sorts channels by the goroutines that made them; a 0 stands before the number of each."""
    maker, _, number = channel.partition("/c")
    return (*name_order(maker), 0, int(number))
