"""Sessions of the clients' library, and random commands for them."""
from __future__ import annotations

import random
from collections.abc import Callable
from pathlib import Path

from rewind_client.finding import start
from rewind_client.program import read_program
from rewind_client.session import Session

# Opens a session on an example by its name, or on a text.
Open = Callable[[str], Session]


def opened(rewind: str, path: Path) -> Session:
    return Session(start(rewind, str(path)), read_program(str(path)), lambda: start(rewind, str(path)))


def random_command(one: Session, chance: random.Random) -> None:
    names, log = one.goroutine_names(), one.log()
    step = chance.choice(log).step if log else "g0#1"
    choices = [f"step {chance.choice(names)}"] * 4 + [f"run {chance.randint(1, 9)}"] * 3 + ["undo", "redo", "back " + step]
    order = [entry.step for entry in log]
    if len(order) > 1:
        at = chance.randrange(len(order) - 1)
        order[at], order[at + 1] = order[at + 1], order[at]
        choices.append("order " + " ".join(order))
    one.ask(chance.choice(choices))
