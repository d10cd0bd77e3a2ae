"""Starting `rewind` on the program that a launch names."""
from __future__ import annotations

import os
from collections.abc import Callable
from typing import Any, NamedTuple, Optional

from rewind_client import finding
from rewind_client.opening import open_session
from rewind_client.session import Session

from .arguments import Arguments

TIMEOUT = 30.0
MAX_WORKERS = 64


class Launch(NamedTuple):
    """What a launch asks for."""

    path: str
    stop_on_entry: bool
    no_debug: bool
    workers: int
    rewind: str
    timeout: float


def launch_of(arguments: Arguments, chosen: Optional[str]) -> Launch:
    """What the arguments of a launch say; `chosen` is the `rewind` that the command line of the adapter names."""
    no_debug = arguments.flag("noDebug", False)
    return Launch(
        os.path.abspath(arguments.text("program")),
        arguments.flag("stopOnEntry", True) and not no_debug,
        no_debug,
        arguments.number("workers", 0, most=MAX_WORKERS),
        arguments.text("rewind", "") or chosen or finding.find_rewind(),
        arguments.seconds("timeout", TIMEOUT),
    )


def start(launch: Launch, cancelled: Callable[[], bool], journal: Callable[[str], None]) -> Session:
    """A session on the program; the second session that it may begin has no workers."""
    return open_session(launch.rewind, launch.path, finding.Settings(launch.timeout, cancelled, journal, launch.workers))


def described(path: str) -> dict[str, Any]:
    """A source as the protocol describes it."""
    return {"name": os.path.basename(path), "path": path}
