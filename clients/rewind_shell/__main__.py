"""Runs `rewind-shell` as a program: `python3 -m rewind_shell`, or by its name where the package is installed."""
from __future__ import annotations

import sys
from typing import NoReturn

from rewind_client.running import run

from .main import FAILED, main


def start() -> NoReturn:
    sys.exit(run("rewind-shell", main, FAILED, reads=True))


if __name__ == "__main__":
    start()
