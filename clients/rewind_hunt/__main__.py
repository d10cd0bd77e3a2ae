"""Runs `rewind-hunt` as a program: `python3 -m rewind_hunt`, or by its name where the package is installed."""
from __future__ import annotations

import sys
from typing import NoReturn

from rewind_client.running import run

from .main import FAULT, main


def start() -> NoReturn:
    sys.exit(run("rewind-hunt", main, FAULT))


if __name__ == "__main__":
    start()
