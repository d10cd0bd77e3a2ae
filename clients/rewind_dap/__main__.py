"""Runs `rewind-dap` as a program: `python3 -m rewind_dap`, or by its name where the package is installed."""
from __future__ import annotations

import os
from typing import NoReturn

from rewind_client.running import run

from .main import FAILED, main


def start() -> NoReturn:
    status = run("rewind-dap", main, FAILED, reads=True)
    os._exit(status)  # The thread that reads may still wait for the editor.


if __name__ == "__main__":
    start()
