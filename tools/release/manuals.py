"""The manual pages of the clients, which help2man makes of what their `--help` says."""
from __future__ import annotations

import os
import subprocess

from tools import kit
from tools.release.versions import version

CLIENTS = {
    "rewind-shell": "a shell on the reverse debugger rewind",
    "rewind-hunt": "looks for schedules of a program that end badly",
    "rewind-dap": "debugs goroutine programs for editors that speak the Debug Adapter Protocol",
    "rewind-carry": "carries Go code over to the Go of the reverse debugger rewind",
}


def manual(name: str, program: str, time: int) -> str:
    """The manual page of a program, of this time in seconds since 1970."""
    words = ["help2man", "--no-info", "--no-discard-stderr", f"--name={CLIENTS[name]}", "--source=Rewind", f"--version-string={version()}", program]
    env = {**os.environ, "SOURCE_DATE_EPOCH": str(time), "LC_ALL": "C.UTF-8", "COLUMNS": "80"}
    made = subprocess.run(words, stdout=subprocess.PIPE, text=True, env=env, check=False)
    if made.returncode:
        kit.stop(f"help2man makes no manual page of {program}")
    return made.stdout
