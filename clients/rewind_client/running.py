"""Runs a client's program: a Ctrl-C, a closed stream or a full device ends it with a sentence and a status."""
from __future__ import annotations

import os
import signal
import sys
from collections.abc import Callable

INTERRUPTED = 130


def run(name: str, main: Callable[[list[str]], int], failed: int, reads: bool = False) -> int:
    """The exit status of a program; `failed` where a stream is closed or cannot be written. `reads` tells that it wants standard input."""
    signal.signal(signal.SIGINT, signal.default_int_handler)
    try:
        closed = closed_stream(reads)
        if closed:
            return told(name, f"{closed} is closed", failed)
        status = main(sys.argv[1:])
        sys.stdout.flush()
        return status
    except KeyboardInterrupt:
        return INTERRUPTED
    except BrokenPipeError:
        silence()
        return failed
    except OSError as fault:
        silence()
        what = fault.filename or "standard output"
        return told(name, f"{what} cannot be written: {fault.strerror or fault}", failed)
    finally:
        signal.signal(signal.SIGINT, signal.SIG_DFL)


def closed_stream(reads: bool) -> str:
    """The name of a stream that is wanted and closed. Closed ones are opened on nothing, so that no file takes their place."""
    closed = [name for name, stream in (("standard input", sys.stdin), ("standard output", sys.stdout)) if stream is None]
    for handle in range(3):
        try:
            os.fstat(handle)
        except OSError:
            os.open(os.devnull, os.O_RDWR)
    if sys.stderr is None:
        sys.stderr = open(os.devnull, "w", encoding="utf-8")
    return next((name for name in closed if reads or name != "standard input"), "")


def told(name: str, why: str, status: int) -> int:
    """Says in one sentence why a program ends."""
    try:
        sys.stderr.write(f"{name}: {why}\n")
        sys.stderr.flush()
    except OSError:
        pass
    return status


def silence() -> None:
    """What is still to be written goes nowhere, so that the end of the program does not fail again."""
    os.dup2(os.open(os.devnull, os.O_WRONLY), 1)
