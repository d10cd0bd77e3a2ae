"""The command line of `rewind-dap`."""
from __future__ import annotations

import argparse
import os
import sys

from rewind_client.errors import RewindError
from rewind_client.finding import find_rewind
from rewind_client.versions import version_of

from .adapter import Adapter
from .transport import standard_streams

FAILED = 1


def arguments(words: list[str]) -> argparse.Namespace:
    parser = argparse.ArgumentParser(
        prog="rewind-dap", description="A Debug Adapter Protocol server for Rewind, on standard input and output."
    )
    parser.add_argument(
        "--rewind", metavar="PATH", help="the rewind to take; else $REWIND, that of the repository, or that on the path"
    )
    parser.add_argument("--version", action="store_true", help="print the version of the rewind that is taken")
    parser.add_argument("--commands", metavar="FILE", default=os.devnull, help="write the commands that Rewind is given to FILE")
    return parser.parse_args(words)


def main(words: list[str]) -> int:
    given = arguments(words)
    try:
        if given.version:
            print(f"rewind-dap {version_of(find_rewind(given.rewind))}")
            return 0
        with open(given.commands, "w", encoding="utf-8", errors="backslashreplace", buffering=1) as commands:
            Adapter(standard_streams(), given.rewind, lambda line: print(line, file=commands)).serve()
    except BrokenPipeError:
        return FAILED
    except (OSError, RewindError) as fault:
        print(f"rewind-dap: {fault}", file=sys.stderr)
        return FAILED
    return 0
