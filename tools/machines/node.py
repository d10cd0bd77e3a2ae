#!/usr/bin/env python3
"""Makes of the program's WebAssembly module one file for Node, which runs it with files and standard streams.

    python3 -m tools.machines.node MODULE.wasm OUT.mjs
"""
import argparse
import base64
import gzip
import os

from tools import kit
from tools.release.versions import version

FRAME = f"{os.path.dirname(os.path.realpath(__file__))}/node/rewind.mjs"


def made(module: bytes) -> str:
    """The file for Node. The same module gives the same bytes."""
    packed = base64.b64encode(gzip.compress(module, 9, mtime=0)).decode("ascii")
    with open(FRAME, encoding="utf-8") as frame:
        return frame.read().replace("VERSION", version(), 1).replace("BASE64", packed, 1)


def main() -> None:
    parser = argparse.ArgumentParser(description="Makes of the program's WebAssembly module one file for Node.")
    parser.add_argument("module", metavar="MODULE.wasm")
    parser.add_argument("out", metavar="OUT.mjs")
    asked = parser.parse_args()
    if not os.path.isfile(asked.module):
        kit.stop(f"there is no module {asked.module}")
    kit.writable(asked.out)
    with open(asked.module, "rb") as file:
        text = made(file.read())
    with open(asked.out, "w", encoding="utf-8") as out:
        out.write(text)
    os.chmod(asked.out, 0o755)


if __name__ == "__main__":
    main()
