"""When a client begins. Ctrl-C during the start of the interpreter is Python's affair, which no program can change."""
from __future__ import annotations

import os
import time
from pathlib import Path

LIMIT = 60.0
HOOK = """import sys

def told(event, words):
    if event == "import" and words[0] == "signal":
        open({path!r}, "w").close()

sys.addaudithook(told)
"""


class Begun:
    """Tells when a client has begun to heed Ctrl-C, for which it imports `signal` first of all. It runs in `environment`."""

    def __init__(self, folder: Path) -> None:
        self.path = folder / "begun"
        (folder / "sitecustomize.py").write_text(HOOK.format(path=str(self.path)), encoding="utf-8")
        self.environment = {**os.environ, "PYTHONPATH": str(folder)}

    def forget(self) -> None:
        """Before another program is started."""
        self.path.unlink(missing_ok=True)

    def has_begun(self) -> bool:
        return self.path.exists()

    def wait(self) -> None:
        end = time.monotonic() + LIMIT
        while not self.has_begun() and time.monotonic() < end:
            time.sleep(0.005)
        assert self.has_begun(), "the client does not begin"
