"""What is made or counted by a script stands as it makes it: the words of the program, the lines to read in THEOREMS, and
the length of sentences. Program and extension have one version."""
from __future__ import annotations

import json
import re
import subprocess
import sys

from . import repository
from .checks import Checks

SCRIPTS = ("words/make.py", "tools/docs/reading.py", "tools/docs/sentences.py")


def check_versions(checks: Checks) -> None:
    """The extension for editors has the version of the program."""
    words = re.search(r"^version\n    text: (\S+)$", repository.read("words/program.txt"), flags=re.M)
    extension = json.loads(repository.read("editors/vscode/package.json"))["version"]
    checks.same("editors/vscode/package.json", "version", words and words[1], extension)


def check_script(checks: Checks, name: str) -> None:
    """What a script makes or counts stands as it makes it."""
    words = [sys.executable, repository.path_of(name), "--check"]
    ran = subprocess.run(words, stdout=subprocess.PIPE, stderr=subprocess.STDOUT, text=True, cwd=repository.ROOT)
    checks.holds(name, ran.returncode == 0, ran.stdout or "it tells nothing")
