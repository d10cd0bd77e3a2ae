"""The words of codes: they stand once, in words."""
from __future__ import annotations

import re
import subprocess
import sys

from rewind_client.meanings import DEADLOCK, FAULTS, REFUSED_COMMANDS, REFUSED_SOURCES

from support.places import CLIENTS

WORDS = CLIENTS.parent / "words"


def test_the_words_of_codes_are_those_of_docs_words() -> None:
    means = dict(re.findall(r"^(\w+)\n    means: (.*)$", (WORDS / "codes.txt").read_text(), re.MULTILINE))
    for code, meaning in {**REFUSED_SOURCES, **REFUSED_COMMANDS}.items():
        assert meaning == re.sub("`([^`]*)`", r"'\1'", means[code])
    assert FAULTS["CloseOfNil"] == "panic: close of nil channel" and DEADLOCK.startswith("fatal error: all goroutines")


def test_what_is_made_of_the_words_stands_as_made() -> None:
    subprocess.run([sys.executable, str(WORDS / "make.py"), "--check"], check=True, capture_output=True)
