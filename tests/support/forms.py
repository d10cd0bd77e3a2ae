"""The short form of a test, which `make test` runs, and the long one, which `--full` asks for."""
from __future__ import annotations

from collections.abc import Iterable
from typing import Any

import pytest


def short_first(short: Iterable[Any], full: Iterable[Any]) -> list[Any]:
    """Parameters of a test: those of the short form, and the others, which `--full` asks for."""
    known = list(short)
    return known + [pytest.param(it, marks=pytest.mark.full) for it in full if it not in known]
