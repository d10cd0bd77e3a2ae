"""Which Python has the modules that are wanted: this one, or that of the system."""
from __future__ import annotations

import importlib.util
import subprocess
import sys
from typing import Optional

SYSTEM = "/usr/bin/python3"


def python_with(*modules: str) -> Optional[str]:
    """The path of a Python that has some modules: this one where it has them, else that of the system; none where neither has."""
    importlib.invalidate_caches()
    if all(importlib.util.find_spec(module) for module in modules):
        return sys.executable
    try:
        done = subprocess.run([SYSTEM, "-c", "import " + ", ".join(modules)], capture_output=True, timeout=60, check=False)
    except (OSError, subprocess.SubprocessError):
        return None
    return SYSTEM if done.returncode == 0 else None
