"""Style and types of all that is written by hand, as `make lint` checks them."""
import subprocess

import pytest

from support.places import TOP


@pytest.mark.long
@pytest.mark.timeout(900)
@pytest.mark.parametrize("part", ["flake8", "mypy", "shellcheck", "page", "go"])
def test_lint(part: str) -> None:
    ran = subprocess.run(["tests/lint.sh", part], cwd=TOP, stdout=subprocess.PIPE, stderr=subprocess.STDOUT, text=True, check=False)
    assert ran.returncode == 0, ran.stdout
