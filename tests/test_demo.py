"""The demo tells what the program replies now."""
from tools import demo


def test_the_demo(rewind: str) -> None:
    assert demo.difference(rewind) == ""
