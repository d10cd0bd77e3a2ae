"""What all tests share: the program that they ask, sessions of it, and the order and the form in which they run.

Without `--full` the cases marked `full` are left out. Those marked `long` begin first. `tests/run.sh` calls pytest.
"""
from __future__ import annotations

import os
from collections.abc import Callable, Iterator
from pathlib import Path
from typing import Any, Optional

import pytest
from rewind_client.core import Core
from rewind_client.finding import start
from rewind_client.session import Session as ClientSession
from xdist.scheduler import LoadScheduling

from opened import Open, opened
from support.places import EXAMPLES, TOP
from support.program import Preloaded, Program
from support.session import Begin, Session


def pytest_addoption(parser: pytest.Parser) -> None:
    group = parser.getgroup("rewind")
    group.addoption("--rewind", metavar="PROGRAM", help="the program that is tested ($REWIND, else bin/rewind-quick)")
    group.addoption("--full", action="store_true", help="all cases, and not those of the short form alone")
    group.addoption("--seed", type=int, default=1, help="where random cases begin (1)")
    group.addoption("--seconds", type=float, help="how long random cases go on, in place of the usual time")
    group.addoption("--release", metavar="FOLDER", help="the folder of a release to start")
    group.addoption("--record", action="store_true", help="writes anew what some tests expect, as the program has it now")


def pytest_configure(config: pytest.Config) -> None:
    """The clients find the program by the environment, as a user may name it. They carry no source over, unless a test asks for it."""
    named = config.getoption("--rewind") or os.environ.get("REWIND") or TOP / "bin" / "rewind-quick"
    program = os.path.abspath(named)
    if not os.access(program, os.X_OK) or os.path.isdir(program):
        raise pytest.UsageError(f"there is no program {named}: build it with 'make quick'")
    os.environ["REWIND"] = program
    os.environ["REWIND_CARRY"] = ""


def is_left_out(config: pytest.Config, item: pytest.Item) -> bool:
    """Whether a case is of the long form, or wants a release, and neither is asked for."""
    is_of_release = item.path.name.startswith("test_release") and not config.getoption("--release")
    return is_of_release or bool(item.get_closest_marker("full")) and not config.getoption("--full")


def pytest_collection_modifyitems(config: pytest.Config, items: list[pytest.Item]) -> None:
    left_out = [item for item in items if is_left_out(config, item)]
    config.hook.pytest_deselected(items=left_out)
    known = set(left_out)
    items[:] = [item for item in items if item not in known]
    items.sort(key=lambda item: item.get_closest_marker("long") is None)


class OneByOne(LoadScheduling):  # type: ignore[misc]  # xdist has no types
    """Gives each processor one case to run and the next one, so that no long cases stand in one row."""

    collection: Optional[list[str]]

    def check_schedule(self, node: Any, duration: float = 0) -> None:
        if node.shutting_down:
            return
        if self.pending:
            self._send_tests(node, 2 - len(self.node2pending[node]))
        else:
            node.shutdown()

    def schedule(self) -> None:
        if self.collection is None and self._check_nodes_have_same_collection():
            listed: list[str] = next(iter(self.node2collection.values()))
            self.collection, self.pending[:] = listed, range(len(listed))
            for node in self.nodes:
                self._send_tests(node, 1)
        for node in self.nodes:
            self.check_schedule(node)


@pytest.hookimpl(optionalhook=True)
def pytest_xdist_make_scheduler(config: pytest.Config, log: Any) -> OneByOne:
    return OneByOne(config, log)


class Counts:
    """Counts the cases, and prints them as the last line; and what cases told of themselves, where it is asked for."""

    def __init__(self, config: pytest.Config) -> None:
        self.config = config

    @pytest.hookimpl(trylast=True)
    def pytest_terminal_summary(self, terminalreporter: Any) -> None:
        if not self.config.getoption("--full"):
            return
        for report in terminalreporter.getreports("passed") + terminalreporter.getreports("failed"):
            for name, value in report.user_properties if report.when == "call" else ():
                terminalreporter.write_line(f"{report.nodeid}: {value}" if name == "told" else "")

    @pytest.hookimpl(trylast=True)
    def pytest_unconfigure(self) -> None:
        reporter = self.config.pluginmanager.get_plugin("terminalreporter")
        found = {name: len(reporter.stats.get(name, ())) for name in ("passed", "failed", "error", "skipped")}
        skipped = f", {found['skipped']} skipped" if found["skipped"] else ""
        print(f"{found['passed']} passed, {found['failed'] + found['error']} failed{skipped}")


def pytest_sessionstart(session: pytest.Session) -> None:
    config = session.config
    if not hasattr(config, "workerinput") and not config.getoption("collectonly"):
        config.pluginmanager.register(Counts(config), "counts")


@pytest.fixture(scope="session")
def rewind() -> str:
    """The program that the tests ask."""
    return os.environ["REWIND"]


@pytest.fixture(scope="session")
def program(rewind: str) -> Program:
    """The program, run on sources and commands from beginning to end."""
    return Program(rewind)


@pytest.fixture
def begin(rewind: str, tmp_path: Path) -> Iterator[Begin]:
    begun: list[Session] = []

    def one(source: bytes | str | Path, *options: str) -> Session:
        path = source
        if not isinstance(source, Path):
            path = tmp_path / f"source_{len(begun)}.go"
            path.write_bytes(source.encode() if isinstance(source, str) else source)
        begun.append(Session(rewind, str(path), *options))
        return begun[-1]

    yield one
    for session in begun:
        session.close()


@pytest.fixture
def core(rewind: str, tmp_path: Path) -> Iterator[Callable[[str], Core]]:
    """Starts sessions of the clients' library on texts of sources, and ends them behind the test."""
    begun: list[Core] = []

    def one(text: str) -> Core:
        path = tmp_path / "source.go"
        path.write_text(text, encoding="utf-8")
        begun.append(start(rewind, str(path)))
        return begun[-1]

    yield one
    for session in begun:
        session.process.end()


@pytest.fixture
def session(rewind: str, tmp_path: Path) -> Iterator[Open]:
    """Opens sessions of the clients' library on examples by their names, or on texts, and ends them behind the test."""
    begun: list[ClientSession] = []

    def one(text: str) -> ClientSession:
        path = EXAMPLES / f"{text}.go"
        if "\n" in text:
            path = tmp_path / "source.go"
            path.write_text(text, encoding="utf-8")
        begun.append(opened(rewind, path))
        return begun[-1]

    yield one
    for it in begun:
        it.end()


@pytest.fixture(scope="session")
def preloaded(tmp_path_factory: pytest.TempPathFactory) -> Preloaded:
    """The library under which requests for memory and devices fail."""
    return Preloaded(tmp_path_factory.mktemp("faults"))


@pytest.fixture
def told(record_property: Any) -> Any:
    """Takes down what a case says of itself, as how much it has compared; `--full` prints it at the end."""
    return lambda text: record_property("told", text)


@pytest.fixture(scope="session")
def seed(pytestconfig: pytest.Config) -> int:
    found: int = pytestconfig.getoption("--seed")
    return found


@pytest.fixture(scope="session")
def seconds(pytestconfig: pytest.Config) -> Optional[float]:
    """How long random cases go on, where that is said."""
    found: Optional[float] = pytestconfig.getoption("--seconds")
    return found
