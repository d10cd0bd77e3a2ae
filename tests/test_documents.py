"""What the documents say is run, and compared with what the program and the repository give.

Each code block of a Markdown file, of the manual page and of `--help` is run; a configuration is read, and a target of
`make` looked up. So are the examples in tables, links, pictures, recipes, and the crates, functions and files that are named.
The head of each module of the folder `documents` says what it checks. A comment `<!-- not run: REASON -->` before a
block says why that one is not run.
"""
from __future__ import annotations

from collections.abc import Callable
from pathlib import Path

import pytest

from documents import blocks, commands, contracts, editors, figures, files, keys, language, made, manual, names, recipes, repository, stories
from documents.checks import Checks
from documents.markdown import page
from documents.program import Scratch

# Takes down how much a test has compared.
Told = Callable[[str], None]

each_document = pytest.mark.parametrize("name", repository.documents())


@pytest.fixture
def scratch(rewind: str, tmp_path: Path) -> Scratch:
    return Scratch(rewind, str(tmp_path))


def compared(part: Callable[..., None], *given: object) -> str:
    """Compares a part, and fails where something differs; else how much was compared."""
    checks = Checks()
    part(checks, *given)
    return checks.close()


@each_document
def test_code_blocks(name: str, told: Told, scratch: Scratch) -> None:
    told(compared(blocks.check, scratch, page(name)))


@each_document
def test_links_and_pictures(name: str, told: Told) -> None:
    told(compared(files.check_links, page(name)))


@each_document
def test_paths(name: str, told: Told) -> None:
    told(compared(files.check_paths, page(name)))


@each_document
def test_commands_in_code_font(name: str, told: Told, scratch: Scratch) -> None:
    told(compared(files.check_words, scratch, page(name)))


@each_document
def test_names_of_crates_and_functions(name: str, told: Told) -> None:
    told(compared(names.check, page(name)))


@each_document
def test_links_to_functions(name: str, told: Told) -> None:
    told(compared(contracts.check, page(name)))


def test_each_picture_is_shown(told: Told) -> None:
    told(compared(files.check_unused))


def test_the_map_of_crates(told: Told) -> None:
    told(compared(names.check_map))


@pytest.mark.parametrize("sample", recipes.SAMPLES, ids=lambda sample: str(sample.recipe))
def test_a_recipe(sample: recipes.Sample, told: Told) -> None:
    told(compared(recipes.check_recipe, sample))


@pytest.mark.parametrize("part", stories.PARTS)
def test_stories(part: Callable[[Checks], None], told: Told) -> None:
    told(compared(part))


@pytest.mark.parametrize("part", manual.PARTS)
def test_the_manual(part: Callable[[Checks, Scratch], None], told: Told, scratch: Scratch) -> None:
    told(compared(part, scratch))


@pytest.mark.parametrize("part", commands.PARTS)
def test_the_page_of_commands(part: Callable[[Checks, Scratch], None], told: Told, scratch: Scratch) -> None:
    told(compared(part, scratch))


@pytest.mark.parametrize("part", language.PARTS)
def test_the_page_of_the_language(part: Callable[[Checks, Scratch], None], told: Told, scratch: Scratch) -> None:
    told(compared(part, scratch))


@pytest.mark.parametrize("part", editors.PARTS)
def test_the_page_of_editors(part: Callable[[Checks], None], told: Told) -> None:
    told(compared(part))


def test_keys_of_the_page(told: Told) -> None:
    told(compared(keys.check))


@pytest.mark.parametrize("part", figures.PARTS)
def test_figures(part: Callable[[Checks], None], told: Told) -> None:
    told(compared(part))


def test_versions(told: Told) -> None:
    told(compared(made.check_versions))


@pytest.mark.parametrize("script", made.SCRIPTS)
def test_what_a_script_makes(script: str, told: Told) -> None:
    told(compared(made.check_script, script))
