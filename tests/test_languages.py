"""The phrases of the page in its languages: none is missing, none is left over, and no translation loses a field or a form."""
from __future__ import annotations

import re

import pytest

from words import languages

HTML = "<main title='Told'><p>A <code>c</code>\n text</p><button translate='no' aria-label='More'>+</button><input placeholder='find'></main>"


def test_the_table_is_whole() -> None:
    assert languages.faults() == []


def test_each_language_has_each_phrase() -> None:
    made = languages.table()
    assert list(made["languages"]) == ["en", "de", "fr", "es", "zh"]
    assert all(len(row) == len(made["languages"]) and all(row) for row in made["phrases"])


def test_what_the_html_tells() -> None:
    parser = languages.Html()
    parser.feed(HTML)
    assert parser.texts == ["Told", "A", "text", "More", "find"]


@pytest.mark.parametrize(
    ("phrase", "wrong"),
    [
        ({"en": "{count} step | {count} steps", "de": "{count} Schritt"}, "de: 2 forms are wanted"),
        ({"en": "{count} step | {count} steps", "zh": "{count} 步 | {count} 步"}, "zh: 1 forms are wanted"),
        ({"en": "in {place}", "fr": "là"}, "fr: other fields"),
        ({"en": "now"}, "es: no translation"),
    ],
)
def test_a_translation_that_is_wrong(phrase: languages.Phrase, wrong: str) -> None:
    code = wrong[:2]
    assert languages.wrong_in(phrase, code)[0].startswith(wrong)


def test_a_phrase_of_a_module_is_a_text_as_it_stands() -> None:
    """So that the table can be compared with the modules: a marked phrase is no template, and nothing is put together."""
    for name in languages.modules():
        for call in re.findall(r"\b(?:phrase|pieces|phraseKey)\((`|\"[^\"\n]*\" ?\+)", languages.read(name)):
            raise AssertionError(f"{name}: {call}")
