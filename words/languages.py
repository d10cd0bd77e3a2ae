"""The phrases of the page in its languages: the table beside this file, and what the page uses of it.

English is the source. A table in `languages` has phrases between blank lines. Each line of a phrase begins with a language: `en: ` has
the English text as the page has it, and the others their translations. What the page uses stands in its sources and in what it shows:
marked texts of its modules, the texts and attributes of its HTML, and the tables of codes, stories, exercises and refusals.
"""
from __future__ import annotations

import json
import os
import re
from collections.abc import Iterator
from html.parser import HTMLParser
from typing import Any

ROOT = os.path.dirname(os.path.dirname(os.path.realpath(__file__)))
# A phrase: its text in each language.
Phrase = dict[str, str]
TABLES = ["page", "lessons", "codes", "refusals"]
# The languages by their own names, the source first. Those without a plural have one form.
LANGUAGES = {"en": "English", "de": "Deutsch", "fr": "Français", "es": "Español", "zh": "中文"}
SOURCE = "en"
WITHOUT_PLURAL = {"zh"}
BETWEEN_FORMS = " | "

MARKED = re.compile(r"\b(?:phrase|pieces|phraseKey)\(\s*(\"(?:[^\"\\]|\\.)*\")")
FIELD = re.compile(r"\{([a-z_]+)\}")
ATTRIBUTES = ["title", "aria-label", "placeholder"]
UNTOLD = {"code", "kbd", "script", "style"}
VOID = {"input", "meta", "link", "br"}
UNPROVED = re.compile(r"<!--unproved:(.*?)-->")


def read(path: str) -> str:
    with open(os.path.join(ROOT, path), encoding="utf-8") as file:
        return file.read()


def phrases_of(name: str) -> list[Phrase]:
    """The phrases of a table: each is its text by language."""
    lines = [line for line in read(f"words/languages/{name}.txt").split("\n") if not line.startswith("#")]
    blocks = "\n".join(lines).split("\n\n")
    return [dict(line.split(": ", 1) for line in block.strip().split("\n")) for block in blocks if block.strip()]


def phrases() -> list[Phrase]:
    """The phrases of all tables, in their order."""
    return [phrase for name in TABLES for phrase in phrases_of(name)]


def table() -> dict[str, Any]:
    """What the page takes: the names of the languages, and each phrase in all of them."""
    return {"languages": LANGUAGES, "phrases": [[set_text(code, phrase.get(code, "")) for code in LANGUAGES] for phrase in phrases()]}


def set_text(code: str, text: str) -> str:
    """A text as its language sets it: in French no line begins with a sign that has a space before it."""
    if code != "fr":
        return text
    return re.sub(r" ([:;?!»])(?!=)", "\u00a0\\1", text).replace("« ", "«\u00a0")


# What the page uses.


class Html(HTMLParser):
    """The texts and attributes of a page that are told, as the page itself takes them."""

    def __init__(self) -> None:
        super().__init__()
        self.open: list[bool] = [False]  # of each open element, whether its text is not told
        self.texts: list[str] = []

    def handle_starttag(self, tag: str, attrs: list[tuple[str, str | None]]) -> None:
        given = dict(attrs)
        is_untold = given.get("translate") == "no"
        wanted = ATTRIBUTES[:2] if is_untold else ATTRIBUTES
        self.texts += [str(given[name]) for name in wanted if given.get(name)]
        if tag not in VOID:
            self.open.append(self.open[-1] or is_untold or tag in UNTOLD)

    def handle_endtag(self, tag: str) -> None:
        if tag not in VOID:
            self.open.pop()

    def handle_data(self, data: str) -> None:
        text = " ".join(data.split())
        if text and not self.open[-1]:
            self.texts.append(text)


def of_html() -> Iterator[str]:
    """The phrases of the page's HTML, as it is of a proved program and of another one."""
    text = read("page/src/page.html")
    for replaced in ("", r"\1"):
        parser = Html()
        parser.feed(UNPROVED.sub(replaced, text))
        yield from parser.texts


def modules() -> list[str]:
    """The modules of the page."""
    found = [os.path.join(folder, name) for folder, _, names in os.walk(os.path.join(ROOT, "page/src")) for name in names]
    return sorted(path for path in found if path.endswith(".js"))


def of_modules() -> Iterator[str]:
    """The phrases that the modules of the page mark."""
    for path in modules():
        yield from (json.loads(found) for found in MARKED.findall(read(path)))


def of_lessons() -> Iterator[str]:
    """What stories and exercises say."""
    told = json.loads(read("page/words.json"))
    for group in json.loads(read("page/menu.json")):
        yield group["level"]
        for it in group["stories"]:
            name = it if isinstance(it, str) else it["name"]
            given = {} if isinstance(it, str) else it
            story = told["stories"].get(name, {"title": "", "told": []})
            yield given.get("title") or story["title"] or name.replace("_", " ")
            yield given.get("shows") or told["shows"].get(name, "")
            yield from (step["text"] for step in story["told"])
    for it in json.loads(read("page/exercises.json")):
        yield from (it["title"], it["task"], it["hint"])


def of_codes() -> Iterator[str]:
    """What codes, kinds of steps, faults and commands mean."""
    told = json.loads(read("page/words.json"))
    yield from told["codes"].values()
    yield from told["kinds"].values()
    yield from (re.sub(r", also .*", "", it) for it in told["faults"].values())
    yield from (says for _, says in told["commands"])


def of_refusals() -> Iterator[str]:
    """What is said of refused sources."""
    for refused in json.loads(read("clients/rewind_client/refusals.json")).values():
        yield refused["meaning"]
        for form in refused["forms"]:
            yield from (form["sentence"], form.get("hint", ""))


def used() -> list[str]:
    """All phrases that the page uses, each once."""
    found = [*of_html(), *of_modules(), *of_lessons(), *of_codes(), *of_refusals()]
    return [text for text in dict.fromkeys(found) if text]


# What is wrong in the table.


def fields(text: str) -> set[str]:
    return set(FIELD.findall(text))


def wrong_in(phrase: Phrase, code: str) -> list[str]:
    """What is wrong with the translation of a phrase."""
    english, text = phrase[SOURCE], phrase.get(code, "")
    if not text:
        return [f"{code}: no translation of '{english}'"]
    wrong = []
    if fields(text) != fields(english):
        wrong.append(f"{code}: other fields than in '{english}'")
    wanted = 1 if code in WITHOUT_PLURAL else english.count(BETWEEN_FORMS) + 1
    if text.count(BETWEEN_FORMS) + 1 != wanted:
        wrong.append(f"{code}: {wanted} forms are wanted of '{english}'")
    return wrong


def faults() -> list[str]:
    """What is missing in the table, what nothing uses, and which fields and forms are lost."""
    table_of = phrases()
    known = [phrase[SOURCE] for phrase in table_of]
    wanted = used()
    wrong = [f"twice in the table: '{text}'" for text in sorted({text for text in known if known.count(text) > 1})]
    wrong += [f"not in the table: '{text}'" for text in wanted if text not in set(known)]
    wrong += [f"used nowhere: '{text}'" for text in known if text not in set(wanted)]
    for phrase in table_of:
        wrong += [f"unknown language {code} of '{phrase[SOURCE]}'" for code in phrase if code not in LANGUAGES]
        for code in LANGUAGES:
            if code != SOURCE:
                wrong += wrong_in(phrase, code)
    return wrong
