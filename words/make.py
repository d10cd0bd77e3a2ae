#!/usr/bin/env python3
"""Writes what is said of commands, codes and exit statuses from the texts beside this file.

    python3 -m words.make           writes them
    python3 -m words.make --check   fails where one does not stand as made, where a code of the definitions has no text, or where a phrase
                                    of the page lacks a translation

These are the program's constants (crates/gr_console/src/words.rt, meanings), the list of the codes (its specs/Codes.antt), the
manual page (docs/rewind.1), the marked tables of docs/COMMANDS.md and docs/LANGUAGE.md, the sessions and stories of
docs/SESSIONS.md, and what the clients and the page know of these (clients/rewind_client/words.json, page/words.json). What the page
says in other languages stands in the folder `languages`, and becomes page/languages.json.
"""
import argparse
import json
import os
import re
import sys
import textwrap
from collections.abc import Sequence

from words import languages, stories
from words.texts import CODES, COMMANDS, EXAMPLE, PROGRAM, SESSIONS, TEXTS, TITLES, Entry, bare, filled, plain

ROOT = os.path.dirname(os.path.dirname(os.path.realpath(__file__)))

WORDS = "crates/gr_console/src/words.rt"
MEANINGS = "crates/gr_console/src/meanings"
NAMES = "crates/gr_console/specs/Codes.antt"
MANUAL = "docs/rewind.1"
CLIENTS = "clients/rewind_client/words.json"
PAGE = "page/words.json"
PHRASES = "page/languages.json"
WIDTH = 78


def read(path: str) -> str:
    with open(os.path.join(ROOT, path), encoding="utf-8") as file:
        return file.read()


def wrapped(text: str, first: str = "", rest: str = "") -> str:
    return textwrap.fill(
        text, WIDTH, initial_indent=first, subsequent_indent=rest, break_long_words=False, break_on_hyphens=False
    )


def columns(rows: list[tuple[str, str]], indent: str = "  ") -> str:
    """Rows of two cells, the second wrapped beside the first."""
    width = max(len(left) for left, _ in rows) + 2
    lines = []
    for left, right in rows:
        lines.append(wrapped(right, indent + left.ljust(width), indent + " " * width))
    return "\n".join(lines)


# What the program says.


def meaning_line(entry: Entry) -> str:
    """What a terminal shows of a code."""
    return f"{entry.name}: {plain(entry.means)} (more: rewind --explain {entry.name})\n"


def page(section: str, entry: Entry) -> str:
    """What `--explain` says; its first line is what a terminal shows."""
    parts = [f"{entry.name}: {plain(entry.means)}"]
    if entry.example:
        example = plain(entry.example)
        if entry.at:
            place = "at " if entry.at[0].isdigit() else ""
            example += f" is refused {place}{plain(entry.at)}"
        if entry.at.startswith("3:"):
            example += " (on line 3 of a file, in the body of 'main', after a tab)"
        parts.append(wrapped(f"Example: {example}."))
    lead = "" if section == "kinds" else "What to do: "
    parts.append(wrapped(lead + plain(entry.do)))
    return "\n\n".join(parts) + "\n"


def help_text() -> str:
    commands = columns([(bare(entry.name), bare(entry.short)) for entry in COMMANDS])
    statuses = columns([(entry.name, plain(entry.when)) for entry in PROGRAM["statuses"]])
    replies = textwrap.indent(EXAMPLE["replies"], "  ")
    return "\n\n".join([
        "Commands, one a line on standard input:\n" + commands,
        wrapped(plain(TEXTS["names"])),
        "Exit status:\n" + statuses,
        f"Example:\n  $ {EXAMPLE['commands']}\n{replies}",
        wrapped("'rewind --explain CODE' tells of each code, and docs/COMMANDS.md of each command and reply."),
    ])


def literal(text: str) -> str:
    """A text as a literal of the program, its lines below each other."""
    escaped = text.replace("\\", "\\\\").replace('"', '\\"')
    fits = len(text) < 56 and "\n" not in text
    return f'"{escaped}"' if fits else f'"\\\n{escaped}"'


def constant(name: str, text: str, public: bool = False) -> str:
    reach = "pub" if public else "pub(crate)"
    return f"{reach} const {name}: &str = {literal(text)};\n"


def explanations() -> list[tuple[str, Entry]]:
    return [(section, entry) for section in CODES if section for entry in CODES[section]]


def strange_code() -> str:
    rows = [(TITLES[section], ", ".join(entry.name for entry in CODES[section])) for section in CODES if section]
    known = "\n".join(wrapped(f"{title}: {names}", "  ", "    ") for title, names in rows)
    return f"error: {plain(TEXTS['strange'])}\n\nIt knows these:\n{known}\n\nFor more information, try '--help'.\n"


def not_text() -> str:
    """What is told of arguments that `clap` is not given, in its form."""
    told = "error: invalid UTF-8 was detected in one or more arguments"
    return f"{told}\n\nUsage: {USAGE}\n\nFor more information, try '--help'.\n"


ABOUT = wrapped(plain(TEXTS["about"]))
USAGE = "\n       ".join(entry.plain for entry in PROGRAM["usage"])
HELP = help_text()
PROMPT = "(rewind) "
BANNER = plain(TEXTS["banner"]) + "\n" + PROMPT
NO_COMMAND = plain(TEXTS["no command"]) + "\n"
FILES = {entry.name: plain(entry.text) + "\n" for entry in PROGRAM["files"]}


def words() -> str:
    parts = [
        "//! What the program says in plain words. Made by words/make.py from the texts beside it: change those.\n",
        constant("VERSION", TEXTS["version"]),
        constant("ABOUT", ABOUT),
        constant("USAGE", USAGE),
        constant("HELP", HELP),
        constant("NOTHING_ASKED", plain(TEXTS["nothing"])),
        constant("TOO_MUCH_ASKED", plain(TEXTS["conflict"])),
    ]
    parts += [constant(entry.constant, plain(entry.does)) for entry in PROGRAM["options"] if entry.constant]
    parts += [
        constant("PROMPT", PROMPT),
        constant("NO_COMMAND", NO_COMMAND),
        constant("BANNER", BANNER),
        "/// What is said of arguments that are not UTF-8.\n" + constant("NOT_TEXT", not_text(), True),
        "/// What is said of a code that is none.\n" + constant("STRANGE_CODE", strange_code(), True),
    ]
    for entry in PROGRAM["files"]:
        parts.append(f"/// What is said of a file that {entry.of}.\n" + constant(entry.constant, FILES[entry.name], True))
    return "\n".join(parts)


def pages(section: str) -> str:
    """The module of a section: each code with its page."""
    rows = []
    for entry in CODES[section]:
        text = literal(page(section, entry))
        rows.append(f'    (\n        b"{entry.name}",\n        {text},\n    ),\n')
    title = TITLES[section][0].lower() + TITLES[section][1:]
    return (
        f"//! Pages on {title}. Made by words/make.py from the texts beside it: change those.\n"
        "ghost use Rattle.std.specs.Prelude.{◌≡◌, IfSome, is_some};\n"
        "ghost use Rattle.gr_console.specs.Explanations.{IsOn, is_among};\n"
        f"ghost use Rattle.gr_console.specs.Codes.{{{section} as names}};\n\n"
        "use crate::pages::page_in;\n\n"
        f"const PAGES: [(&[u8], &str); {len(rows)}] = [\n{''.join(rows)}];\n\n"
        f"#[tactic(auto, unfolding(crate::specs::Codes::{section}))]\n"
        f"pub(crate) fn {section}(code: &[u8]) -> Option<&'static str>\n"
        "    ensures told { is_some result ≡ is_among names code.now }\n"
        "    ensures page { IfSome result (λ page. IsOn code.now page.now) }\n"
        "{\n    page_in(&PAGES, code)\n}\n"
    )


def names() -> str:
    """The codes that have a page, as definitions."""
    parts = [
        "-- The codes of which the program tells. Made by words/make.py from the texts beside it: change those.\n"
        "use Rattle.std.specs.Prelude.{ℕ, List, [], ◌∷◌, codes}\n"
    ]
    for section in CODES:
        if section:
            listed_names = "".join(f'    codes "{entry.name}" ∷\n' for entry in CODES[section])
            head = f"-- {TITLES[section]}\nunfoldable pub {section} : List (List ℕ)\n{section} =\n"
            parts.append(f"{head}{listed_names.rstrip()} []\n")
    return "\n".join(parts)


# The manual page.


def roff(text: str) -> str:
    text = filled(text).replace("\\", "\\e").replace("-", "\\-")
    text = re.sub(r"`([^`]*)`", r"\\fB\1\\fR", text)
    return re.sub(r"^([.'])", r"\\&\1", text)


def tagged(rows: list[tuple[str, str]]) -> str:
    return "".join(f".TP\n{tag}\n{text}\n" for tag, text in rows)


def manual() -> str:
    forms = [entry.form for entry in PROGRAM["usage"]]
    synopsis = "\n.br\n".join(f".B rewind\n{roff(form)}" for form in forms)
    options = [(f"\\fB{roff(entry.name)}\\fR", roff(entry.does) + ".") for entry in PROGRAM["options"]]
    commands = [(roff(entry.name), f"{roff(entry.does)}. Reply: {roff(entry.reply)}.") for entry in COMMANDS]
    statuses = [(entry.name, f"{roff(entry.when)}. On standard error: {roff(entry.tells)}.") for entry in PROGRAM["statuses"]]
    example = "\n".join(roff(line) for line in [f"$ {EXAMPLE['commands']}"] + EXAMPLE["replies"].splitlines())
    parts = [
        '.\\" Made by words/make.py from the texts beside it: change those.\n',
        f'.TH REWIND 1 "" "Rewind {TEXTS["version"]}" "User Commands"\n',
        f".SH NAME\nrewind \\- {roff(TEXTS['name'])}\n",
        f".SH SYNOPSIS\n{synopsis}\n",
        f".SH DESCRIPTION\n{roff(TEXTS['about'])}\n.PP\n{roff(TEXTS['commands'])}\n.PP\n{roff(TEXTS['terminal'])}\n",
        f".SH OPTIONS\n{tagged(options)}",
        f".SH COMMANDS\n{roff(TEXTS['names'])}\n{tagged(commands)}",
    ]
    for section in CODES:
        if section:
            rows = [(f"\\fB{roff(entry.row.strip('`') or entry.name)}\\fR", roff(entry.means)) for entry in CODES[section]]
            parts.append(f".SH {roff(TITLES[section].upper())}\n{tagged(rows)}")
    parts += [
        f".SH EXIT STATUS\n{tagged(statuses)}",
        f".SH EXAMPLE\n.nf\n{example}\n.fi\n",
        ".SH SEE ALSO\nCOMMANDS.md, LANGUAGE.md and SESSIONS.md in share/doc/rewind/docs, beside the folder of the program\n",
    ]
    return "".join(parts)


# The tables of the documents.


def row(cells: Sequence[str]) -> str:
    return "|" + "".join(f" {filled(cell)} |" if cell else " |" for cell in cells) + "\n"


def table(head: Sequence[str], rows: Sequence[Sequence[str]]) -> str:
    return row(head) + "|" + "---|" * len(head) + "\n" + "".join(row(cells) for cells in rows)


def tables() -> dict[str, dict[str, str]]:
    sources = [(it.name, it.means, it.example, it.at) for it in CODES["sources"]]
    replies = [(it.name, it.means, it.example) for it in CODES["replies"]]
    sessions = [(it.name, it.shows) for it in SESSIONS]
    return {
        "docs/SESSIONS.md": {"sessions": table(["Session", "What it shows"], sessions), "stories": stories.sections()},
        "docs/LANGUAGE.md": {"sources": table(["Code", "Meaning", "Example", "Refused at"], sources)},
        "docs/COMMANDS.md": {
            "commands": table(
                ["Command", "What it does", "Reply"], [(it.name, it.does, it.reply) for it in COMMANDS]
            ),
            "kinds": table(["Kind", "What the step did"], [(it.row or f"`{it.name}`", it.means) for it in CODES["kinds"]]),
            "faults": table(["Fault", "Meaning", "Example"], [(f"`{it.name}`", it.means, it.example) for it in CODES["faults"]]),
            "replies": table(["Code", "Meaning", "Example"], replies),
            "statuses": table(
                ["Status", "When", "On standard error"], [(it.name, it.when, it.tells) for it in PROGRAM["statuses"]]
            ),
        },
    }


def with_tables(page_name: str, made: dict[str, str]) -> str:
    text = read(page_name)
    for name, content in made.items():
        mark, end = f"<!-- words: {name} -->\n", f"<!-- end of {name} -->\n"
        if text.count(mark) != 1 or text.count(end) != 1:
            sys.exit(f"{page_name}: no place for the table '{name}'")
        before, rest = text.split(mark)
        text = before + mark + content + end + rest.split(end)[1]
    return text


# What the clients and the page know.


def as_json(told: object) -> str:
    return json.dumps(told, indent=1, ensure_ascii=False) + "\n"


def words_of_go() -> dict[str, str]:
    """What Go says of faults and of a deadlock."""
    return {it.name: it.go for section in CODES for it in CODES[section] if it.go}


def client_words() -> str:
    """The meaning of each code by section, what Go says of faults and of a deadlock, and the version."""
    told = {section: {it.name: plain(it.means) for it in CODES[section]} for section in CODES if section}
    return as_json({**told, "go": words_of_go(), "program": {"version": TEXTS["version"]}})


def page_words() -> str:
    """What the page shows of codes, kinds of steps, faults, commands, sessions and stories, without marks."""
    kinds = {name.split()[0]: bare(it.means) for it in CODES["kinds"] for name in bare(it.row or it.name).split(", ")}
    return as_json({
        "codes": {it.name: bare(it.means) for it in CODES["sources"] + CODES["replies"]},
        "kinds": kinds,
        "faults": {it.name: bare(it.means) for it in CODES["faults"]},
        "go": words_of_go(),
        "commands": [[bare(it.name), bare(it.does)] for it in COMMANDS],
        "shows": {name: bare(it.shows) for it in SESSIONS for name in bare(it.name).split(", ")},
        "stories": stories.for_page(),
        "version": TEXTS["version"],
    })


def page_phrases() -> str:
    """The languages of the page, and each of its phrases in all of them, one a line."""
    made = languages.table()
    rows = ",\n".join(json.dumps(row, ensure_ascii=False) for row in made["phrases"])
    return f'{{"languages": {json.dumps(made["languages"], ensure_ascii=False)},\n"phrases": [\n{rows}\n]}}\n'


# That each code has its text.


def defined() -> dict[str, list[str]]:
    """The codes that the definitions name, by section."""
    report = read("crates/gr_serve/specs/Report.antt")
    texts = read("crates/gr_command/specs/Texts.antt")
    kinds = read("crates/gr_base/specs/Kinds.antt")
    lines = read("crates/gr_serve/specs/Replies.antt")
    refusals = re.findall(r'codes "no ([A-Z]\d)', texts + lines)
    return {
        "sources": re.findall(r'codes "([SPC]\d+)"', report),
        "replies": sorted(set(refusals)),
        "kinds": [re.findall(r"^[\w-]+", it)[0] for it in re.findall(r'^kind_text .* = codes "([^"]*)', kinds, re.M)],
        "faults": re.findall(r'^fault_text .* = codes "([^"]*)"', kinds, re.M),
        "ends": [it.strip() for it in re.findall(r'^end_text .* = codes "([^"]*)', texts, re.M)],
    }


def without_text() -> list[str]:
    """What the definitions name and no text tells, and the other way round."""
    wrong = []
    for section, codes in defined().items():
        told = {entry.name for entry in CODES[section]}
        known = told | ({"fault", "memory"} if section == "ends" else set())
        wrong += [f"{section}: {code} has no text" for code in set(codes) - known]
        wrong += [f"{section}: {code} is not told by the program" for code in told - set(codes)]
    return wrong


def main() -> None:
    parser = argparse.ArgumentParser(description="Writes what is said of commands, codes and exit statuses.")
    parser.add_argument("--check", action="store_true", help="fail where one does not stand as made, or a code or a phrase has no text")
    asked = parser.parse_args()
    made = {WORDS: words(), NAMES: names(), MANUAL: manual(), CLIENTS: client_words(), PAGE: page_words(), PHRASES: page_phrases()}
    made.update((f"{MEANINGS}/{section}.rt", pages(section)) for section in CODES if section)
    made.update((name, with_tables(name, content)) for name, content in tables().items())
    wrong = without_text() + languages.faults()
    for path, text in made.items():
        whole = os.path.join(ROOT, path)
        stands = os.path.exists(whole) and read(path) == text
        if asked.check:
            wrong += [] if stands else [f"{path}: not as words/make.py makes it (make words)"]
        elif not stands:
            with open(whole, "w", encoding="utf-8") as file:
                file.write(text)
    print("\n".join(wrong) or "all words stand as made")
    sys.exit(1 if wrong else 0)


if __name__ == "__main__":
    main()
