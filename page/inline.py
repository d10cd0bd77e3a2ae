#!/usr/bin/env python3
"""Makes one file of the page, its styles and scripts, the editor, the program and what it shows.

    python3 -m page.inline MODULE.wasm OUT.html [--unproved]

With --unproved the page says that its program is not proved. The meanings of codes, kinds and commands and the texts of the stories
come from words.json, and its phrases in all languages from languages.json, which `make words` makes. The refusals of sources come from
clients/. So nothing is said twice.
"""
from __future__ import annotations

import argparse
import base64
import json
import os
import re
import subprocess
import sys
import zlib
from typing import Any

from tools import kit
from tools.release import notices

HERE = os.path.dirname(os.path.realpath(__file__))
ROOT = os.path.dirname(HERE)

MIRROR = "/usr/share/javascript/codemirror"
LICENCE = "/usr/share/doc/libjs-codemirror/copyright"
# Later ones go before earlier ones.
STYLES = ["page", "panel", "source", "picture", "sizes", "embed"]
# Names stay as they are, so that a report of an error names functions of the source.
BUNDLE = ["--bundle", "--minify-whitespace", "--minify-syntax", "--charset=utf8", "--target=es2022", "--log-level=warning"]
# A command of a story, with what is told before it, and a story or an exercise as the page takes it.
Told = dict[str, str]
Story = dict[str, Any]
# What words.json has.
Words = dict[str, Any]
# What page.html says of a program that is not proved.
OF_UNPROVED = re.compile(r"<!--unproved:(.*?)-->")


def read(path: str) -> str:
    try:
        with open(path, encoding="utf-8") as it:
            return it.read()
    except OSError as error:
        package = ": install Debian's package libjs-codemirror" if path.startswith("/usr/") else ""
        kit.stop(f"cannot read {path} ({error.strerror}){package}")


def one_script(entry: str, form: str) -> str:
    """Joins a module and those that it needs to one script without comments, in a form that esbuild knows."""
    words = ["esbuild", f"src/{entry}", *BUNDLE, f"--format={form}"]
    try:
        ran = subprocess.run(words, cwd=HERE, stdout=subprocess.PIPE, stderr=subprocess.PIPE, encoding="utf-8")
    except OSError:
        kit.stop("there is no 'esbuild' on the path: install Debian's package esbuild")
    if ran.returncode:
        sys.stderr.write(ran.stderr)
        kit.stop(f"page/src/{entry} and the modules that it needs cannot be joined: see what esbuild says above")
    return ran.stdout


def told_words() -> Words:
    """What `words/make.py` leaves for the page."""
    words: Words = json.loads(read(f"{HERE}/words.json"))
    return words


def told_languages() -> dict[str, Any]:
    """The languages of the page, and its phrases in each, as `words/make.py` leaves them."""
    languages: dict[str, Any] = json.loads(read(f"{HERE}/languages.json"))
    return languages


def story(entry: str | dict[str, str], level: str, words: Words) -> Story:
    """A story of the menu: its source, and its commands with what is told before each."""
    entry = {"name": entry} if isinstance(entry, str) else entry
    name = entry["name"]
    folders = [f"{ROOT}/crates/sessions/data/{name}", f"{ROOT}/examples/{name}"]
    path = f"{ROOT}/{entry['file']}" if "file" in entry else next(it for it in folders if os.path.exists(f"{it}.go"))
    told = words["stories"].get(name, {"title": "", "told": []})
    script = entry.get("script") or (read(f"{path}.script") if os.path.exists(f"{path}.script") else "run 1000")
    commands = [{"text": "", "command": it} for it in script.splitlines() if it.strip()]
    return {
        "name": name,
        "title": entry.get("title") or told["title"] or name.replace("_", " "),
        "source": read(f"{path}.go"),
        "shows": entry.get("shows") or words["shows"].get(name, ""),
        "level": level,
        "told": with_texts(commands, told["told"]),
    }


def with_texts(commands: list[Told], narrated: list[Told]) -> list[Told]:
    """The commands of a script, with the texts that lead to the same commands, in their order."""
    at = 0
    for it in narrated:
        later = next((place for place in range(at, len(commands)) if commands[place]["command"] == it["command"]), None)
        if later is not None:
            commands[later]["text"] = it["text"]
            at = later + 1
    return commands


def stories(words: Words) -> list[Story]:
    """Returns the stories of the menu, in its order."""
    return [story(it, group["level"], words) for group in json.loads(read(f"{HERE}/menu.json")) for it in group["stories"]]


def exercises() -> list[dict[str, Any]]:
    found = []
    for it in json.loads(read(f"{HERE}/exercises.json")):
        kept = {name: it.get(name) for name in ("name", "title", "level", "task", "hint", "goal")}
        found.append({**kept, "source": read(f"{ROOT}/{it['source']}"), "before": it.get("before", [])})
    return found


def given() -> dict[str, Any]:
    """All that the page shows and does not compute."""
    words = told_words()
    refusals = json.loads(read(f"{ROOT}/clients/rewind_client/refusals.json"))
    told = {name: words[name] for name in ("codes", "kinds", "faults", "go", "commands", "version")}
    licence = notices.of_page(kit.folder(), read(LICENCE))
    languages = told_languages()["languages"]
    return {**told, "languages": languages, "stories": stories(words), "exercises": exercises(), "refusals": refusals, "licence": licence}


def deflated(content: bytes) -> str:
    """Bytes, deflated, in base 64."""
    deflater = zlib.compressobj(9, zlib.DEFLATED, -15)
    return base64.b64encode(deflater.compress(content) + deflater.flush()).decode()


def phrases() -> str:
    """The phrases of the page in all languages, deflated, in base 64."""
    return deflated(json.dumps(told_languages()["phrases"], ensure_ascii=False).encode())


def program(wasm: str) -> str:
    """The module, deflated, in base 64."""
    if not os.path.isfile(wasm):
        kit.stop(f"there is no module {wasm}")
    with open(wasm, "rb") as it:
        return deflated(it.read())


def page(wasm: str, is_proved: bool) -> str:
    """The text of the page."""
    styles = [f"{MIRROR}/lib/codemirror.css", *(f"{HERE}/src/style/{name}.css" for name in STYLES)]
    scripts = [read(f"{MIRROR}/lib/codemirror.js"), read(f"{MIRROR}/mode/go/go.js")]
    safe = json.dumps(given()).replace("</", "<\\/")
    parts = [f'<script id="program" type="application/octet-stream">{program(wasm)}</script>']
    parts += [f'<script id="phrases" type="application/octet-stream">{phrases()}</script>']
    parts += [f'<script id="given" type="application/json">{safe}</script>']
    parts += [f'<script id="worker" type="text/plain">\n{one_script("engine/worker.js", "iife")}</script>']
    parts += ["<script>" + it.replace("</script", "<\\/script") + "</script>" for it in scripts]
    parts += [f'<script type="module">\n{one_script("main.js", "esm")}</script>']
    text = OF_UNPROVED.sub("" if is_proved else r"\1", read(f"{HERE}/src/page.html"))
    text = text.replace("<!--STYLES-->", "".join(f"<style>{read(it)}</style>\n" for it in styles))
    return text.replace("<!--SCRIPTS-->", "\n".join(parts))


def main() -> None:
    parser = argparse.ArgumentParser(description="Makes one file of the page, the program and what it shows.")
    parser.add_argument("wasm", metavar="MODULE.wasm")
    parser.add_argument("out", metavar="OUT.html")
    parser.add_argument("--unproved", action="store_true", help="the page says that its program is not proved")
    asked = parser.parse_args()
    kit.writable(asked.out)
    text = page(asked.wasm, is_proved=not asked.unproved)
    with open(f"{asked.out}.part", "w", encoding="utf-8") as it:
        it.write(text)
    os.replace(f"{asked.out}.part", asked.out)


main()
