"""What a sentence of refusals.json may name besides the groups of its form."""
from __future__ import annotations

import re
from typing import Optional

from .tokens import Token, open_brackets

ESCAPES = {"n": 10, "t": 9, "r": 13, "a": 7, "b": 8, "f": 12, "v": 11, "\\": 92, "'": 39}


def computed(word: str) -> dict[str, str]:
    """What can be reckoned from a literal: the number of a rune, a text in double quotes, and an exponent as a whole number."""
    fields = {}
    rune = rune_of(word[1:-1]) if len(word) > 2 and word[0] == "'" == word[-1] else None
    if rune is not None:
        fields["rune"] = str(rune)
    if len(word) > 1 and word[0] == "`" == word[-1]:
        fields["quoted"] = '"' + word[1:-1].replace("\\", "\\\\").replace('"', '\\"') + '"'
    whole = whole_of(word.replace("_", ""))
    if whole:
        fields["whole"] = whole
    if re.fullmatch("[0-9]+", word):
        fields["decimal"] = word.lstrip("0") or "0"
    return fields


def rune_of(text: str) -> Optional[int]:
    """The number of a letter, or of an escape in its place."""
    if len(text) == 1:
        return ord(text)
    if re.fullmatch(r"\\x[0-9a-fA-F]{2}|\\u[0-9a-fA-F]{4}|\\U[0-9a-fA-F]{8}", text):
        return int(text[2:], 16)
    if re.fullmatch(r"\\[0-7]{3}", text):
        return int(text[1:], 8)
    return ESCAPES.get(text[1:]) if text[0] == "\\" else None


def whole_of(number: str) -> str:
    """A number with a fraction or an exponent in full, or "" where it is not whole or too large."""
    match = re.fullmatch(r"([0-9]*)\.?([0-9]*)(?:[eE]\+?([0-9]{1,2}))?", number)
    if match is None or not number:
        return ""
    digits = match[1] + match[2].rstrip("0")
    places = int(match[3] or 0) - len(match[2].rstrip("0"))
    whole = (digits + "0" * places).lstrip("0") or "0" if places >= 0 else ""
    return whole if len(whole) < 19 else ""


def around(tokens: list[Token], number: int, lines: list[str]) -> dict[str, str]:
    """What a sentence may name besides the groups: the function and the brackets around a place, and the lines there."""
    opened = [token.text for token in open_brackets(tokens[:number])]
    fields = {"word": tokens[number].text}
    if opened:
        fields["opening"], fields["opening_line"] = opened[-1], str(open_brackets(tokens[:number])[-1].line)
    parentheses = next((n for n, text in enumerate(reversed(opened)) if text != "("), len(opened))
    fields["closing"] = ")" * parentheses
    fields["braces"] = "}" * opened.count("{")
    fields["missing"] = "a } is missing" if opened.count("{") == 1 else f"{opened.count('{')} }} are missing"
    fields.update(function_around(tokens, number))
    line = tokens[number].line
    fields["here"] = lines[line - 1].split("//")[0].strip() if line <= len(lines) else ""
    return fields


def function_around(tokens: list[Token], number: int) -> dict[str, str]:
    """The function at a place, and a letter that no parameter in its heading has."""
    for index in range(min(number, len(tokens) - 2) - 1, -1, -1):
        if tokens[index].text == "func" and tokens[index + 1].kind == "name":
            taken = {token.text for token in tokens[index : number + 20]}
            letter = next((each for each in "abcdefgh" if each not in taken), "other")
            return {"function": tokens[index + 1].text, "function_line": str(tokens[index].line), "letter": letter}
    return {}
