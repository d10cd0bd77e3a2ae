"""Sources of every depth: forms that nest, and how deep they may (docs/LANGUAGE.md, 'Limits')."""
from __future__ import annotations

from collections.abc import Callable

# A text of so many levels, and the most levels that it may have.
Form = tuple[Callable[[int], str], int]

LEVELS = 200
MIB = 1 << 20


def in_main(text: str) -> str:
    return f"package main\nfunc main() {{\n\t{text}\n}}\n"


def around(opening: str, middle: str, closing: str, within: int = 0) -> Form:
    """Statements around each other, and how deep they may be, with so many levels within the innermost."""
    return lambda n: in_main(opening * n + middle + closing * n), LEVELS - within


# A leaf is one level, and so is the statement that an expression or a type stands in.
FORMS: dict[str, Form] = {
    "blocks": around("{", "", "}"),
    "blocks on lines": around("{\n", "println(1)\n", "}\n", 3),
    "parentheses": (lambda n: in_main("x := " + "(" * n + "1" + ")" * n), LEVELS - 2),
    "signs": (lambda n: in_main("x := " + "- " * n + "1"), LEVELS - 2),
    "not": (lambda n: in_main("x := " + "!" * n + "true"), LEVELS - 2),
    "receives": (lambda n: in_main("var c chan int; " + "<-" * n + "c"), LEVELS - 2),
    "sums": (lambda n: in_main("x := 1" + " + 1" * n), LEVELS - 2),
    "products": (lambda n: in_main("x := 1" + " * 1" * n), LEVELS - 2),
    "conditions": (lambda n: in_main("x := true" + " && true" * n), LEVELS - 2),
    "calls": (lambda n: "package main\nfunc f(x int) int { return x }\nfunc main() { x := " + "f(" * n + "1" + ")" * n + " }\n",
              LEVELS - 2),
    "if": around("if true {", "", "}", 1),
    "else if": (lambda n: in_main("if true {}" + " else if true {}" * n), LEVELS - 2),
    "else": around("if true {} else {", "", "}", 1),
    "for": around("for {", "", "}"),
    "for with a condition": around("for true {", "", "}", 1),
    "select": around("select { default: ", "", "}"),
    "select with a receive": (lambda n: in_main("var c chan int; " + "select { case <-c: " * n + "}" * n), LEVELS - 2),
    "labels": (lambda n: in_main("".join(f"L{i:06}: " for i in range(n)) + "{}"), LEVELS - 1),
    "channel types": (lambda n: in_main("var c " + "chan " * n + "int"), LEVELS - 2),
    "receiving types": (lambda n: in_main("var c " + "<-chan " * n + "int"), LEVELS - 2),
    "types in parentheses": (lambda n: in_main("var c " + "(" * n + "int" + ")" * n), LEVELS - 2),
    "parameters": (lambda n: "package main\nfunc f(c " + "chan " * n + "int) {}\nfunc main() {}\n", LEVELS - 1),
    "results": (lambda n: "package main\nfunc f() " + "chan " * n + "int { for {} }\nfunc main() {}\n", LEVELS - 1),
    "made types": (lambda n: in_main("c := make(" + "chan " * n + "int)"), LEVELS - 3),
    "functions in functions": (lambda n: "package main\nfunc main() {" + "func() {" * n + "}" * (n + 1), 0),
    "openings alone": (lambda n: in_main("{" * n), 0),
    "parentheses alone": (lambda n: in_main("x := " + "(" * n), 0),
    "brackets": (lambda n: in_main("x := " + "[" * n), 0),
}


def depths(form: str) -> list[int]:
    """Depths up to the limit, past it, and as far as a text goes."""
    text, most = FORMS[form]
    each = max(1, (len(text(2000)) - len(text(1000))) // 1000)
    deepest = (MIB - 200) // (each + 1)
    some = {0, 1, 2, 50, most - 1, most, most + 1, most + 2, 2 * LEVELS, 1000, 10000, 100000, deepest}
    return sorted(depth for depth in some if 0 <= depth <= deepest)
