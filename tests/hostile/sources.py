"""Random sources: programs that are well-typed, files of the grammar, token lists, and programs broken in one place."""
from __future__ import annotations

import re
from collections.abc import Callable, Sequence
from random import Random

KEYWORDS = ("break case chan const continue default defer else fallthrough for func go goto if import interface map package range "
            "return select struct switch type var").split()
OPERATORS = ("+ - * / % & | ^ << >> &^ += -= *= /= %= &= |= ^= <<= >>= &^= && || <- ++ -- == < > = ! != <= >= := ... "
             "( [ { , . ) ] } ; :").split()
NAMES = "a b c main f x y int bool true false nil len cap make close println string init _".split()
NUMBERS = "0 1 7 017 0x_F 0b1 1_0 9223372036854775808 9223372036854775807".split()
LITERALS = NUMBERS + ['"s"', '""', '"\\t\\\\"']
MALFORMED = ["08", "1__0", "0b2", "0xg", "1.5", "1e3", "2i", "0x1p2", "9223372036854775809", "'a'", "`raw`", '"\\n"', '"\\q"', '"open',
             "#", "$", "@", "\\", "?", "~", "/*", "/* c */", "// c\n", "\x00", "\x7f", "\xe9", "\xff"]
TOKENS = KEYWORDS + OPERATORS + NAMES + LITERALS
PIECE = re.compile(rb'"[^"\n]*"|[A-Za-z_0-9]+|<<=|>>=|&\^=|\.\.\.|<-|:=|\+\+|--|[-+*/%&|^=!<>]=|<<|>>|&\^|&&|\|\||\S')

# The variables that are known in a block, each with its type.
Scope = dict[str, str]


def token_list(chance: Random) -> bytes:
    """Random tokens, half of the times in the body of a function."""
    pool = TOKENS if chance.random() < 0.7 else TOKENS + MALFORMED
    text = " ".join(chance.choice(pool) + ("\n" if chance.random() < 0.1 else "") for _ in range(chance.randint(1, 60)))
    whole = text if chance.random() < 0.5 else f"package main\nfunc main() {{\n{text}\n}}\n"
    return whole.encode("latin-1")


def random_bytes(chance: Random) -> bytes:
    """Random bytes, or random bytes of the language, in the body of a function or not."""
    size = int(2 ** chance.uniform(0, 12))
    if chance.random() < 0.5:
        text = bytes(chance.getrandbits(8) for _ in range(size))
    else:
        text = bytes(chance.choice(b" \t\n\r(){}[]<>-+*/%&|^=!:;,.\"'`_019axfz\x00\x80\xff") for _ in range(size))
    return text if chance.random() < 0.5 else b"package main\nfunc main() {\n" + text + b"\n}\n"


def broken(chance: Random, text: bytes) -> bytes:
    """A text with one piece left out, put in or in place of another, a name in place of a name, or one byte changed."""
    pieces = [piece.span() for piece in PIECE.finditer(text)]
    at, end = chance.choice(pieces)
    other = chance.choice(pieces)
    names = [piece.span() for piece in re.finditer(rb"[A-Za-z_]\w*", text)]
    way = chance.randrange(9)
    if way > 5:
        (at, end), other = chance.choice(names), chance.choice(names)
        return text[:at] + text[slice(*other)] + text[end:]
    if way == 0:
        return text[:at] + text[end:]
    if way == 1:
        return text[:end] + b" " + text[at:]
    if way == 2:
        return text[:at] + chance.choice(TOKENS + MALFORMED).encode("latin-1") + text[end:]
    if way == 3:
        return text[:at] + text[slice(*other)] + text[end:]
    if way == 4:
        return text[:at] + b" " + chance.choice(TOKENS).encode() + b" " + text[at:]
    place = chance.randrange(len(text))
    return text[:place] + bytes([chance.getrandbits(8)]) + text[place + 1:]


class Grammar:
    """Files that the grammar spells, without regard to what names and types mean."""

    def __init__(self, chance: Random, levels: int = 5) -> None:
        self.chance, self.levels = chance, levels

    def one_of(self, *ways: Callable[[], str]) -> str:
        return self.chance.choice(ways)()

    def name(self) -> str:
        return self.chance.choice(("a", "b", "c", "f", "g", "int", "bool", "true", "nil", "len", "close", "println", "_"))

    def maybe(self, part: Callable[[], str], odds: float = 0.5) -> str:
        return part() if self.chance.random() < odds else ""

    def listed(self, part: Callable[[], str], most: int = 3, joint: str = " , ") -> str:
        return joint.join(part() for _ in range(self.chance.randint(1, most)))

    def type(self, level: int) -> str:
        if level <= 0 or self.chance.random() < 0.4:
            return self.chance.choice(("int", "bool", "struct { }"))
        inner = self.type(level - 1)
        return self.chance.choice(("chan " + inner, "chan <- " + inner, "<- chan " + inner, "( " + inner + " )"))

    def expressions(self, level: int) -> str:
        return self.listed(lambda: self.expression(level))

    def call(self, level: int) -> str:
        return self.name() + " ( " + self.maybe(lambda: self.expressions(level - 1) + self.maybe(lambda: " ,", 0.2), 0.8) + " )"

    def operand(self, level: int) -> str:
        if level <= 0:
            return self.chance.choice(("0", "1", "a", "b", "c", "true", '"s"', "nil"))
        return self.one_of(
            lambda: self.operand(0), lambda: self.operand(0), lambda: self.call(level), lambda: "struct { } { }",
            lambda: "( " + self.expression(level - 1) + " )",
            lambda: "make ( " + self.type(2) + self.maybe(lambda: " , " + self.expression(level - 1)) + " )")

    def unary(self, level: int) -> str:
        return self.maybe(lambda: self.chance.choice(("+ ", "- ", "! ", "^ ", "<- ")), 0.3) + self.operand(level)

    def expression(self, level: int) -> str:
        operators = "* / % << >> & &^ + - | ^ == != < <= > >= && ||".split()
        parts = [self.unary(level)]
        while self.chance.random() < 0.3 and len(parts) < 6:
            parts += [self.chance.choice(operators), self.unary(level - 1)]
        return " ".join(parts)

    def simple(self, level: int, defines: bool = True) -> str:
        names = self.listed(self.name)
        ways = [lambda: self.expression(level), lambda: self.expression(level) + " <- " + self.expression(level),
                lambda: names + " = " + self.expressions(level), lambda: self.name() + self.chance.choice((" ++", " --")),
                lambda: self.name() + " " + self.chance.choice(("+=", "-=", "*=", "&^=", "<<=")) + " " + self.expression(level)]
        return self.one_of(*ways + [lambda: names + " := " + self.expressions(level)] * (3 if defines else 0))

    def block(self, level: int) -> str:
        return "{\n" + self.statements(level) + "}"

    def statements(self, level: int) -> str:
        return "".join(self.maybe(lambda: self.statement(level), 0.95) + ";\n" for _ in range(self.chance.randint(0, 3)))

    def condition(self, level: int) -> str:
        return self.maybe(lambda: self.maybe(lambda: self.simple(1)) + " ; ", 0.3) + self.expression(1) + " "

    def if_statement(self, level: int) -> str:
        def otherwise() -> str:
            return " else " + self.one_of(lambda: self.if_statement(level - 1), lambda: self.block(level - 1))

        return "if " + self.condition(level) + self.block(level - 1) + (self.maybe(otherwise) if level > 0 else "")

    def for_statement(self, level: int) -> str:
        heading = self.one_of(
            lambda: self.maybe(lambda: self.expression(1)),
            lambda: self.maybe(lambda: self.simple(1)) + " ; " + self.maybe(lambda: self.expression(1)) + " ; "
            + self.maybe(lambda: self.simple(1, defines=False)),
            lambda: self.maybe(lambda: self.name() + self.chance.choice((" = ", " := "))) + "range " + self.expression(1))
        return "for " + heading + " " + self.block(level - 1)

    def receive(self) -> str:
        return self.one_of(lambda: "<- " + self.unary(1), lambda: "( <- " + self.unary(1) + " )")

    def communication(self) -> str:
        return self.one_of(lambda: self.expression(1) + " <- " + self.expression(1), self.receive,
                           lambda: self.listed(self.name, 2) + self.chance.choice((" = ", " := ")) + self.receive())

    def select(self, level: int) -> str:
        clauses = [self.chance.choice(("default", "case " + self.communication(), "case " + self.communication())) + " :\n"
                   + self.statements(level - 1) for _ in range(self.chance.randint(0, 3))]
        return "select {\n" + "".join(clauses) + "}"

    def statement(self, level: int) -> str:
        flat = [lambda: self.simple(2), lambda: self.simple(2), lambda: "go " + self.call(1),
                lambda: "var " + self.listed(self.name) + " " + self.type(2) + self.maybe(lambda: " = " + self.expressions(1)),
                lambda: "var " + self.listed(self.name) + " = " + self.expressions(1),
                lambda: "return " + self.maybe(lambda: self.expression(2)),
                lambda: self.chance.choice(("break ", "continue ")) + self.maybe(self.name, 0.3)]
        nested = [lambda: self.block(level - 1), lambda: self.if_statement(level), lambda: self.for_statement(level),
                  lambda: self.select(level), lambda: self.name() + " : " + self.maybe(lambda: self.statement(level - 1), 0.8)]
        return self.one_of(*flat + (nested if level > 0 else []))

    def function(self, name: str) -> str:
        parameters = self.chance.sample(("a", "b", "c", "x", "_"), self.chance.randint(0, 4))
        groups = " , ".join(name + " " + self.type(2) for name in parameters) + self.maybe(lambda: " ,", 0.2) * bool(parameters)
        return "func " + name + " ( " + groups + " ) " + self.maybe(lambda: self.type(1) + " ", 0.3) + self.block(self.levels)

    def file(self) -> bytes:
        functions = [self.function(name) for name in self.chance.sample("fgh", self.chance.randint(0, 2))]
        functions.append("func main ( ) " + self.block(self.levels))
        return ("package main;\n" + "".join(text + ";\n" for text in functions)).encode()


class Typed:
    """Programs that are well-typed, of all forms of the language."""

    TYPES = ("int", "int", "int", "bool", "chan int", "chan int", "chan bool", "<-chan int", "chan<- int", "struct{}")

    def __init__(self, chance: Random) -> None:
        self.chance, self.count = chance, 0

    def fresh(self) -> str:
        self.count += 1
        return f"v{self.count}"

    def held(self, scope: Scope, *types: str) -> list[str]:
        """The variables of these types."""
        return [name for name, type in scope.items() if type in types]

    def sends(self, scope: Scope) -> list[str]:
        return self.held(scope, "chan int", "chan<- int")

    def receives(self, scope: Scope) -> list[str]:
        return self.held(scope, "chan int", "<-chan int")

    def number(self, scope: Scope, level: int) -> str:
        pick, held = self.chance.random(), self.held(scope, "int")
        if level <= 0 or pick < 0.35:
            return self.chance.choice(held if held and pick < 0.25 else ("0", "1", "2", "7", "100", "0x1F", "0b101", "017"))

        def part() -> str:
            return self.number(scope, level - 1)

        if pick < 0.65:
            return f"{part()} {self.chance.choice(('+', '-', '*', '&', '|', '^', '&^'))} {part()}"
        if pick < 0.72:
            return f"({part()})"
        if pick < 0.8:
            return self.chance.choice("-^+") + f"({part()})"
        if pick < 0.86 and self.receives(scope):
            return "<-" + self.chance.choice(self.receives(scope))
        channels = [name for name, type in scope.items() if "chan" in type]
        if pick < 0.93 and channels:
            return self.chance.choice(("len", "cap")) + f"({self.chance.choice(channels)})"
        return f"twice({part()})"

    def truth(self, scope: Scope, level: int) -> str:
        pick, held = self.chance.random(), self.held(scope, "bool")
        if level <= 0 or pick < 0.2:
            return self.chance.choice(held + ["true", "false"])
        if pick < 0.6:
            comparison = self.chance.choice(("==", "!=", "<", "<=", ">", ">="))
            return f"{self.number(scope, level - 1)} {comparison} {self.number(scope, level - 1)}"
        if pick < 0.8:
            return f"({self.truth(scope, level - 1)} {self.chance.choice(('&&', '||'))} {self.truth(scope, level - 1)})"
        channels = self.held(scope, "chan int")
        if pick < 0.9 or not channels:
            return "!" + self.chance.choice(held + ["true"])
        return f"{self.chance.choice(channels)} == nil"

    def value(self, scope: Scope, type: str) -> str:
        if type == "int":
            return self.number(scope, 3)
        if type == "bool":
            return self.truth(scope, 3)
        if type == "struct{}":
            return "struct{}{}"
        held = self.held(scope, type) + (self.held(scope, "chan int") if type in ("<-chan int", "chan<- int") else [])
        if held and self.chance.random() < 0.5:
            return self.chance.choice(held)
        size = self.chance.choice(("", "", ", 2", f", {self.chance.randint(0, 9)}"))
        return f"make({type if type.startswith('chan ') else 'chan int'}{size})"

    def define(self, scope: Scope) -> str:
        type = self.chance.choice(self.TYPES)
        name, value = self.fresh(), self.value(scope, type)
        plain = type not in ("<-chan int", "chan<- int")
        scope[name] = type
        ways = [f"var {name} {type} = {value}", f"var {name} {type}"]
        return self.chance.choice(ways + [f"{name} := {value}"] * (2 if plain else 0))

    def assign(self, scope: Scope) -> str:
        held = self.held(scope, "int")
        if not held:
            return f"_ = {self.number(scope, 2)}"
        x, y = self.chance.choice(held), self.chance.choice(held)
        operator = self.chance.choice(("+=", "-=", "*=", "&=", "|=", "^=", "&^="))
        return self.chance.choice((
            f"{x} = {self.number(scope, 3)}", f"{x}, {y} = {y}, {x}",
            f"{x} {operator} {self.number(scope, 2)}",
            x + self.chance.choice(("++", "--")), f"{x}, _ = {self.number(scope, 1)}, true"))

    def speak(self, scope: Scope) -> str:
        parts = [self.number(scope, 2), self.truth(scope, 2), '"text"', '"\\t\\"q\\\\"']
        return f"println({', '.join(self.chance.sample(parts, self.chance.randint(0, 3)))})"

    def flat(self, scope: Scope) -> str:
        sends, receives = self.sends(scope), self.receives(scope)
        ways: list[Callable[[Scope], str]] = [self.define, self.define, self.assign, self.assign, self.speak, lambda s: f"twice({self.number(s, 1)})"]
        ways += [lambda s: f"{self.chance.choice(sends)} <- {self.number(s, 2)}"] * bool(sends)
        ways += [lambda s: "<-" + self.chance.choice(receives), self.pair] * bool(receives)
        ways += [lambda s: f"close({self.chance.choice(sends)})"] * (bool(sends) and self.chance.random() < 0.3)
        ways += [lambda s: f"go work({self.value(s, 'chan int')}, {self.number(s, 1)})", lambda s: "return"]
        return self.chance.choice(ways)(scope) if self.chance.random() < 0.97 else ""

    def pair(self, scope: Scope) -> str:
        name, open = self.fresh(), self.fresh()
        text = f"{name}, {open} := <-{self.chance.choice(self.receives(scope))}"
        scope[name], scope[open] = "int", "bool"
        return text

    def indented(self, lines: list[str]) -> list[str]:
        return ["\t" + line for line in lines]

    def body(self, scope: Scope, level: int) -> list[str]:
        inner = dict(scope)
        return self.indented([line for _ in range(self.chance.randint(0, 3)) for line in self.statement(inner, level - 1)])

    def branch(self, scope: Scope, level: int) -> list[str]:
        lines = [f"if {self.truth(scope, 2)} {{"] + self.body(scope, level)
        pick = self.chance.random()
        if pick < 0.2:
            return lines + [f"}} else if {self.truth(scope, 1)} {{"] + self.body(scope, level) + ["}"]
        return lines + (["} else {"] + self.body(scope, level) if pick < 0.6 else []) + ["}"]

    def loop(self, scope: Scope, level: int) -> list[str]:
        i, receives = self.fresh(), self.receives(scope)
        inner = dict(scope, **{i: "int"})
        heading = f"for {i} := 0; {i} < {self.chance.randint(1, 4)}; {i}++ {{"
        if receives and self.chance.random() < 0.4:
            heading = f"for {i} := range {self.chance.choice(receives)} {{"
        jumps: list[list[str]] = [[], ["\tbreak"], ["\tcontinue"], [f"\tif {self.truth(inner, 1)} {{", "\t\tbreak", "\t}"]]
        jump = self.chance.choice(jumps)
        if self.chance.random() < 0.2:
            label = "L" + self.fresh()
            return [label + ":", heading] + self.body(inner, level) + ["\tcontinue " + label, "}"]
        return [heading] + self.body(inner, level) + jump + ["}"]

    def choose(self, scope: Scope, level: int) -> list[str]:
        lines = ["select {"]
        for _ in range(self.chance.randint(0, 3)):
            sends, receives, inner, name = self.sends(scope), self.receives(scope), dict(scope), self.fresh()
            heads = [f"case {self.chance.choice(sends)} <- {self.number(scope, 1)}:"] if sends else []
            if receives:
                channel = self.chance.choice(receives)
                heads += [f"case <-{channel}:", f"case {name} := <-{channel}:"]
            if heads:
                head = self.chance.choice(heads)
                if ":=" in head:
                    inner[name] = "int"
                lines += [head] + self.body(inner, level)
        return lines + (["default:"] + self.body(scope, level) if self.chance.random() < 0.5 else []) + ["}"]

    def statement(self, scope: Scope, level: int) -> list[str]:
        if level <= 0 or self.chance.random() < 0.6:
            return [self.flat(scope)]
        way = self.chance.choice((self.branch, self.loop, self.choose, self.nested))
        return way(scope, level)

    def nested(self, scope: Scope, level: int) -> list[str]:
        return ["{"] + self.body(scope, level) + ["}"]

    def function(self, heading: str, scope: Scope, ending: Sequence[str] = (), least: int = 3, most: int = 9) -> list[str]:
        lines = [line for _ in range(self.chance.randint(least, most)) for line in self.statement(scope, 3)]
        return [heading + " {"] + self.indented(lines + list(ending)) + ["}"]

    def program(self, size: int = 0) -> bytes:
        """A program of at least this many bytes."""
        lines = ["package main", "", "func twice(k int) int { return k + k }", ""]
        lines += self.function("func work(c chan int, n int)", {"c": "chan int", "n": "int"})
        length = 0
        while length < size:
            heading = f"func {self.fresh()}f(c chan int, n int, b bool)"
            more = self.function(heading, {"c": "chan int", "n": "int", "b": "bool"})
            length += sum(map(len, more)) + len(more)
            lines += more
        return "\n".join(lines + self.function("func main()", {}) + [""]).encode()
