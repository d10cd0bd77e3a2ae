"""Reads the simple statements of a source that the parser accepts, and finds what the checker refuses in them."""
from __future__ import annotations

from .calls import Calls
from .reader import counted
from .values import PREDECLARED, Value, direction_of, element_of, is_channel

ASSIGNING = frozenset(["+=", "-=", "*=", "/=", "%=", "&=", "|=", "^=", "&^=", "<<=", ">>="])
ENDS = frozenset(["\n", ";", "}", "{", ":", "<end>"])


class SimpleStatements(Calls):
    """Reads assignments, definitions, sends, calls and what else stands alone on a line."""

    def names_ahead(self) -> list[int]:
        """The names before `:=` or `=`, or none."""
        names, number = [], self.number
        while self.tokens[number].kind == "name":
            names.append(number)
            if self.tokens[number + 1].text != ",":
                return names if self.tokens[number + 1].text in (":=", "=") else []
            number += 2
        return []

    def simple(self, case: bool = False) -> None:
        names = self.names_ahead()
        if names:
            self.number = names[-1] + 1
            sign = self.tokens[self.next()].text
            values = self.values()
            if sign == ":=":
                self.define(names, values, case)
            else:
                self.assign(names, values)
        elif self.ahead().kind == "name" and self.ahead(1).text in ASSIGNING | {"++", "--"}:
            self.change()
        elif self.is_call():
            self.call_statement()
        else:
            self.effect()

    def values(self) -> list[Value]:
        values = [self.expression()]
        while self.passes(","):
            values.append(self.expression())
        return values

    def is_call(self) -> bool:
        """Whether the statement is a call and nothing more."""
        if self.ahead().kind != "name" or self.ahead(1).text != "(":
            return False
        depth, number = 0, self.number + 1
        while self.tokens[number].kind != "file":
            depth += {"(": 1, ")": -1}.get(self.tokens[number].text, 0)
            if depth == 0:
                return self.tokens[number + 1].text in ENDS
            number += 1
        return False

    def call_statement(self) -> None:
        value = self.call()
        name = self.tokens[value.first].text
        if name in ("len", "cap", "make") and name not in self.functions and not self.scopes.find(name):
            self.fault("C3", "not_used", value.first, value.last)

    def effect(self) -> None:
        """A send, a receive, or a value that nothing uses."""
        first = self.number
        value = self.expression()
        if self.passes("<-"):
            self.sent(value)
            return
        opening = self.tokens[first].text
        if opening in ("+", "-", "^") and self.tokens[first - 1].kind == "end":
            self.fault("C3", "operator_begins_a_line", first, first, operator=opening)
        left = self.tokens[first].text
        if self.tokens[first + 1].text == "==" and self.tokens[first].kind == "name":
            self.fault("C3", "compared_not_assigned", first, value.last, name=left, value=self.of(first + 2, value.last))
        if opening != "<-":
            self.fault("C3", "not_used", first, value.last)

    def sent(self, channel: Value) -> None:
        value = self.expression()
        if channel.kind == "nil" or channel.own and not is_channel(channel.own):
            self.misfit("send_to_no_channel", channel, channel=self.text(channel))
        if direction_of(channel.own) == "receive":
            fields = {"channel": self.text(channel), "type": channel.own, "element": element_of(channel.own)}
            self.fault("C5", "send", channel.first, value.last, **fields)
        if channel.own:
            form = "sent_without_a_value" if element_of(channel.own) == "struct{}" else "sent"
            self.check_fits(value, element_of(channel.own), form, channel=self.text(channel))

    def change(self) -> None:
        """`x += e`, `x++` and their like."""
        number = self.next()
        sign = self.tokens[self.next()].text
        if self.tokens[number].text == "_":
            self.fault("C1", "blank", number, number)
        own = self.variable(number)
        value = self.expression() if sign in ASSIGNING else None
        last = value.last if value else self.number - 1
        if own and own != "int":
            self.fault("C3", "changed", number, last, operator=sign, name=self.tokens[number].text, type=own)
        if value:
            left = Value("value", own, number, number)
            if value.kind == "nil" or not value.may_be("int"):
                self.fault("C3", "changed_by", value.first, value.last, operator=sign, type=self.kind(value))
            self.binary_of(left, sign[:-1], value)

    def binary_of(self, left: Value, sign: str, right: Value) -> None:
        if sign in ("/", "%") and right.constant == 0:
            self.fault("C7", "division_by_zero", left.first, right.last, operator=sign)
        if sign in ("<<", ">>") and right.constant is not None and right.constant < 0:
            self.fault("C7", "negative_shift", left.first, right.last, count=self.text(right))
        self.check_constant_to(right)

    def variable(self, number: int) -> str:
        """The type of a variable that is given a value."""
        name = self.tokens[number].text
        found = self.scopes.find(name)
        if found:
            return found[0]
        if name in PREDECLARED or name in self.functions:
            self.fault("C3", "assigned_to_no_variable", number, number, name=name)
        elif name != "_":
            alone = self.tokens[number + 1].text == "=" and self.tokens[number - 1].text != ","
            rest = self.of(number + 2, self.number - 1) if alone else ""
            if rest:
                near = [each for each in self.scopes.names() if each.lower() == name.lower()]
                if not near and name not in self.scopes.ended:
                    self.fault("C1", "unknown_assigned", number, number, name=name, value=rest)
            self.unknown(number, "name")
        return ""

    def assign(self, names: list[int], values: list[Value]) -> None:
        types = [self.variable(number) for number in names]
        if self.paired(names, values):
            for number, wanted, value in zip(names, types, values):
                self.given(number, wanted, value)
        elif len(values) == 1:
            self.received_pair(names, types, values[0])

    def received_pair(self, names: list[int], types: list[str], value: Value) -> None:
        """Two variables for one receive: the second one tells whether there was a value."""
        self.given(names[0], types[0], value)
        if types[-1] not in ("", "bool"):
            self.fault("C3", "received_flag", names[-1], names[-1], name=self.tokens[names[-1]].text, type=types[-1])

    def given(self, number: int, wanted: str, value: Value) -> None:
        """A variable that is given a value."""
        name = self.tokens[number].text
        if value.kind == "nil" and name == "_":
            self.fault("C3", "nil_without_type", value.first, value.last, name=name)
        self.check_fits(value, wanted, name=name, form="assigned")

    def paired(self, names: list[int], values: list[Value]) -> bool:
        """Whether there are as many names as values, or two for one receive."""
        if len(names) == len(values):
            return True
        received = len(values) == 1 and self.tokens[values[0].first].text == "<-"
        if len(names) == 2 and received:
            return False
        fields = {"names": counted(len(names), "name"), "values": counted(len(values), "value")}
        called = len(values) == 1 and self.of_call(values[0])
        form = "three_received" if received else "names_of_a_call" if called else "names_and_values"
        fields.update(name=self.tokens[values[0].first].text, channel=self.text(values[0]))
        self.fault("C4", form, names[0], values[-1].last, **fields)
        return False

    def of_call(self, value: Value) -> bool:
        return self.tokens[value.first].text in self.functions and self.tokens[value.first + 1].text == "("

    def define(self, names: list[int], values: list[Value], case: bool = False) -> None:
        texts = [self.tokens[number].text for number in names]
        self.distinct(names)
        block = self.scopes.blocks[-1]
        if all(text == "_" or text in block for text in texts):
            self.nothing_new(names, texts, values, case)
        paired = self.paired(names, values)
        for count, (number, text) in enumerate(zip(names, texts)):
            value = values[min(count, len(values) - 1)]
            own = value.own if paired or count == 0 else "bool"
            if value.kind == "nil" and text not in block:
                self.fault("C3", "nil_without_type", value.first, value.last, name=text)
            self.check_constant_to(value)
            if text in block and (paired or count == 0):
                self.given(number, block[text][0], value)
            elif text not in block:
                self.scopes.declare(text, own, self.tokens[number].line)

    def nothing_new(self, names: list[int], texts: list[str], values: list[Value], case: bool) -> None:
        """A `:=` whose names are all declared in this block."""
        block = self.scopes.blocks[-1]
        fields = {"names": ", ".join(texts), "values": self.of(values[0].first, values[-1].last)}
        fields.update(are="is" if len(texts) == 1 else "are", line=str(block.get(texts[0], ("", 0))[1]))
        form = "case_blank" if case else "blank_defined" if set(texts) == {"_"} else "nothing_new"
        known = [(text, *block[text], value) for text, value in zip(texts, values) if text in block]
        other = next(((text, own, line) for text, own, line, value in known if not value.may_be(own)), None)
        if other and form == "nothing_new":
            form = "nothing_new_of_this_type"
            fields.update(name=other[0], type=other[1], line=str(other[2]))
        self.fault("C10", form, names[0], values[-1].last if case else names[-1], **fields)

    def distinct(self, names: list[int]) -> None:
        """Names that are declared together."""
        seen: set[str] = set()
        for number in names:
            text = self.tokens[number].text
            if text in PREDECLARED:
                self.fault("C2", "predeclared", number, number, name=text)
            if text != "_" and text in seen:
                self.fault("C2", "twice_on_the_left", number, number, name=text)
            seen.add(text)

    def new(self, number: int, own: str) -> None:
        self.distinct([number])
        self.scopes.declare(self.tokens[number].text, own, self.tokens[number].line)

    def var(self) -> None:
        self.next()
        names = [self.next()]
        while self.passes(","):
            names.append(self.next())
        self.distinct(names)
        for number in names:
            text = self.tokens[number].text
            before = self.scopes.blocks[-1].get(text)
            if before:
                self.fault("C2", "declared_twice", number, number, name=text, line=str(before[1]))
        own = self.type() if self.ahead().text != "=" else ""
        values = self.values() if self.passes("=") else []
        paired = bool(values) and self.paired(names, values)
        for count, number in enumerate(names):
            given = values[count] if paired else None
            if given and own:
                self.check_fits(given, own, "assigned", name=self.tokens[number].text)
            elif given and given.kind == "nil":
                self.fault("C3", "nil_without_type", given.first, given.last, name=self.tokens[number].text)
            elif given:
                self.check_constant_to(given)
            self.scopes.declare(self.tokens[number].text, own or (given.own if given else ""), self.tokens[number].line)
