"""Reads the calls in a source that the parser accepts, and finds what the checker refuses in them."""
from __future__ import annotations

from typing import Optional

from .expressions import Expressions
from .reader import Function, counted, of_given
from .values import PREDECLARED, TYPES, Value, direction_of, element_of, is_channel

NO_VALUE = frozenset(["close", "println"])


class Calls(Expressions):
    """Reads calls, and what they do with their arguments."""

    def call(self) -> Value:
        """Reads a call; a call without a result gives a value of the kind `nothing`."""
        number = self.next()
        name = self.tokens[number].text
        self.passes("(")
        if name == "make" and not self.scopes.find(name):
            return self.made(number)
        function = self.functions.get(name)
        if self.scopes.find(name):
            self.fault("C3", "variable_called", number, number, name=name, type=(self.scopes.find(name) or ("",))[0])
        elif not function and name not in PREDECLARED:
            if name in self.names["function"]:
                self.fault("C1", self.names["function"][name], number, number, name=name)
            if name in self.names["conversion"]:
                self.conversion(number, name)
            self.unknown(number, "function")
        elif not function and name not in ("len", "cap", *NO_VALUE):
            form, last = ("conversion", number) if name in TYPES else ("not_callable", self.closing(number))
            self.fault("C3", form, number, last, name=name)
        values = self.arguments(printed=name == "println" and not function)
        return self.called(number, name, function, values)

    def closing(self, number: int) -> int:
        """The parenthesis that ends the call of a name."""
        depth = 0
        for last in range(number + 1, len(self.tokens)):
            depth += {"(": 1, ")": -1}.get(self.tokens[last].text, 0)
            if depth == 0:
                return last
        return number

    def conversion(self, number: int, name: str) -> None:
        """A conversion to a type of Go that is left out, and the value that is converted."""
        last = self.closing(number)
        inner = self.of(number + 2, last - 1) if last > number + 2 else "0"
        is_one = last <= number + 3 or self.tokens[number + 3].text == "(" and self.closing(number + 2) == last - 1
        self.fault("C1", self.names["conversion"][name], number, last, name=name, inner=inner if is_one else f"({inner})")

    def arguments(self, printed: bool = False) -> list[Value]:
        values: list[Value] = []
        while self.ahead().text != ")" and self.ahead().kind != "file":
            if printed and self.ahead().kind == "text" and self.ahead(1).text in (",", ")"):
                number = self.next()
                values.append(Value("text", "", number, number))
            else:
                values.append(self.expression())
            if not self.passes(","):
                break
        self.passes(")")
        return values

    def called(self, number: int, name: str, function: Optional[Function], values: list[Value]) -> Value:
        last = self.number - 1
        if function:
            self.check_arguments(number, function, values)
            return Value("value" if function.result else "nothing", function.result or "", number, last)
        if name in ("len", "cap"):
            self.check_measure(number, name, values)
            return Value("value", "int", number, last)
        if name == "println":
            for value in values:
                self.check_printed(value)
        if name == "close":
            self.check_closed(number, values)
        return Value("nothing" if name in NO_VALUE else "unknown", "", number, last)

    def check_arguments(self, number: int, function: Function, values: list[Value]) -> None:
        wanted, given = len(function.parameters), len(values)
        if wanted != given:
            fields = {"wanted": counted(wanted, "argument"), "given": of_given(given), "heading": function.heading}
            self.fault("C4", "arguments", number, self.number - 1, name=function.name, **fields)
        for count, (value, (parameter, own)) in enumerate(zip(values, function.parameters), 1):
            self.check_constant_to(value)
            if not value.may_be(own):
                fields = {"count": str(count), "name": function.name, "parameter": parameter, "wanted": own}
                self.fault("C3", "argument", value.first, value.last, type=self.kind(value), **fields)

    def check_measure(self, number: int, name: str, values: list[Value]) -> None:
        if len(values) != 1:
            self.fault("C4", "one_channel", number, self.number - 1, name=name, given=of_given(len(values)))
        elif values[0].kind == "nil" or not is_channel(values[0].own) and values[0].kind not in ("unknown", "text"):
            self.misfit("measured", values[0], name=name)

    def check_printed(self, value: Value) -> None:
        self.check_constant_to(value)
        if value.kind == "nil" or value.own and value.own not in TYPES:
            self.misfit("printed", value)

    def check_closed(self, number: int, values: list[Value]) -> None:
        if len(values) != 1:
            self.fault("C4", "one_channel", number, self.number - 1, name="close", given=of_given(len(values)))
            return
        value = values[0]
        if value.kind == "nil" or value.own and not is_channel(value.own):
            self.misfit("closed", value)
        if direction_of(value.own) == "receive":
            self.fault("C5", "close", value.first, value.last, type=value.own, element=element_of(value.own))

    def made(self, number: int) -> Value:
        first = self.number
        own = self.type()
        last = self.number - 1
        if own and not is_channel(own):
            self.fault("C3", "made", first, last, type=own)
        if self.passes(",") and self.ahead().text != ")":
            size = self.expression()
            if size.constant is not None and not isinstance(size.constant, bool) and size.constant < 0:
                self.fault("C7", "negative_size", size.first, size.last)
            self.check_constant_to(size)
            if not size.may_be("int") or size.kind == "nil":
                self.misfit("size", size)
            self.passes(",")
        self.passes(")")
        return Value("value", own, number, self.number - 1)

    def valued(self, value: Value) -> Value:
        """A call where a value is wanted."""
        if value.kind == "nothing":
            name = self.tokens[value.first].text
            self.fault("C4", "no_value" if name in NO_VALUE else "no_result", value.first, value.last, name=name)
            return Value("unknown", "", value.first, value.last)
        return value

    def check_fits(self, value: Value, wanted: str, form: str, **fields: str) -> None:
        """A value where a type is wanted."""
        self.check_constant_to(value)
        if not value.may_be(wanted):
            form = "nil_of_no_channel" if value.kind == "nil" else form
            self.fault("C3", form, value.first, value.last, type=self.kind(value), wanted=wanted, **fields)
