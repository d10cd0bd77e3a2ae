"""Reads the expressions of a source that the parser accepts, and finds what the checker refuses in them."""
from __future__ import annotations

from typing import Optional

from .reader import Reader, plainly
from .values import (
    PRECEDENCES, PREDECLARED, SHIFTS, TYPES, Value, direction_of, element_of, fits, is_channel, joined, result_of,
    number_of, wanted_by,
)  # fmt: skip


class Expressions(Reader):
    """Reads operands and operators; the calls are read by Calls."""

    def call(self) -> Value:
        raise NotImplementedError

    def valued(self, value: Value) -> Value:
        raise NotImplementedError

    def expression(self, level: int = 1) -> Value:
        """Reads an expression of operators that bind at least as strongly as the level."""
        left = self.unary()
        while PRECEDENCES.get(self.ahead().text, 0) >= level and self.ahead().kind == "operator":
            operator = self.next()
            right = self.expression(PRECEDENCES[self.tokens[operator].text] + 1)
            left = self.binary(left, operator, right)
        return left

    def unary(self) -> Value:
        token = self.ahead()
        if token.kind != "operator" or token.text not in ("+", "-", "!", "^", "<-"):
            return self.operand()
        first = self.next()
        inner = self.unary()
        if token.text == "<-":
            return self.received(first, inner)
        wanted = "bool" if token.text == "!" else "int"
        if not (inner.may_be(wanted) and inner.kind != "nil"):
            if token.text == "!" and inner.own == "int":
                self.fault("C3", "not_of_a_number", first, inner.last, operand=self.text(inner))
            self.misfit("unary", inner, operator=token.text, wanted=plainly(wanted), operand=self.text(inner))
        constant = negated(token.text, inner)
        return Value("constant" if constant is not None else "value", wanted, first, inner.last, constant)

    def received(self, first: int, inner: Value) -> Value:
        if inner.kind != "unknown" and inner.own and not is_channel(inner.own) or inner.kind == "nil":
            self.misfit("receive_from_no_channel", inner, channel=self.text(inner))
        if direction_of(inner.own) == "send":
            self.fault("C5", "receive", first, inner.last, channel=self.text(inner), type=inner.own, element=element_of(inner.own))
        return Value("value", element_of(inner.own), first, inner.last)

    def operand(self) -> Value:
        token = self.ahead()
        if token.text == "(" and token.kind == "operator":
            first = self.next()
            inner = self.expression()
            self.passes(")")
            return Value(inner.kind, inner.own, first, self.number - 1, inner.constant)
        if token.text == "struct":
            first = self.number
            self.type()
            self.passes("{")
            self.passes("}")
            return Value("value", "struct{}", first, self.number - 1)
        if token.kind == "name" and self.ahead(1).text == "(":
            return self.valued(self.call())
        number = self.next()
        if token.kind == "number":
            return Value("constant", "int", number, number, number_of(token.text))
        if token.kind == "text":
            return self.literal(number)
        return self.named(number)

    def literal(self, number: int) -> Value:
        """A string literal where a value is wanted."""
        before, after = self.tokens[number - 1].text, self.tokens[number + 1].text
        forms = {":=": "text_assigned", "=": "text_assigned", "range": "range_text", "+": "text_joined"}
        form = forms.get(before, "text_joined" if after == "+" else "text")
        self.fault("C3", form, number, number)
        return Value("text", "", number, number)

    def named(self, number: int) -> Value:
        name = self.tokens[number].text
        variable = self.scopes.find(name)
        if variable:
            return Value("value", variable[0], number, number)
        if name in ("true", "false"):
            return Value("constant", "bool", number, number, name == "true")
        if name == "nil":
            return Value("nil", "", number, number)
        if name in TYPES:
            self.fault("C3", "type_as_a_value", number, number, name=name)
        elif name in self.functions or name in PREDECLARED:
            self.fault("C3", "function_as_a_value", number, number, name=name)
        else:
            self.unknown(number, "name")
        return Value("unknown", "", number, number)

    def binary(self, left: Value, operator: int, right: Value) -> Value:
        sign = self.tokens[operator].text
        self.check_sides(left, sign, right)
        constant = joined(sign, left.constant, right.constant)
        if sign in ("/", "%") and right.constant == 0 and right.constant is not False:
            self.fault("C7", "division_by_zero", left.first, right.last, operator=sign)
        if sign in SHIFTS and right.constant is not None and right.constant < 0:
            self.fault("C7", "negative_shift", left.first, right.last, count=self.text(right))
        if constant is not None and not fits(constant) and abs(constant) > 2**63:
            self.fault("C7", "overflow", left.first, right.last)
        kind = "constant" if constant is not None else "value"
        return Value(kind, result_of(sign), left.first, right.last, constant)

    def check_sides(self, left: Value, sign: str, right: Value) -> None:
        wanted = wanted_by(sign)
        fields = {"operator": sign, "left": self.text(left), "right": self.text(right)}
        fields.update(left_type=self.kind(left), right_type=self.kind(right))
        if wanted:
            wrong = next((each for each in (left, right) if not each.may_be(wanted) or each.kind == "nil"), None)
            if wrong:
                form = "logical_numbers" if wanted == "bool" and wrong.own == "int" else "operator"
                if form == "logical_numbers" and left.own == right.own == "int":
                    self.fault("C3", "logical_two_numbers", left.first, right.last, **fields)
                self.fault("C3", form, wrong.first, wrong.last, wanted=plainly(wanted), type=self.kind(wrong), **fields)
        elif "nil" in (left.kind, right.kind):
            other = right if left.kind == "nil" else left
            if other.kind == "nil" or not other.may_be("chan " + element_of(other.own)) and other.own:
                self.fault("C3", "compared_with_nil", left.first, right.last, **fields)
        elif not (left.may_be(right.own) or right.may_be(left.own)):
            form = "compared_channels" if is_channel(left.own) and is_channel(right.own) else "compared"
            self.fault("C3", form, left.first, right.last, **fields)
        if left.constant is None or right.constant is None:
            self.check_constant_to(left)
            self.check_constant_to(right)

    def check_constant_to(self, value: Value) -> None:
        """A constant that becomes an `int` must fit it."""
        if not fits(value.constant):
            self.fault("C7", "overflow", value.first, value.last)


def negated(operator: str, inner: Value) -> Optional[int]:
    """The constant that an operator before a constant gives."""
    constant = inner.constant
    if constant is None or isinstance(constant, bool) != (operator == "!"):
        return None
    return {"-": -constant, "+": +constant, "^": ~constant, "!": not constant}[operator]
