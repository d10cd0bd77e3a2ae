// Reads the expressions of a source that the parser accepts, and finds what the checker refuses in them.

import { Reader, plainly } from "./reader.js";
import {
  PREDECLARED, SHIFTS, TYPES, directionOf, elementOf, fits, goValue, isChannel, joinedConstants, levelOf, mayBe, negated, numberOfLiteral, resultOf, wantedBy,
} from "./values.js";

const UNARY = new Set(["+", "-", "!", "^", "<-"]);
const FORMS_OF_TEXTS = new Map([[":=", "text_assigned"], ["=", "text_assigned"], ["range", "range_text"], ["+", "text_joined"]]);
const FAR = 2n ** 63n;

/** @param {GoConstant} constant */
export const isNegative = (constant) => typeof constant === "bigint" && constant < 0n;

export class Expressions extends Reader {
  // Calls are read by what is built on this.
  /** @returns {GoValue} */
  call() {
    throw new TypeError("no calls are read");
  }

  /**
   * @param {GoValue} value
   * @returns {GoValue}
   */
  valued(value) {
    return value;
  }

  // Reads an expression of operators that bind at least as strongly as the level.
  /** @returns {GoValue} */
  expression(level = 1) {
    let left = this.unary();
    while (levelOf(this.ahead().text) >= level && this.ahead().kind === "operator") {
      const operator = this.next();
      const right = this.expression(levelOf(this.tokens[operator].text) + 1);
      left = this.binary(left, operator, right);
    }
    return left;
  }

  /** @returns {GoValue} */
  unary() {
    const { kind, text: operator } = this.ahead();
    if (kind !== "operator" || !UNARY.has(operator)) return this.operand();
    const first = this.next();
    const inner = this.unary();
    if (operator === "<-") return this.received(first, inner);
    const wanted = operator === "!" ? "bool" : "int";
    if (!mayBe(inner, wanted) || inner.kind === "nil") {
      const operand = this.text(inner);
      if (operator === "!" && inner.own === "int") this.fault("C3", "not_of_a_number", first, inner.last, { operand });
      this.misfit("unary", inner, { operator, wanted: plainly(wanted), operand });
    }
    const constant = negated(operator, inner.constant);
    return goValue(constant === null ? "value" : "constant", wanted, first, inner.last, constant);
  }

  /**
   * @param {number} first
   * @param {GoValue} inner
   */
  received(first, inner) {
    const { kind, own, last } = inner;
    const channel = this.text(inner);
    if ((kind !== "unknown" && own && !isChannel(own)) || kind === "nil") this.misfit("receive_from_no_channel", inner, { channel });
    if (directionOf(own) === "send") this.fault("C5", "receive", first, last, { channel, type: own, element: elementOf(own) });
    return goValue("value", elementOf(own), first, last);
  }

  /** @returns {GoValue} */
  operand() {
    const { kind, text } = this.ahead();
    const first = this.number;
    if (text === "(" && kind === "operator") {
      this.next();
      const inner = this.expression();
      this.passes(")");
      return goValue(inner.kind, inner.own, first, this.number - 1, inner.constant);
    }
    if (text === "struct") {
      this.type();
      this.passes("{");
      this.passes("}");
      return goValue("value", "struct{}", first, this.number - 1);
    }
    if (kind === "name" && this.ahead(1).text === "(") return this.valued(this.call());
    this.next();
    if (kind === "number") return goValue("constant", "int", first, first, numberOfLiteral(text));
    return kind === "text" ? this.literal(first) : this.named(first);
  }

  // A string literal where a value is wanted.
  /** @param {number} number */
  literal(number) {
    const [before, after] = [this.tokens[number - 1].text, this.tokens[number + 1].text];
    this.fault("C3", FORMS_OF_TEXTS.get(before) || (after === "+" ? "text_joined" : "text"), number, number);
    return goValue("text", "", number, number);
  }

  /** @param {number} number */
  named(number) {
    const name = this.tokens[number].text;
    const variable = this.scopes.find(name);
    if (variable) return goValue("value", variable.own, number, number);
    if (name === "true" || name === "false") return goValue("constant", "bool", number, number, name === "true");
    if (name === "nil") return goValue("nil", "", number, number);
    if (TYPES.has(name)) this.fault("C3", "type_as_a_value", number, number, { name });
    else if (this.functions.has(name) || PREDECLARED.has(name)) this.fault("C3", "function_as_a_value", number, number, { name });
    else this.unknown(number, "name");
    return goValue("unknown", "", number, number);
  }

  /**
   * @param {GoValue} left
   * @param {number} operator
   * @param {GoValue} right
   */
  binary(left, operator, right) {
    const sign = this.tokens[operator].text;
    this.checkSides(left, sign, right);
    const constant = joinedConstants(sign, left.constant, right.constant);
    if ((sign === "/" || sign === "%") && right.constant === 0n) this.fault("C7", "division_by_zero", left.first, right.last, { operator: sign });
    if (SHIFTS.has(sign) && isNegative(right.constant)) this.fault("C7", "negative_shift", left.first, right.last, { count: this.text(right) });
    if (typeof constant === "bigint" && !fits(constant) && (constant > FAR || constant < -FAR)) this.fault("C7", "overflow", left.first, right.last);
    return goValue(constant === null ? "value" : "constant", resultOf(sign), left.first, right.last, constant);
  }

  /**
   * @param {GoValue} left
   * @param {string} sign
   * @param {GoValue} right
   */
  checkSides(left, sign, right) {
    const wanted = wantedBy(sign);
    const fields = { operator: sign, left: this.text(left), right: this.text(right), left_type: this.kind(left), right_type: this.kind(right) };
    if (wanted) {
      this.checkOperands([left, right], wanted, fields);
    } else if (left.kind === "nil" || right.kind === "nil") {
      const other = left.kind === "nil" ? right : left;
      if (other.kind === "nil" || (!mayBe(other, `chan ${elementOf(other.own)}`) && other.own)) this.fault("C3", "compared_with_nil", left.first, right.last, fields);
    } else if (!mayBe(left, right.own) && !mayBe(right, left.own)) {
      this.fault("C3", isChannel(left.own) && isChannel(right.own) ? "compared_channels" : "compared", left.first, right.last, fields);
    }
    if (left.constant !== null && right.constant !== null) return;
    this.checkConstant(left);
    this.checkConstant(right);
  }

  // The first side of an operator that has not the type which the operator takes.
  /**
   * @param {GoValue[]} sides
   * @param {string} wanted
   * @param {Fields} fields
   */
  checkOperands(sides, wanted, fields) {
    const wrong = sides.find((each) => !mayBe(each, wanted) || each.kind === "nil");
    if (!wrong) return;
    const isOfNumbers = wanted === "bool" && wrong.own === "int";
    if (isOfNumbers && sides.every(({ own }) => own === "int")) this.fault("C3", "logical_two_numbers", sides[0].first, sides[1].last, fields);
    this.fault("C3", isOfNumbers ? "logical_numbers" : "operator", wrong.first, wrong.last, { wanted: plainly(wanted), type: this.kind(wrong), ...fields });
  }

  // A constant that becomes an `int` must fit it.
  /** @param {GoValue} value */
  checkConstant({ constant, first, last }) {
    if (!fits(constant)) this.fault("C7", "overflow", first, last);
  }
}
