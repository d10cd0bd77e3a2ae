// Reads the calls in a source that the parser accepts, and finds what the checker refuses in them.

import { Expressions, isNegative } from "./expressions.js";
import { ofGiven } from "./reader.js";
import { PREDECLARED, TYPES, directionOf, elementOf, goValue, isChannel, mayBe } from "./values.js";
import { phrase } from "../phrases.js";

const NO_VALUE = new Set(["close", "println"]);
const CALLABLE = new Set(["len", "cap", ...NO_VALUE]);

export class Calls extends Expressions {
  // Reads a call; one without a result gives a value of the kind `nothing`.
  call() {
    const number = this.next();
    const name = this.tokens[number].text;
    this.passes("(");
    const variable = this.scopes.find(name);
    if (name === "make" && !variable) return this.made(number);
    const called = this.functions.get(name);
    if (variable) this.fault("C3", "variable_called", number, number, { name, type: variable.own });
    else if (!called && !PREDECLARED.has(name)) this.unknownFunction(number, name);
    else if (!called && TYPES.has(name)) this.fault("C3", "conversion", number, number, { name });
    else if (!called && !CALLABLE.has(name)) this.fault("C3", "not_callable", number, this.closing(number), { name });
    const values = this.args(name === "println" && !called);
    return this.called(number, name, called, values);
  }

  /**
   * @param {number} number
   * @param {string} name
   */
  unknownFunction(number, name) {
    this.ofGroup("function", name, number, number, { name });
    this.conversion(number, name);
    this.unknown(number, "function");
  }

  // The parenthesis that ends the call of a name.
  /** @param {number} number */
  closing(number) {
    let depth = 0;
    for (let last = number + 1; last < this.tokens.length; last++) {
      const { text } = this.tokens[last];
      depth += text === "(" ? 1 : text === ")" ? -1 : 0;
      if (!depth) return last;
    }
    return number;
  }

  // A conversion to a type of Go that is left out, and the value that is converted.
  /**
   * @param {number} number
   * @param {string} name
   */
  conversion(number, name) {
    const last = this.closing(number);
    const inner = last > number + 2 ? this.of(number + 2, last - 1) : "0";
    const isOne = last <= number + 3 || (this.tokens[number + 3].text === "(" && this.closing(number + 2) === last - 1);
    this.ofGroup("conversion", name, number, last, { name, inner: isOne ? inner : `(${inner})` });
  }

  // Reads the arguments of a call; `println` takes string literals too.
  /** @param {boolean} isPrinted */
  args(isPrinted) {
    const values = [];
    while (this.ahead().text !== ")" && this.ahead().kind !== "file") {
      if (isPrinted && this.ahead().kind === "text" && [",", ")"].includes(this.ahead(1).text)) {
        const number = this.next();
        values.push(goValue("text", "", number, number));
      } else {
        values.push(this.expression());
      }
      if (!this.passes(",")) break;
    }
    this.passes(")");
    return values;
  }

  /**
   * @param {number} number
   * @param {string} name
   * @param {GoFunction | undefined} called
   * @param {GoValue[]} values
   */
  called(number, name, called, values) {
    const last = this.number - 1;
    if (called) {
      this.checkArguments(number, called, values);
      return goValue(called.result ? "value" : "nothing", called.result || "", number, last);
    }
    if (name === "len" || name === "cap") {
      this.checkMeasure(number, name, values);
      return goValue("value", "int", number, last);
    }
    if (name === "println") for (const value of values) this.checkPrinted(value);
    if (name === "close") this.checkClosed(number, values);
    return goValue(NO_VALUE.has(name) ? "nothing" : "unknown", "", number, last);
  }

  /**
   * @param {number} number
   * @param {GoFunction} called
   * @param {GoValue[]} values
   */
  checkArguments(number, { name, parameters, heading }, values) {
    if (parameters.length !== values.length) {
      this.fault("C4", "arguments", number, this.number - 1, { name, wanted: phrase("{count} argument | {count} arguments", { count: parameters.length }), given: ofGiven(values.length), heading });
    }
    values.slice(0, parameters.length).forEach((value, at) => {
      const [parameter, wanted] = parameters[at];
      this.checkConstant(value);
      if (mayBe(value, wanted)) return;
      this.fault("C3", "argument", value.first, value.last, { type: this.kind(value), count: String(at + 1), name, parameter, wanted });
    });
  }

  // Whether there is one argument, as `len`, `cap` and `close` take.
  /**
   * @param {number} number
   * @param {string} name
   * @param {GoValue[]} values
   */
  isOne(number, name, values) {
    if (values.length !== 1) this.fault("C4", "one_channel", number, this.number - 1, { name, given: ofGiven(values.length) });
    return values.length === 1;
  }

  /**
   * @param {number} number
   * @param {string} name
   * @param {GoValue[]} values
   */
  checkMeasure(number, name, values) {
    if (!this.isOne(number, name, values)) return;
    const [value] = values;
    if (value.kind === "nil" || (!isChannel(value.own) && !["unknown", "text"].includes(value.kind))) this.misfit("measured", value, { name });
  }

  /** @param {GoValue} value */
  checkPrinted(value) {
    this.checkConstant(value);
    if (value.kind === "nil" || (value.own && !TYPES.has(value.own))) this.misfit("printed", value);
  }

  /**
   * @param {number} number
   * @param {GoValue[]} values
   */
  checkClosed(number, values) {
    if (!this.isOne(number, "close", values)) return;
    const [value] = values;
    const { kind, own, first, last } = value;
    if (kind === "nil" || (own && !isChannel(own))) this.misfit("closed", value);
    if (directionOf(own) === "receive") this.fault("C5", "close", first, last, { type: own, element: elementOf(own) });
  }

  /** @param {number} number */
  made(number) {
    const first = this.number;
    const type = this.type();
    if (type && !isChannel(type)) this.fault("C3", "made", first, this.number - 1, { type });
    if (this.passes(",") && this.ahead().text !== ")") {
      const size = this.expression();
      if (isNegative(size.constant)) this.fault("C7", "negative_size", size.first, size.last);
      this.checkConstant(size);
      if (!mayBe(size, "int") || size.kind === "nil") this.misfit("size", size);
      this.passes(",");
    }
    this.passes(")");
    return goValue("value", type, number, this.number - 1);
  }

  // A call where a value is wanted.
  /** @param {GoValue} value */
  valued(value) {
    const { kind, first, last } = value;
    if (kind !== "nothing") return value;
    const name = this.tokens[first].text;
    this.fault("C4", NO_VALUE.has(name) ? "no_value" : "no_result", first, last, { name });
    return goValue("unknown", "", first, last);
  }

  // A value where a type is wanted.
  /**
   * @param {GoValue} value
   * @param {string} wanted
   * @param {string} form
   * @param {Fields} fields
   */
  checkFits(value, wanted, form, fields) {
    this.checkConstant(value);
    if (mayBe(value, wanted)) return;
    this.fault("C3", value.kind === "nil" ? "nil_of_no_channel" : form, value.first, value.last, { type: this.kind(value), wanted, ...fields });
  }
}
