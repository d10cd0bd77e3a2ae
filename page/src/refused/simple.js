// Reads the simple statements of a source that the parser accepts, and finds what the checker refuses in them: assignments, definitions,
// sends, calls, and what else stands alone on a line.

import { Calls } from "./calls.js";
import { isNegative } from "./expressions.js";
import { PREDECLARED, SHIFTS, directionOf, elementOf, goValue, isChannel, mayBe } from "./values.js";
import { phrase } from "../phrases.js";

const ASSIGNING = new Set(["+=", "-=", "*=", "/=", "%=", "&=", "|=", "^=", "&^=", "<<=", ">>="]);
const CHANGING = new Set([...ASSIGNING, "++", "--"]);
export const ENDS = new Set(["\n", ";", "}", "{", ":", "<end>"]);

export class SimpleStatements extends Calls {
  // The names before `:=` or `=`, or none.
  /** @returns {number[]} */
  namesAhead() {
    /** @type {number[]} */
    const names = [];
    for (let number = this.number; this.tokens[number].kind === "name"; number += 2) {
      names.push(number);
      const after = this.tokens[number + 1].text;
      if (after !== ",") return after === ":=" || after === "=" ? names : [];
    }
    return [];
  }

  // Reads a simple statement; `isCase` where it is that of a clause.
  simple(isCase = false) {
    const names = this.namesAhead();
    if (names.length) {
      this.number = names[names.length - 1] + 1;
      const sign = this.tokens[this.next()].text;
      const values = this.values();
      if (sign === ":=") this.define(names, values, isCase);
      else this.assign(names, values);
    } else if (this.ahead().kind === "name" && CHANGING.has(this.ahead(1).text)) {
      this.change();
    } else if (this.isCall()) {
      this.callStatement();
    } else {
      this.effect();
    }
  }

  values() {
    const values = [this.expression()];
    while (this.passes(",")) values.push(this.expression());
    return values;
  }

  // Whether the statement is a call and nothing more.
  isCall() {
    if (this.ahead().kind !== "name" || this.ahead(1).text !== "(") return false;
    let depth = 0;
    for (let number = this.number + 1; this.tokens[number].kind !== "file"; number++) {
      const { text } = this.tokens[number];
      depth += text === "(" ? 1 : text === ")" ? -1 : 0;
      if (!depth) return ENDS.has(this.tokens[number + 1].text);
    }
    return false;
  }

  callStatement() {
    const { first, last } = this.call();
    const name = this.tokens[first].text;
    if (["len", "cap", "make"].includes(name) && !this.functions.has(name) && !this.scopes.find(name)) this.fault("C3", "not_used", first, last);
  }

  // A send, a receive, or a value that nothing uses.
  effect() {
    const first = this.number;
    const value = this.expression();
    if (this.passes("<-")) return this.sent(value);
    const { kind, text } = this.tokens[first];
    if (["+", "-", "^"].includes(text) && this.tokens[first - 1].kind === "end") this.fault("C3", "operator_begins_a_line", first, first, { operator: text });
    if (this.tokens[first + 1].text === "==" && kind === "name") {
      this.fault("C3", "compared_not_assigned", first, value.last, { name: text, value: this.of(first + 2, value.last) });
    }
    if (text !== "<-") this.fault("C3", "not_used", first, value.last);
  }

  /** @param {GoValue} channel */
  sent(channel) {
    const value = this.expression();
    const { kind, own } = channel;
    const fields = { channel: this.text(channel) };
    if (kind === "nil" || (own && !isChannel(own))) this.misfit("send_to_no_channel", channel, fields);
    if (directionOf(own) === "receive") this.fault("C5", "send", channel.first, value.last, { ...fields, type: own, element: elementOf(own) });
    if (own) this.checkFits(value, elementOf(own), elementOf(own) === "struct{}" ? "sent_without_a_value" : "sent", fields);
  }

  // `x += e`, `x++` and their like.
  change() {
    const number = this.next();
    const operator = this.tokens[this.next()].text;
    const name = this.tokens[number].text;
    if (name === "_") this.fault("C1", "blank", number, number);
    const own = this.variable(number);
    const value = ASSIGNING.has(operator) ? this.expression() : null;
    if (own && own !== "int") this.fault("C3", "changed", number, value ? value.last : this.number - 1, { operator, name, type: own });
    if (!value) return;
    if (value.kind === "nil" || !mayBe(value, "int")) this.fault("C3", "changed_by", value.first, value.last, { operator, type: this.kind(value) });
    this.changedBy(goValue("value", own, number, number), operator.slice(0, -1), value);
  }

  /**
   * @param {GoValue} left
   * @param {string} operator
   * @param {GoValue} right
   */
  changedBy(left, operator, right) {
    if ((operator === "/" || operator === "%") && right.constant === 0n) this.fault("C7", "division_by_zero", left.first, right.last, { operator });
    if (SHIFTS.has(operator) && isNegative(right.constant)) this.fault("C7", "negative_shift", left.first, right.last, { count: this.text(right) });
    this.checkConstant(right);
  }

  // The type of a variable that is given a value.
  /** @param {number} number */
  variable(number) {
    const name = this.tokens[number].text;
    const found = this.scopes.find(name);
    if (found) return found.own;
    if (PREDECLARED.has(name) || this.functions.has(name)) this.fault("C3", "assigned_to_no_variable", number, number, { name });
    else if (name !== "_") this.unknownVariable(number, name);
    return "";
  }

  /**
   * @param {number} number
   * @param {string} name
   */
  unknownVariable(number, name) {
    const isAlone = this.tokens[number + 1].text === "=" && this.tokens[number - 1].text !== ",";
    const value = isAlone ? this.of(number + 2, this.number - 1) : "";
    const isMeant = this.scopes.ended.has(name) || this.scopes.names.some((each) => each.toLowerCase() === name.toLowerCase());
    if (value && !isMeant) this.fault("C1", "unknown_assigned", number, number, { name, value });
    this.unknown(number, "name");
  }

  /**
   * @param {number[]} names
   * @param {GoValue[]} values
   */
  assign(names, values) {
    const types = names.map((number) => this.variable(number));
    if (this.isPaired(names, values)) names.forEach((number, at) => this.given(number, types[at], values[at]));
    else if (values.length === 1) this.receivedPair(names, types, values[0]);
  }

  // Two variables for one receive: the second one tells whether there was a value.
  /**
   * @param {number[]} names
   * @param {string[]} types
   * @param {GoValue} value
   */
  receivedPair(names, types, value) {
    this.given(names[0], types[0], value);
    const [last, type] = [names[names.length - 1], types[types.length - 1]];
    if (type && type !== "bool") this.fault("C3", "received_flag", last, last, { name: this.tokens[last].text, type });
  }

  // A variable that is given a value.
  /**
   * @param {number} number
   * @param {string} wanted
   * @param {GoValue} value
   */
  given(number, wanted, value) {
    const name = this.tokens[number].text;
    if (value.kind === "nil" && name === "_") this.fault("C3", "nil_without_type", value.first, value.last, { name });
    this.checkFits(value, wanted, "assigned", { name });
  }

  // Whether there are as many names as values; else there are two for one receive.
  /**
   * @param {number[]} names
   * @param {GoValue[]} values
   */
  isPaired(names, values) {
    if (names.length === values.length) return true;
    const isReceived = values.length === 1 && this.tokens[values[0].first].text === "<-";
    if (names.length === 2 && isReceived) return false;
    const form = isReceived ? "three_received" : values.length === 1 && this.isOfCall(values[0]) ? "names_of_a_call" : "names_and_values";
    this.fault("C4", form, names[0], values[values.length - 1].last, {
      names: phrase("{count} name | {count} names", { count: names.length }), values: phrase("{count} value | {count} values", { count: values.length }), name: this.tokens[values[0].first].text, channel: this.text(values[0]),
    });
    return false;
  }

  /** @param {GoValue} value */
  isOfCall({ first }) {
    return this.functions.has(this.tokens[first].text) && this.tokens[first + 1].text === "(";
  }

  /**
   * @param {number[]} names
   * @param {GoValue[]} values
   * @param {boolean} isCase
   */
  define(names, values, isCase) {
    this.checkDistinct(names);
    this.checkNew(names, values, isCase);
    const block = this.scopes.inner;
    const isPaired = this.isPaired(names, values);
    names.forEach((number, at) => {
      const { text, line } = this.tokens[number];
      const value = values[Math.min(at, values.length - 1)];
      const takes = isPaired || at === 0; // else it tells whether there was a value
      const known = block.get(text);
      if (value.kind === "nil" && !known) this.fault("C3", "nil_without_type", value.first, value.last, { name: text });
      this.checkConstant(value);
      if (known && takes) this.given(number, known.own, value);
      else if (!known) this.scopes.declare(text, takes ? value.own : "bool", line);
    });
  }

  // At least one name on the left of `:=` must be new.
  /**
   * @param {number[]} names
   * @param {GoValue[]} values
   * @param {boolean} isCase
   */
  checkNew(names, values, isCase) {
    const texts = names.map((number) => this.tokens[number].text);
    const block = this.scopes.inner;
    if (!texts.every((text) => text === "_" || block.has(text))) return;
    const other = texts.find((text, at) => block.has(text) && values[at] && !mayBe(values[at], block.get(text)?.own || ""));
    const ofNames = other ? "nothing_new_of_this_type" : "nothing_new";
    const form = isCase ? "case_blank" : texts.every((text) => text === "_") ? "blank_defined" : ofNames;
    const { line = 0, own: type = "" } = block.get(other || texts[0]) || {};
    const fields = {
      names: texts.join(", "), values: this.of(values[0].first, values[values.length - 1].last), are: phrase("is | are", { count: texts.length }),
      name: other || "", type, line: String(line),
    };
    this.fault("C10", form, names[0], isCase ? values[values.length - 1].last : names[names.length - 1], fields);
  }

  // Names that are declared together.
  /** @param {number[]} names */
  checkDistinct(names) {
    const seen = new Set();
    for (const number of names) {
      const name = this.tokens[number].text;
      if (PREDECLARED.has(name)) this.fault("C2", "predeclared", number, number, { name });
      if (name !== "_" && seen.has(name)) this.fault("C2", "twice_on_the_left", number, number, { name });
      seen.add(name);
    }
  }

  var() {
    this.next();
    const names = [this.next()];
    while (this.passes(",")) names.push(this.next());
    this.checkDistinct(names);
    for (const number of names) {
      const name = this.tokens[number].text;
      const before = this.scopes.inner.get(name);
      if (before) this.fault("C2", "declared_twice", number, number, { name, line: String(before.line) });
    }
    const own = this.ahead().text === "=" ? "" : this.type();
    const values = this.passes("=") ? this.values() : [];
    const isPaired = values.length > 0 && this.isPaired(names, values);
    names.forEach((number, at) => this.declared(number, own, isPaired ? values[at] : null));
  }

  // A variable that is declared with this type, or with that of its value.
  /**
   * @param {number} number
   * @param {string} own
   * @param {GoValue | null} value
   */
  declared(number, own, value) {
    const { text: name, line } = this.tokens[number];
    if (value && own) this.checkFits(value, own, "assigned", { name });
    else if (value && value.kind === "nil") this.fault("C3", "nil_without_type", value.first, value.last, { name });
    else if (value) this.checkConstant(value);
    this.scopes.declare(name, own || value?.own || "", line);
  }
}
