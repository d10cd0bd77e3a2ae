// Reads the statements of a source that the parser accepts, with the blocks in them, and finds what the checker refuses.

import { ENDS, SimpleStatements } from "./simple.js";
import { PREDECLARED, directionOf, elementOf, isAssignable, isChannel, mayBe } from "./values.js";

const UNIT = 5; // tokens of the value struct{}{}
const CLOSES = new Set(["}", "case", "default"]);
const BETWEEN = new Set([";", "\n"]);

export class Blocks extends SimpleStatements {
  /**
   * @param {GoToken[]} tokens
   * @param {string} source
   * @param {Refusal} wanted
   * @param {GoNames} names
   */
  constructor(tokens, source, wanted, names) {
    super(tokens, source, wanted, names);
    /** @type {GoFunction | null} */
    this.inFunction = null;
    /** @type {string[]} */
    this.labels = [];
    /** @type {{kind: string, label: string}[]} */
    this.around = []; // the loops and selects around a statement, with their labels
  }

  // A function has labels of its own.
  startLabels() {
    this.labels = [];
    this.around = [];
  }

  // What follows belongs to the statement, or heading, that begins at this token.
  /** @param {number} number */
  at(number) {
    const { line, column } = this.tokens[number];
    this.place = { line, column };
  }

  block() {
    this.passes("{");
    while (!CLOSES.has(this.ahead().text) && this.ahead().kind !== "file") this.statement();
    this.passes("}");
  }

  // A block with a scope of its own.
  inner() {
    this.scopes.begin();
    this.block();
    this.scopes.end();
  }

  /** @param {string} label */
  statement(label = "") {
    const { kind, text } = this.ahead();
    const before = this.number;
    this.at(before);
    if (kind === "keyword") this.ofKeyword(text, label);
    else if (text === "{") this.inner();
    else if (kind === "name" && this.ahead(1).text === ":") return this.label();
    else if (!BETWEEN.has(text)) this.simple();
    this.skip();
    if (this.number === before) this.next();
  }

  // Goes over what stands between two statements.
  skip() {
    while (BETWEEN.has(this.ahead().text)) this.next();
  }

  /**
   * @param {string} word
   * @param {string} label
   */
  ofKeyword(word, label) {
    if (word === "for" || word === "select") {
      this.around.push({ kind: word, label });
      if (word === "for") this.loop();
      else this.select();
      this.around.pop();
    } else if (word === "break" || word === "continue") {
      this.jump();
    } else if (word === "if") {
      this.branch();
    } else if (word === "var") {
      this.var();
    } else if (word === "go") {
      this.go();
    } else if (word === "return") {
      this.returned();
    } else {
      this.simple();
    }
  }

  label() {
    const number = this.next();
    const name = this.tokens[number].text;
    this.passes(":");
    const isUsed = this.tokens.some(({ text }, at) => at >= number && (text === "break" || text === "continue") && this.tokens[at + 1]?.text === name);
    if (name === "_") this.fault("C8", "label_blank", number, number);
    else if (this.labels.includes(name)) this.fault("C2", "label_twice", number, number, { name });
    else if (!isUsed || this.wanted.code === "C8") this.fault("C8", "label_unused", number, number, { name });
    this.labels.push(name);
    this.skip();
    if (this.ahead().text !== "}") this.statement(name);
  }

  jump() {
    const number = this.next();
    const jump = this.tokens[number].text;
    const isLeft = (/** @type {string} */ kind) => kind === "for" || (kind === "select" && jump === "break");
    if (this.ahead().kind === "name") {
      const name = this.ahead().text;
      const named = [...this.around].reverse().find(({ label }) => label === name);
      if (named && !isLeft(named.kind)) this.fault("C8", "continue_of_a_select", number, this.number, { name });
      else if (!named) this.fault("C8", "label_unknown", this.number, this.number, { name, jump });
      this.next();
    } else if (!this.around.some(({ kind }) => isLeft(kind))) {
      this.fault("C8", `${jump}_outside`, number, number);
    }
  }

  // An `if` with its `else`.
  branch() {
    const first = this.next();
    this.scopes.begin();
    this.initial();
    this.at(first);
    this.condition("if");
    this.inner();
    if (this.passes("else")) {
      const isBranch = this.ahead().text === "if";
      if (isBranch) this.at(this.number);
      if (isBranch) this.branch();
      else this.inner();
    }
    this.scopes.end();
  }

  // The statement before a condition, if there is one.
  initial() {
    const { tokens } = this;
    let { number } = this;
    while (!["{", ";", "\n"].includes(tokens[number].text) && tokens[number].kind !== "file") {
      number = Math.min(number + (tokens[number].text === "struct" ? UNIT : 1), tokens.length - 1);
    }
    if (!BETWEEN.has(tokens[number].text)) return;
    if (this.number !== number) {
      this.at(this.number);
      this.simple();
    }
    this.next();
  }

  /** @param {string} statement */
  condition(statement) {
    const value = this.expression();
    if (!mayBe(value, "bool") || value.kind === "nil") this.misfit(value.own === "int" ? "condition_number" : "condition", value, { statement });
  }

  loop() {
    const first = this.next();
    this.scopes.begin();
    if (this.ahead().text === "range" || this.ahead(2).text === "range") this.ranged();
    else if (this.ahead().text !== "{") this.conditions(first);
    this.inner();
    this.scopes.end();
  }

  // The heading of a `for` with a condition, or with three parts.
  /** @param {number} first */
  conditions(first) {
    this.initial();
    const hasParts = this.tokens[this.number - 1].text === ";";
    this.at(first);
    if (![";", "{"].includes(this.ahead().text)) this.condition("for");
    if (!hasParts || !this.passes(";") || this.ahead().text === "{") return;
    this.at(this.number);
    this.simple();
  }

  // The heading of a `for` over a channel.
  ranged() {
    const number = this.ahead().kind === "name" ? this.next() : -1;
    const sign = number < 0 ? "" : this.tokens[this.next()].text;
    this.passes("range");
    const value = this.expression();
    const { kind, own, first, last } = value;
    const name = number < 0 ? "" : this.tokens[number].text;
    if (name === "_" && sign === ":=") this.fault("C10", "range_blank", number, this.number - 1, { channel: this.text(value) });
    const isNamed = name !== "_" && name !== "";
    if (own === "int") this.fault("C3", "range_number", first, last, { name: isNamed ? name : this.freeName(), sign: isNamed ? sign : ":=" });
    else if (kind !== "unknown" && !isChannel(own)) this.misfit("range", value);
    if (directionOf(own) === "send") this.fault("C5", "range", first, last, { type: own, element: elementOf(own) });
    if (number >= 0) this.rangedInto(number, sign, elementOf(own));
  }

  // The variable that takes what the channel carries: a new one, or one that is there before the loop.
  /**
   * @param {number} number
   * @param {string} sign
   * @param {string} element
   */
  rangedInto(number, sign, element) {
    const { text: name, line } = this.tokens[number];
    if (sign === ":=") {
      this.checkDistinct([number]);
      return this.scopes.declare(name, element, line);
    }
    const wanted = this.variable(number);
    if (wanted && element && !isAssignable(element, wanted)) this.fault("C3", "ranged_into", number, number, { name, wanted, element });
  }

  select() {
    const first = this.next();
    this.passes("{");
    let defaults = 0;
    while (["case", "default"].includes(this.ahead().text)) {
      this.scopes.begin();
      this.at(first);
      const number = this.next();
      if (this.tokens[number].text === "case") this.simple(true);
      else if (++defaults > 1) this.fault("C2", "default_twice", number, number);
      this.passes(":");
      while (!CLOSES.has(this.ahead().text) && this.ahead().kind !== "file") this.statement();
      this.scopes.end();
    }
    this.passes("}");
  }

  go() {
    const first = this.next();
    const name = this.ahead().text;
    if (PREDECLARED.has(name) && !this.scopes.find(name)) this.fault("C3", "go_of_a_built_in", first, this.number, { name });
    this.call();
  }

  returned() {
    const first = this.next();
    const { name, result } = this.inFunction || { name: "", result: null };
    if (ENDS.has(this.ahead().text)) {
      if (result !== null) this.fault("C4", "return_without_value", first, first, { name, result });
      return;
    }
    const value = this.expression();
    if (result !== null) this.checkFits(value, result, "returned", { name, result });
    else this.fault("C4", name === "main" ? "return_from_main" : "return_without_result", first, value.last, { name });
  }
}
