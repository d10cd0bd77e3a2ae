// Reads a file that the parser accepts, from its first function to its last, and finds what the checker refuses at a place.

import { Blocks } from "./blocks.js";
import { Found, Scopes } from "./reader.js";
import { PREDECLARED, isChannel } from "./values.js";

const ZEROS = new Map([["int", "0"], ["bool", "false"]]);

class File extends Blocks {
  read() {
    const { tokens } = this;
    this.at(0);
    if (tokens.length > 1 && tokens[1].text !== "main") this.fault("C9", "package", 0, 1, { name: tokens[1].text });
    if (!tokens.some(({ text }, at) => text === "func" && tokens[at + 1]?.text === "main")) this.fault("C9", "no_main", 0, 1);
    const starts = [...tokens.keys()].filter((number) => tokens[number].text === "func");
    const names = starts.map((number) => tokens[number + 1].text);
    this.functions = new Map(names.map((name) => [name, { name, parameters: [], result: null, line: 0, heading: "" }]));
    /** @type {Map<string, GoFunction>} */
    const known = new Map();
    for (const number of starts) this.heading(number, known);
    this.functions = known;
    for (const number of starts) this.body(number);
  }

  // Reads the heading of a function.
  /**
   * @param {number} number
   * @param {Map<string, GoFunction>} known
   */
  heading(number, known) {
    this.number = number + 1;
    this.at(number);
    const name = this.tokens[this.next()].text;
    if (name === "init" || PREDECLARED.has(name)) this.fault("C2", name === "init" ? "init" : "predeclared", number + 1, number + 1, { name });
    const before = known.get(name);
    if (before) this.fault("C2", "function_twice", number + 1, number + 1, { name, line: String(before.line) });
    const parameters = this.parameters();
    const result = this.ahead().text === "{" ? null : this.type();
    if (name === "main" && (parameters.length || result !== null)) this.fault("C9", "main_heading", number + 1, this.number - 1);
    const made = { name, parameters, result, line: this.tokens[number].line, heading: this.of(number, this.number - 1) };
    if (!before) known.set(name, made);
    return made;
  }

  parameters() {
    /** @type {[string, string][]} */
    const found = [];
    this.passes("(");
    while (this.ahead().text !== ")" && this.ahead().kind !== "file") {
      const names = [this.next()];
      while (this.passes(",")) names.push(this.next());
      this.checkOrder(names[names.length - 1]);
      const type = this.type();
      for (const number of names) this.parameter(number, type, found);
      if (!this.passes(",")) break;
    }
    this.passes(")");
    return found;
  }

  // A type that stands before the name of its parameter.
  /** @param {number} number */
  checkOrder(number) {
    const [type, name] = [this.tokens[number].text, this.ahead().text];
    if (this.ahead().kind !== "name" || PREDECLARED.has(name) || !(PREDECLARED.has(type) || this.names.get("type")?.has(type))) return;
    this.fault("C1", "type_before_the_name", number, this.number, { name, type });
  }

  /**
   * @param {number} number
   * @param {string} type
   * @param {[string, string][]} found
   */
  parameter(number, type, found) {
    const name = this.tokens[number].text;
    if (PREDECLARED.has(name)) this.fault("C2", "predeclared", number, number, { name });
    if (name !== "_" && found.some(([other]) => other === name)) this.fault("C2", "parameter_twice", number, number, { name });
    found.push([name, type]);
  }

  // Reads the statements of a function.
  /** @param {number} number */
  body(number) {
    const read = this.heading(number, new Map());
    this.inFunction = read;
    this.scopes = new Scopes();
    for (const [name, type] of read.parameters) this.scopes.declare(name, type, read.line);
    this.startLabels();
    this.block();
    const last = this.number - 1;
    this.at(last);
    const result = read.result || "";
    this.fault("C6", "missing_return", last, last, { name: read.name, result, zero: isChannel(result) ? "nil" : ZEROS.get(result) || "struct{}{}" });
  }
}

// The fault with this code in the statement, or heading, at a place; nothing where it is not found.
/**
 * @param {GoToken[]} tokens
 * @param {string} source
 * @param {Refusal} wanted
 * @param {GoNames} names
 * @returns {FormFault | null}
 */
export function faultAt(tokens, source, wanted, names) {
  try {
    new File(tokens, source, wanted, names).read();
  } catch (found) {
    if (found instanceof Found) return found.fault;
    if (!(found instanceof TypeError || found instanceof RangeError)) throw found; // else the source ends too soon, or is too deep
  }
  return null;
}
