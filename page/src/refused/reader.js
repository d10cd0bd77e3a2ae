// Goes over the tokens of a source that the parser accepts, knows its names, and ends at the fault that is looked for.

import { PREDECLARED, TYPES, channelOf, isChannel } from "./values.js";
import { textOf } from "./tokens.js";
import { mostLike } from "./similar.js";
import { phrase } from "../phrases.js";

const FUNCTIONS = ["len", "cap", "make", "close", "println"];
const MEASURES = new Set(["len", "cap", "close"]);
const LOGICAL = new Set(["&&", "||"]);
const OF_NUMBERS = new Set(["+", "-", "*", "/", "%", "<", ">", "<=", ">=", "<<", ">>"]);
const CHANGING = new Set(["++", "--", "+=", "-="]);
const CONSTANTS = new Map([["bool", ["true", "false"]], ["", ["true", "false"]]]);

// The fault is found.
export class Found extends Error {
  /** @param {FormFault} fault */
  constructor(fault) {
    super(fault.form);
    this.fault = fault;
  }
}

// The variables that are declared, the innermost block last, and those of blocks that have ended.
export class Scopes {
  constructor() {
    /** @type {Map<string, {own: string, line: number}>[]} */
    this.blocks = [new Map()];
    /** @type {Map<string, number>} */
    this.ended = new Map();
  }

  get inner() {
    return this.blocks[this.blocks.length - 1];
  }

  begin() {
    this.blocks.push(new Map());
  }

  end() {
    for (const [name, { line }] of this.blocks.pop() || []) this.ended.set(name, line);
  }

  /**
   * @param {string} name
   * @param {string} own
   * @param {number} line
   */
  declare(name, own, line) {
    if (name !== "_") this.inner.set(name, { own, line });
  }

  /** @param {string} name */
  find(name) {
    for (let at = this.blocks.length - 1; at >= 0; at--) if (this.blocks[at].has(name)) return this.blocks[at].get(name);
    return undefined;
  }

  get names() {
    return this.blocks.flatMap((block) => [...block.keys()]);
  }
}

// Throws Found at the fault with the code and in the statement that are looked for.
export class Reader {
  /**
   * @param {GoToken[]} tokens
   * @param {string} source
   * @param {Refusal} wanted
   * @param {GoNames} names
   */
  constructor(tokens, source, wanted, names) {
    this.tokens = tokens;
    this.source = source;
    this.wanted = wanted;
    this.names = names;
    this.number = 0; // of the next token
    this.place = { line: 0, column: 0 };
    this.scopes = new Scopes();
    /** @type {Map<string, GoFunction>} */
    this.functions = new Map();
  }

  ahead(distance = 0) {
    return this.tokens[Math.min(this.number + distance, this.tokens.length - 1)];
  }

  // Goes over a token, and gives its number.
  next() {
    const { number } = this;
    this.number = Math.min(number + 1, this.tokens.length - 1);
    return number;
  }

  // Goes over a token if it is this one.
  /** @param {string} text */
  passes(text) {
    if (this.ahead().text !== text || this.ahead().kind === "text") return false;
    this.next();
    return true;
  }

  // The text of some tokens, on one line.
  /**
   * @param {number} first
   * @param {number} last
   */
  of(first, last) {
    return textOf(this.source, this.tokens, first, last);
  }

  /** @param {GoValue} value */
  text({ first, last }) {
    return this.of(first, last);
  }

  // The type of a value, for a sentence.
  /** @param {GoValue} value */
  kind({ kind, own }) {
    return kind === "nil" ? "nil" : own || phrase("of another type");
  }

  // A value of the wrong type.
  /**
   * @param {string} form
   * @param {GoValue} value
   * @param {Fields} [fields]
   */
  misfit(form, value, fields = {}) {
    this.fault("C3", value.kind === "nil" ? "nil_alone" : form, value.first, value.last, { type: this.kind(value), ...fields });
  }

  // Ends the search if this is the fault that is looked for; else nothing is wrong.
  /**
   * @param {string} code
   * @param {string} form
   * @param {number} first
   * @param {number} last
   * @param {Fields} [fields]
   */
  fault(code, form, first, last, fields = {}) {
    const { wanted, place } = this;
    if (code !== wanted.code || place.line !== wanted.line || place.column !== wanted.column) return;
    throw new Found({ form, first, last, fields: { what: this.of(first, last), ...fields } });
  }

  // The fault of a name that has a form of its own, in a group of names.
  /**
   * @param {string} group
   * @param {string} name
   * @param {number} first
   * @param {number} last
   * @param {Fields} fields
   */
  ofGroup(group, name, first, last, fields) {
    const form = this.names.get(group)?.get(name);
    if (form) this.fault("C1", form, first, last, fields);
  }

  // Reads a type.
  /** @returns {string} */
  type() {
    const number = this.next();
    const { text } = this.tokens[number];
    if (text === "(") {
      const own = this.type();
      this.passes(")");
      return own;
    }
    if (text === "struct") {
      this.passes("{");
      this.passes("}");
      return "struct{}";
    }
    if (text === "<-") {
      this.passes("chan");
      return channelOf("<-chan", this.type());
    }
    if (text === "chan") return channelOf(this.passes("<-") ? "chan<-" : "chan", this.type());
    return this.namedType(number);
  }

  /** @param {number} number */
  namedType(number) {
    const name = this.tokens[number].text;
    if (TYPES.has(name)) return name;
    if (this.isKnown(name)) {
      this.fault("C3", "no_type", number, number, { name });
    }
    this.ofGroup("type", name, number, number, { name });
    this.fault("C1", "type_unknown", number, number, { name });
    return "";
  }

  /** @param {string} name */
  isKnown(name) {
    return PREDECLARED.has(name) || this.scopes.find(name) !== undefined || this.functions.has(name);
  }

  // The names that fit where one stands which is not declared: functions, or variables of the type that is wanted.
  /**
   * @param {number} number
   * @param {string} what
   */
  meant(number, what) {
    if (what === "function") return [...FUNCTIONS, ...this.functions.keys()];
    const wanted = this.wantedAt(number);
    const fits = (/** @type {string} */ own) => !own || !wanted || (wanted === "chan" ? isChannel(own) : own === wanted);
    return [...this.scopes.names.filter((name) => fits(this.scopes.find(name)?.own || "")), ...(CONSTANTS.get(wanted) || [])];
  }

  // The type that the place of a name wants: chan, int or bool, or "" where any will do.
  /** @param {number} number */
  wantedAt(number) {
    const [earlier, before, after] = [-2, -1, 1].map((step) => this.tokens[Math.max(0, number + step)]);
    const isReceived = before.text === "<-" && !["name", "number"].includes(earlier.kind) && earlier.text !== ")";
    if (isReceived || before.text === "range" || after.text === "<-" || (before.text === "(" && MEASURES.has(earlier.text))) return "chan";
    if (before.text === "!" || LOGICAL.has(before.text) || LOGICAL.has(after.text)) return "bool";
    return OF_NUMBERS.has(before.text) || OF_NUMBERS.has(after.text) || CHANGING.has(after.text) ? "int" : "";
  }

  // A name for a counter that no variable here has.
  freeName() {
    return [..."ijknm"].find((name) => !this.scopes.find(name)) || "count";
  }

  // A name that is not declared.
  /**
   * @param {number} number
   * @param {string} what
   */
  unknown(number, what) {
    const { scopes, tokens } = this;
    const name = tokens[number].text;
    const later = tokens.find((token, at) => at > number && token.text === name && tokens[at + 1]?.text === ":=");
    const near = mostLike(name, [...new Set(this.meant(number, what))]);
    const ended = scopes.ended.get(name);
    this.ofGroup("unknown", name, number, number, { name });
    if (ended !== undefined) this.fault("C1", "out_of_scope", number, number, { name, line: String(ended) });
    else if (near) this.fault("C1", "misspelt", number, number, { name, near });
    else if (later) this.fault("C1", "before_its_declaration", number, number, { name, line: String(later.line) });
    this.fault("C1", `unknown_${what}`, number, number, { name });
  }
}

// Values of a type, in a sentence.
/** @param {string} wanted */
export const plainly = (wanted) => (wanted === "bool" ? phrase("truth values") : phrase("numbers"));

// How many arguments are given, in a sentence.
/** @param {number} count */
export const ofGiven = (count) => (count ? phrase("{count} is given | {count} are given", { count }) : phrase("none is given"));
