// Where channels may go: what each part of a function does with values that may be channels. Of the clients it is `flows.py`, with the
// walk over the tokens of `walk.py`.
//
// Only four expressions have a channel as their value: a variable, a receive, a call and `make`. `token` is the place of a token in the
// source. `at` tells what is done before what: operands before what uses them, and an assignment or a send behind all of its part.

import { Walk } from "./walk.js";
import { phrase } from "../phrases.js";

const LAST = 0.25;
const TINY = 1e-7;
const LENGTHS = new Set(["len", "cap"]);
// Only in a text with a type of channels of channels, or a function that returns one, may a receive or a call give a channel.
const CARRIES = /chan (<- )?(\( )*(<- )?chan|\) (\( )*(<- )?chan\b/;

/** @typedef {{form: "name" | "receive" | "call" | "make", token: number, name: string, inner: Expression | null}} Expression */
/** @typedef {{line: number, begin: number, end: number, isCase: boolean}} Part a statement, a part of a heading, or a case of a select */
/** @typedef {"send" | "receive" | "close"} Verb */
/** @typedef {{token: number, at: number, line: number, verb: Verb, channel: Expression | null, value: Expression | null, isRange: boolean}} Use */
/** @typedef {{at: number, line: number, variable: string, value: Expression}} Giving a value for a variable, or what a function returns */
/** @typedef {{token: number, at: number, line: number, name: string, args: (Expression | null)[], isStart: boolean}} Calling a call, or what `go` starts */
/** @typedef {{name: string, parameters: string[], parts: Part[], loops: number[][], uses: Use[], givings: Giving[], callings: Calling[]}} Flow */

// A part that is being read.
class Reading {
  /**
   * @param {import("./walk.js").WalkToken[]} tokens
   * @param {Part} part
   */
  constructor(tokens, part) {
    this.tokens = tokens;
    this.part = part;
  }

  /** @param {number} at */
  text(at) {
    return this.part.begin <= at && at < this.part.end ? this.tokens[at].text : "";
  }

  /** @param {number} at */
  isName(at) {
    return this.part.begin <= at && at < this.part.end && this.tokens[at].isName;
  }

  get places() {
    return Array.from({ length: Math.max(0, this.part.end - this.part.begin) }, (_, at) => this.part.begin + at);
  }

  uses() {
    return this.places.flatMap((token) => this.usesAt(token));
  }

  // The use of a channel whose sign or word stands at a place.
  /**
   * @param {number} token
   * @returns {Use[]}
   */
  usesAt(token) {
    const { line, begin, end } = this.part;
    const text = this.text(token);
    const use = { token, line, value: null, isRange: false };
    if (text === "<-" && this.isSend(token)) return [{ ...use, at: end + LAST, verb: "send", channel: this.whole(begin, token), value: this.whole(token + 1, end) }];
    if (text === "<-" && this.isReceive(token)) {
      const [channel, after] = this.operand(token + 1);
      return [{ ...use, at: after - token * TINY, verb: "receive", channel }];
    }
    if (text === "range") return [{ ...use, at: end, verb: "receive", channel: this.whole(token + 1, end), isRange: true }];
    if (text === "close" && this.text(token + 1) === "(") return [{ ...use, at: this.closing(token + 1), verb: "close", channel: this.operand(token + 1)[0] }];
    return [];
  }

  /** @returns {Giving[]} */
  givings() {
    const { line, begin, end } = this.part;
    const at = end + LAST;
    const given = (/** @type {string} */ variable, /** @type {Expression | null} */ value) => (value ? [{ at, line, variable, value }] : []);
    const returned = this.text(begin) === "return" ? this.betweenCommas(begin + 1, end).flatMap((value) => given("", value)) : [];
    const equals = this.places.find((place) => ["=", ":="].includes(this.text(place)));
    if (equals === undefined) return returned;
    const targets = this.names(begin + (this.text(begin) === "var" ? 1 : 0), equals);
    const values = this.text(equals + 1) === "range" ? this.ranged(equals, end) : this.betweenCommas(equals + 1, end);
    return [...returned, ...targets.slice(0, values.length).flatMap((target, which) => given(target, values[which]))];
  }

  /**
   * @param {number} equals
   * @param {number} end
   * @returns {(Expression | null)[]}
   */
  ranged(equals, end) {
    const kept = this.whole(equals + 2, end);
    return kept ? [{ form: "receive", token: equals + 1, name: "", inner: kept }] : [];
  }

  /** @returns {Calling[]} */
  callings() {
    const calls = this.places.filter((at) => this.isName(at) && this.text(at + 1) === "(" && !LENGTHS.has(this.text(at)));
    return calls.map((token) => {
      const at = this.closing(token + 1);
      return { token, at, line: this.part.line, name: this.text(token), args: this.betweenCommas(token + 2, at), isStart: this.text(token - 1) === "go" };
    });
  }

  /** @param {number} at */
  isSend(at) {
    return at > this.part.begin && this.tokens[at - 1].endsOperand && this.text(at - 1) !== "chan";
  }

  /** @param {number} at */
  isReceive(at) {
    return this.text(at + 1) !== "chan" && this.text(at - 1) !== "chan";
  }

  // The expression between two places, or none where its value is no channel.
  /**
   * @param {number} begin
   * @param {number} end
   */
  whole(begin, end) {
    const [found, after] = this.operand(begin);
    return after === end ? found : null;
  }

  // The operand that begins there, and the place behind it.
  /**
   * @param {number} at
   * @returns {[Expression | null, number]}
   */
  operand(at) {
    if (this.text(at) === "(") return [this.operand(at + 1)[0], this.closing(at) + 1];
    if (this.text(at) === "<-") {
      const [inner, after] = this.operand(at + 1);
      return [inner && { form: "receive", token: at, name: "", inner }, after];
    }
    if (!this.isName(at)) return [null, at + 1];
    const name = this.text(at);
    if (this.text(at + 1) !== "(") return [{ form: "name", token: at, name, inner: null }, at + 1];
    return [{ form: name === "make" ? "make" : "call", token: at, name, inner: null }, this.closing(at + 1) + 1];
  }

  // The place of the parenthesis that closes the one at a place.
  /** @param {number} at */
  closing(at) {
    let depth = 0;
    for (let place = at; place < this.part.end; place++) {
      depth += this.text(place) === "(" ? 1 : this.text(place) === ")" ? -1 : 0;
      if (!depth) return place;
    }
    return this.part.end;
  }

  // The values of a list, none for one that is no channel.
  /**
   * @param {number} begin
   * @param {number} end
   */
  betweenCommas(begin, end) {
    /** @type {(Expression | null)[]} */
    const found = [];
    let [depth, first] = [0, begin];
    for (let at = begin; at < end; at++) {
      depth += this.text(at) === "(" ? 1 : this.text(at) === ")" ? -1 : 0;
      if (depth || this.text(at) !== ",") continue;
      found.push(this.whole(first, at));
      first = at + 1;
    }
    return end > begin ? [...found, this.whole(first, end)] : [];
  }

  // The variables on the left of an assignment.
  /**
   * @param {number} begin
   * @param {number} end
   */
  names(begin, end) {
    const found = [];
    let isExpected = true;
    for (let at = begin; at < end; at++) {
      if (this.text(at) === ",") isExpected = true;
      else if (isExpected && this.isName(at)) {
        found.push(this.text(at));
        isExpected = false;
      }
    }
    return found;
  }
}

// What the functions of a source do with channels.
export class Program {
  /**
   * @param {string} source
   * @param {import("../session/origin.js").Origin | null} origin of a program that may have been carried over
   */
  constructor(source, origin = null) {
    const walk = new Walk(source);
    this.lines = source.split("\n");
    this.origin = origin;
    this.carries = CARRIES.test(walk.tokens.map(({ text }) => text).join(" "));
    /** @type {Map<string, Flow>} */
    this.functions = new Map(walk.functions.map((it) => {
      const readings = it.parts.map((part) => new Reading(walk.tokens, part));
      const flow = { uses: readings.flatMap((one) => one.uses()), givings: readings.flatMap((one) => one.givings()), callings: readings.flatMap((one) => one.callings()) };
      return /** @type {[string, Flow]} */ ([it.name, { ...it, ...flow }]);
    }));
  }

  // The text of a line with single spaces in it.
  /** @param {number} number */
  line(number) {
    return this.origin?.text(number) || (this.lines[number - 1] || "").split(/\s+/).filter((word) => word).join(" ");
  }

  // Where a line stands, in words: in the user's source, where it comes from there.
  /** @param {number} line */
  where(line) {
    return this.origin ? this.origin.where(line) : phrase("line {line}", { line: String(line) });
  }

  // The lines of the statements of one function that call another one.
  /**
   * @param {string} caller
   * @param {string} callee
   */
  callingLines(caller, callee) {
    const calls = this.functions.get(caller)?.callings.filter(({ name, isStart }) => name === callee && !isStart) || [];
    return [...new Set(calls.map(({ line }) => line))];
  }
}
