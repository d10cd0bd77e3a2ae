// One walk over the tokens of a source, which finds the parts of its functions and their loops. Of the clients it is `walk.py`.

import { isBlank, mayEnd, tokensOf } from "../session/statements.js";

/** @typedef {{text: string, line: number, isName: boolean, endsOperand: boolean}} WalkToken */
/** @typedef {{name: string, parameters: string[], parts: import("./flows.js").Part[], loops: number[][]}} WalkFunction */

const KEYWORDS = new Set(("break case chan const continue default defer else fallthrough for func go goto if import interface map package range " +
  "return select struct switch type var").split(" "));
const END = { text: "", line: 0, isName: false, endsOperand: false };

/**
 * @param {string} text
 * @param {number} line
 * @returns {WalkToken}
 */
function walkToken(text, line) {
  const isName = /^[A-Za-z_]/.test(text) && !KEYWORDS.has(text);
  return { text, line, isName, endsOperand: isName || /^\d/.test(text) || text === ")" || text === "}" };
}

// The tokens without blanks, with a semicolon wherever Go puts one in.
/** @param {string} source */
function withSemicolons(source) {
  /** @type {WalkToken[]} */
  const found = [];
  /** @type {Token | undefined} */
  let last;
  for (const token of tokensOf(`${source}\n`)) {
    if (!isBlank(token)) {
      found.push(walkToken(token.text, token.line));
      last = token;
    } else if (token.text.includes("\n") && mayEnd(last)) {
      found.push(walkToken(";", token.line));
      last = undefined;
    }
  }
  return found;
}

export class Walk {
  /** @param {string} source */
  constructor(source) {
    this.tokens = withSemicolons(source);
    this.at = 0;
    /** @type {WalkFunction[]} */
    this.functions = [];
    this.function = /** @type {WalkFunction} */ ({ name: "", parameters: [], parts: [], loops: [] });
    while (this.peek() !== END) if (this.take().text === "func") this.oneFunction();
  }

  peek(ahead = 0) {
    return this.tokens[this.at + ahead] || END;
  }

  take() {
    const token = this.peek();
    this.at++;
    return token;
  }

  // A function behind its `func`; its closing brace is where its end is a step.
  oneFunction() {
    this.function = { name: this.take().text, parameters: [], parts: [], loops: [] };
    this.functions.push(this.function);
    const begin = this.at;
    this.skipParentheses();
    this.function.parameters = parametersOf(this.tokens.slice(begin + 1, this.at - 1));
    while (!["{", ""].includes(this.peek().text)) if (this.take().text === "struct") this.at += 2;
    const line = this.block();
    if (this.at <= this.tokens.length) this.function.parts.push({ line, begin: this.at - 1, end: this.at, isCase: false });
  }

  skipParentheses() {
    let depth = 0;
    while (this.peek() !== END) {
      depth += depthOf(this.take());
      if (!depth) return;
    }
  }

  // A block from its opening brace on; the line of its closing one.
  block() {
    this.take();
    this.statements(["}"]);
    return this.take().line;
  }

  // Statements up to one of the words given, which is not taken.
  /** @param {string[]} ends */
  statements(ends) {
    while (this.peek() !== END && !ends.includes(this.peek().text)) {
      if (this.peek().text === ";") this.take();
      else this.statement();
    }
  }

  statement() {
    const token = this.peek();
    if (token.isName && this.peek(1).text === ":") this.at += 2;
    else if (token.text === "{") this.block();
    else if (token.text === "if" || token.text === "for") this.headed();
    else if (token.text === "select") this.select();
    else this.note(token.line, this.part([";", "}"]));
  }

  // An `if` or a `for` with its heading, its body and what comes behind `else`.
  headed() {
    const keyword = this.take();
    const turns = this.heading(keyword.line);
    this.block();
    if (keyword.text === "for") this.function.loops.push([turns, this.at]);
    if (this.peek().text !== "else") return;
    this.take();
    this.statement();
  }

  // The parts of a heading: the condition belongs to the statement, the others are statements of their own. Gives the place of what
  // comes again with each turn: what stands before the first semicolon does not.
  /** @param {number} line */
  heading(line) {
    const parts = [];
    let [semicolons, turns] = [0, this.at];
    while (!["{", ""].includes(this.peek().text)) {
      const first = this.peek().line;
      if (this.peek().text !== ";") parts.push({ number: semicolons, first, places: this.part([";", "{"]) });
      if (this.peek().text !== ";") continue;
      this.take();
      semicolons++;
      if (semicolons === 1) turns = this.at;
    }
    for (const { number, first, places } of parts) this.note(semicolons > 0 && number !== 1 ? first : line, places);
    return turns;
  }

  // A select: its cases belong to it up to their bodies.
  select() {
    const { line } = this.take();
    this.take();
    while (["case", "default", ";"].includes(this.peek().text)) {
      if (this.take().text === ";") continue;
      this.note(line, this.part([":"]), true);
      this.take();
      this.statements(["case", "default", "}"]);
    }
    this.take();
  }

  // Goes over the tokens of one statement up to one of the words given, outside parentheses: where they begin and end.
  /**
   * @param {string[]} ends
   * @returns {[number, number]}
   */
  part(ends) {
    const begin = this.at;
    let depth = 0;
    while (this.peek() !== END && (depth > 0 || !ends.includes(this.peek().text))) {
      const token = this.take();
      depth += depthOf(token);
      if (token.text !== "struct") continue;
      this.at += 2;
      if (this.peek().text === "{" && this.peek(1).text === "}") this.at += 2;
    }
    return [begin, Math.min(this.at, this.tokens.length)];
  }

  /**
   * @param {number} line
   * @param {[number, number]} places
   */
  note(line, [begin, end], isCase = false) {
    this.function.parts.push({ line, begin, end, isCase });
  }
}

/** @param {WalkToken} token */
const depthOf = ({ text }) => (text === "(" ? 1 : text === ")" ? -1 : 0);

// The names of parameters, from the tokens between the parentheses of a heading.
/** @param {WalkToken[]} tokens */
function parametersOf(tokens) {
  const names = [];
  let [isExpected, depth] = [true, 0];
  for (const token of tokens) {
    depth += depthOf(token);
    if (!depth && token.text === ",") isExpected = true;
    else if (isExpected && token.isName) {
      names.push(token.text);
      isExpected = false;
    }
  }
  return names;
}
