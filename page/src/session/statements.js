// The statements of a source: where each begins and ends, and the same program with each statement on a line of its own.
//
// The program tells of a step the line of its statement. In the expanded source a line holds one statement, so the line tells which
// one. A new line after `{`, `;` or the colon of a clause is white space in Go.

const TOKENS = /\/\/[^\n]*|\/\*[\s\S]*?(?:\*\/|$)|"(?:[^"\\\n]|\\.)*"?|[A-Za-z_]\w*|\d\w*|:=|<-|\.\.\.|&&|\|\||\+\+|--|[-+*/%&|^=!<>]=|<<|>>|\n|[ \t\r]+|[^]/g;
const ENDS_STATEMENT = /^(?:[A-Za-z_]\w*|\d\w*|"[^]*|\)|\]|\}|\+\+|--)$/;
const GOES_ON = new Set(["break", "case", "chan", "const", "default", "defer", "else", "fallthrough", "for", "func", "go", "goto", "if", "import",
  "interface", "map", "package", "range", "select", "struct", "switch", "type", "var"].filter((it) => !["break", "fallthrough"].includes(it)));

/**
 * @param {string} source
 * @returns {Token[]}
 */
export function tokensOf(source) {
  const tokens = [];
  let [line, start] = [1, 0];
  for (const { 0: text, index } of source.matchAll(TOKENS)) {
    const at = Number(index);
    tokens.push({ text, at, line, column: at - start + 1 });
    for (let next = text.indexOf("\n"); next >= 0; next = text.indexOf("\n", next + 1)) {
      line++;
      start = at + next + 1;
    }
  }
  return tokens;
}

/** @param {Token} token */
export const isBlank = ({ text }) => /^\s+$/.test(text) || text.startsWith("//") || text.startsWith("/*");
/** @param {Token} token */
const endsLine = ({ text }) => text.includes("\n") && !text.startsWith('"');

// Whether the end of a line after this token ends a statement.
/** @param {Token | undefined} token */
export const mayEnd = (token) => Boolean(token && ENDS_STATEMENT.test(token.text) && !GOES_ON.has(token.text));

// Goes through the tokens, and collects statements. What stands in parentheses, `struct{}{}`, and the whole heading of an `if` or a
// `for` are parts of one statement.
class Reader {
  /** @param {string} source */
  constructor(source) {
    this.source = source;
    this.tokens = tokensOf(source);
    /** @type {Statement[]} */
    this.statements = [];
    /** @type {Statement | null} */
    this.open = null;
    /** @type {Token | undefined} */
    this.last = undefined; // that is not blank
    this.func = "";
    this.inside = 0; // parentheses
    this.unit = 0; // braces of `struct{}{}` that are to come
    this.first = ""; // the first word of the open statement
    /** @type {(Statement | null)[]} */
    this.blocks = []; // of each block that is open, its select
    this.expanded = "";
    this.line = 1;
  }

  read() {
    this.tokens.forEach((token, at) => (isBlank(token) ? this.blank(token) : this.take(token, this.next(at))));
    this.close();
    return { statements: this.statements, expanded: this.expanded };
  }

  /** @param {number} at */
  next(at) {
    return this.tokens.slice(at + 1, at + 9).find((token) => !isBlank(token))?.text;
  }

  /** @param {string} text */
  write(text) {
    this.expanded += text;
    this.line += text.split("\n").length - 1;
  }

  /** @param {Token} token */
  blank(token) {
    this.write(token.text);
    if (endsLine(token) && mayEnd(this.last) && !this.inside) this.close();
  }

  /**
   * @param {Token} token
   * @param {string | undefined} next
   */
  take(token, next) {
    const { text } = token;
    if (text === "(" || text === "[") this.inside++;
    if (text === ")" || text === "]") this.inside--;
    if (this.isBorder(text, next)) {
      this.border(token, next);
    } else {
      if (text !== "else" || this.open) this.part(token);
      this.write(text);
    }
    this.last = token;
  }

  /**
   * @param {string} text
   * @param {string | undefined} next
   */
  isBorder(text, next) {
    if (text === "struct") this.unit = 4;
    if ((text === "{" || text === "}") && this.unit) {
      this.unit--;
      if (this.unit === 2 && (next !== "{" || this.isHeadOfBlock)) this.unit = 0;
      return false;
    }
    if (this.inside || !"{};:".includes(text)) return false;
    return !(text === ";" && (this.first === "if" || this.first === "for"));
  }

  // After a type `struct{}` in a heading the brace begins a block: `func f(c chan struct{}) chan struct{} {`.
  get isHeadOfBlock() {
    return !this.inside && this.first === "func";
  }

  // Begins a statement with this token, or adds it to the one that is open.
  /** @param {Token} token */
  part(token) {
    if (this.last?.text === "func" && !this.blocks.length) this.func = token.text;
    if (!this.open) {
      const { line, column, at: start } = token;
      this.first = token.text;
      this.open = { line, column, start, end: start, text: "", expandedLine: this.line, clauses: [], func: this.func };
    }
    this.open.end = token.at + token.text.length;
  }

  /**
   * @param {Token} token
   * @param {string | undefined} next
   */
  border(token, next) {
    const { text } = token;
    if (text === ":" && !this.isClause) this.open = null; // a label is no statement
    const closed = this.close();
    if (text === "}" && this.last?.text !== "{" && this.last?.text !== ";") this.write("\n");
    if (text === "{") this.blocks.push(closed?.text === "select" ? closed : null);
    if (text === "}") this.endBlock(token);
    this.write(text);
    if (text !== "}" && next !== "}" && next !== undefined) this.write("\n");
  }

  // The brace at the end of a function is where its last step stands.
  /** @param {Token} token */
  endBlock(token) {
    this.blocks.pop();
    if (this.blocks.length) return;
    this.part(token);
    this.close();
    this.func = "";
  }

  get isClause() {
    return this.first === "case" || this.first === "default";
  }

  // Ends the statement that is open.
  close() {
    const closed = this.open;
    this.open = null;
    if (!closed) return null;
    closed.text = this.source.slice(closed.start, closed.end);
    if (this.isClause) this.blocks.at(-1)?.clauses.push(closed.text.replace(/^case\s*/, ""));
    else this.statements.push(closed);
    this.first = "";
    return closed;
  }
}

export class Statements {
  /**
   * @param {string} source
   * @param {import("./origin.js").Origin | null} origin of a program that may have been carried over
   */
  constructor(source, origin = null) {
    const { statements, expanded } = new Reader(source).read();
    this.origin = origin;
    if (origin?.isCarried) for (const it of statements) it.shown = origin.text(it.line);
    this.all = statements.filter(({ func }) => func);
    this.source = source;
    this.expanded = expanded;
    this.byLine = new Map(statements.map((it) => [it.expandedLine, it]));
    this.isExpanded = true;
  }

  // The source that sessions of the page run.
  get runText() {
    return this.isExpanded ? this.expanded : this.source;
  }

  // How many lines it has.
  get length() {
    return this.runText.split("\n").length;
  }

  // Of a source whose expanded form is not accepted: the lines are its own.
  giveUp() {
    this.isExpanded = false;
    this.byLine = new Map(this.all.map((it) => /** @type {[number, Statement]} */ ([it.line, it])).reverse());
  }

  // The statement of a line of the source that is run.
  /** @param {number | null} line */
  at(line) {
    return line === null ? null : this.byLine.get(line) || null;
  }

  // The line of the user's source.
  /** @param {number | null} line */
  lineOf(line) {
    return this.isExpanded ? this.at(line)?.line || 0 : line || 0;
  }

  // The lines of the source that is run at which statements of a line of the user's source begin.
  /** @param {number} line */
  runLines(line) {
    return this.isExpanded ? this.all.filter((it) => it.line === line).map((it) => it.expandedLine) : [line];
  }

  // The line of the first statement at a line or below it, or 0: where a breakpoint is met.
  /** @param {number} line */
  snap(line) {
    const lines = this.all.filter((it) => it.line >= line && !/^func\b/.test(it.text)).map((it) => it.line);
    return lines.reduce((least, it) => Math.min(least, it), lines[0] || 0);
  }
}
