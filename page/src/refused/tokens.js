// The tokens of a source that was refused, read leniently: whatever is there gives a token.

import { encoder } from "../engine/protocol.js";

export const END_OF_FILE = "<end>";

const KEYWORDS = new Set(
  ("break case chan const continue default defer else fallthrough for func go goto if import interface map package range return select " +
    "struct switch type var").split(" "),
);
// A line that ends with one of these has a semicolon after it.
const ENDING_KEYWORDS = new Set(["break", "continue", "fallthrough", "return"]);
const ENDING_OPERATORS = new Set(["++", "--", ")", "]", "}"]);
const GLUED_BEFORE = new Set([",", ";", ")", "]", "."]);
const GLUED_AFTER = new Set(["(", "[", ".", "!"]);
const UNARY = new Set(["-", "+", "^", "<-"]);
const CLOSING = new Map([[")", "("], ["]", "["], ["}", "{"]]);

const PIECE = new RegExp(
  [
    "(?<space>[ \\t\\r\\ufeff]+)", "(?<line>\\n)", "(?<comment>//[^\\n]*|/\\*(?:[^*]|\\*(?!/))*(?:\\*/|$))", "(?<name>[A-Za-z_][A-Za-z_0-9]*)",
    "(?<number>[0-9][0-9A-Za-z_.]*)", "(?<text>\"(?:\\\\.|[^\"\\\\\\n])*\"?|`[^`]*`?|'(?:\\\\.|[^'\\\\\\n])*'?)",
    "(?<operator>\\.\\.\\.|&\\^=|<<=|>>=|&&|\\|\\||<-|\\+\\+|--|==|!=|<=|>=|:=|[-+*/%&|^]=|<<|>>|&\\^|.)",
  ].join("|"),
  "gsu",
);

// How many bytes a text has in its file.
/** @param {string} text */
export const byteLength = (text) => encoder.encode(text).length;

// Whether the end of the line after these tokens ends a statement.
/** @param {GoToken[]} tokens */
function endsStatement(tokens) {
  const last = tokens[tokens.length - 1];
  if (!last) return false;
  if (last.kind === "keyword") return ENDING_KEYWORDS.has(last.text);
  if (last.kind === "operator") return ENDING_OPERATORS.has(last.text);
  return ["name", "number", "text"].includes(last.kind);
}

// The tokens, the last of kind `file`. Lines and columns count from 1, and columns count bytes.
/**
 * @param {string} source
 * @returns {GoToken[]}
 */
export function goTokens(source) {
  /** @type {GoToken[]} */
  const tokens = [];
  let [line, column] = [1, 1];
  for (const match of source.matchAll(PIECE)) {
    const [text, offset] = [match[0], Number(match.index)];
    const kind = Object.entries(match.groups || {}).find(([, found]) => found !== undefined)?.[0] || "operator";
    if (!["space", "line", "comment"].includes(kind)) {
      tokens.push({ kind: kind === "name" && KEYWORDS.has(text) ? "keyword" : kind, text, line, column, offset });
    } else if (text.includes("\n") && endsStatement(tokens)) {
      tokens.push({ kind: "end", text: "\n", line, column, offset });
    }
    const lines = text.split("\n");
    if (lines.length > 1) [line, column] = [line + lines.length - 1, 1];
    column += byteLength(lines[lines.length - 1]);
  }
  if (endsStatement(tokens)) tokens.push({ kind: "end", text: "\n", line, column, offset: source.length });
  return [...tokens, { kind: "file", text: END_OF_FILE, line, column, offset: source.length }];
}

// The text of some tokens, on one line and without comments.
/**
 * @param {string} source
 * @param {GoToken[]} tokens
 * @param {number} first
 * @param {number} last
 */
export function textOf(source, tokens, first, last) {
  const text = source.slice(tokens[first].offset, tokens[last].offset + tokens[last].text.length);
  if (!/\/\/|\/\*|\r?\n/.test(text)) return text;
  return spaced(tokens.slice(first, last + 1).filter(({ kind }) => kind !== "end" && kind !== "file"));
}

// Tokens with spaces between them as a source has them.
/** @param {GoToken[]} tokens */
function spaced(tokens) {
  return tokens.reduce((text, token, number) => {
    const [before, earlier] = [tokens[number - 1], tokens[number - 2]];
    if (!before || GLUED_BEFORE.has(token.text) || GLUED_AFTER.has(before.text)) return text + token.text;
    const isCall = token.text === "(" && before.kind === "name";
    const isUnary = UNARY.has(before.text) && !(earlier && endsStatement([earlier]));
    return isCall || isUnary ? text + token.text : `${text} ${token.text}`;
  }, "");
}

// The brackets that these tokens open and do not close, the innermost last.
/** @param {GoToken[]} tokens */
export function openBrackets(tokens) {
  /** @type {GoToken[]} */
  const opened = [];
  for (const token of tokens) {
    if (token.kind !== "operator") continue;
    if ("([{".includes(token.text)) opened.push(token);
    else if (opened.length && opened[opened.length - 1].text === CLOSING.get(token.text)) opened.pop();
  }
  return opened;
}
