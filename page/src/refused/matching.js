// Finds the form of the table of refusals that stands at a place, with the fields of its sentence.

import { around, computed } from "./fields.js";
import { decoder, encoder } from "../engine/protocol.js";
import { END_OF_FILE, byteLength, goTokens, openBrackets, textOf } from "./tokens.js";

const AROUND = 120; // tokens before and after the place

/** @typedef {{form: RefusalForm | undefined, line: number, column: number, length: number, fields: Fields}} Place */
/** @typedef {{at?: RegExpExecArray, before?: RegExpExecArray}} Matches */

/**
 * @param {string} line
 * @param {number} column
 */
const letterAt = (line, column) => decoder.decode(encoder.encode(line).subarray(0, column - 1)).length;

// The matches of a form whose conditions hold, else nothing.
/**
 * @param {RefusalForm} form
 * @param {{before: string, at: string, inside: string, column: number}} place
 * @returns {Matches | null}
 */
function matchesOf(form, place) {
  if ((form.inside ?? place.inside) !== place.inside || (form.column ?? place.column) !== place.column) return null;
  /** @type {Matches} */
  const found = {};
  for (const key of /** @type {const} */ (["at", "before"])) {
    const text = form[key];
    if (text === undefined) continue;
    const match = new RegExp(text, "ds").exec(place[key]);
    if (!match) return null;
    found[key] = match;
  }
  return found;
}

// The groups of some matches that have a text.
/** @param {Matches} matches */
const groupsOf = ({ at, before }) => [at, before].flatMap((match) => Object.entries(match?.groups || {})).filter(([, text]) => text !== undefined);

// The form of a place at which the scanner refused the text.
/**
 * @param {RefusalForm[]} forms
 * @param {string} text of the line
 * @param {Refusal} refusal
 * @returns {Place | null}
 */
export function inText(forms, text, { line, column }) {
  const start = letterAt(text, column);
  for (const form of forms) {
    const matches = matchesOf(form, { before: text.slice(0, start), at: text.slice(start), inside: "", column });
    if (!matches) continue;
    const groups = Object.fromEntries(groupsOf(matches));
    const word = groups.word || text[start] || "";
    const at = Math.max(start, text.indexOf(word, start));
    return { form, line, column: column + byteLength(text.slice(start, at)), length: word.length, fields: { word, ...computed(word), ...groups } };
  }
  return null;
}

// The number of the token at a place, or of the last one.
/**
 * @param {GoToken[]} tokens
 * @param {Refusal} place
 */
export function tokenAt(tokens, { line, column }) {
  const found = tokens.findIndex((it) => it.line > line || (it.line === line && it.column >= column));
  return found < 0 ? tokens.length - 1 : found;
}

// Some tokens of a source with one space between two, in which forms are looked for.
class Joined {
  /**
   * @param {GoToken[]} tokens
   * @param {string} source
   */
  constructor(tokens, source) {
    this.tokens = tokens;
    this.source = source;
    this.text = tokens.map(({ text }) => text).join(" ");
  }

  // The tokens that lie in a part of the text.
  /** @param {[number, number]} part */
  numbers([start, end]) {
    let begin = 0;
    const starts = this.tokens.map(({ text }) => (begin += text.length + 1) - text.length - 1);
    return [...this.tokens.keys()].filter((number) => starts[number] < end && starts[number] + this.tokens[number].text.length > start);
  }

  // What a group has, as the source writes it.
  /** @param {[number, number]} part */
  field(part) {
    const numbers = this.numbers(part);
    const text = this.text.slice(...part).trim();
    const isWhole = numbers.length > 0 && numbers.map((number) => this.tokens[number].text).join(" ") === text;
    return isWhole ? textOf(this.source, this.tokens, numbers[0], numbers[numbers.length - 1]) : text;
  }
}

// The form of a place at which the parser refused the tokens.
/**
 * @param {RefusalForm[]} forms
 * @param {string} source
 * @param {Refusal} refusal
 * @returns {Place}
 */
export function inTokens(forms, source, refusal) {
  const tokens = goTokens(source);
  const number = tokenAt(tokens, refusal);
  const begin = Math.max(0, number - AROUND);
  const parts = { before: new Joined(tokens.slice(begin, number), source), at: new Joined(tokens.slice(number, number + AROUND), source) };
  const inside = openBrackets(tokens.slice(0, number)).pop()?.text || "";
  const fields = around(tokens, number, source.split("\n"));
  for (const form of forms) {
    const matches = matchesOf(form, { before: parts.before.text, at: parts.at.text, inside, column: refusal.column });
    if (!matches) continue;
    for (const key of /** @type {const} */ (["at", "before"])) {
      for (const [name, part] of Object.entries(matches[key]?.indices?.groups || {})) if (part) fields[name] = parts[key].field(part);
    }
    const mark = matches.before?.indices?.groups?.mark;
    const first = mark ? begin + parts.before.numbers(mark)[0] : number + (form.words || [0])[0];
    const end = mark ? first + 1 : number + (form.words || [0, 1])[1];
    return placed(form, source, tokens, Math.max(0, first), end, fields);
  }
  return placed(undefined, source, tokens, number, number + 1, fields);
}

// The place of the tokens from the first one up to the end. What is marked ends with their line.
/**
 * @param {RefusalForm | undefined} form
 * @param {string} source
 * @param {GoToken[]} tokens
 * @param {number} first
 * @param {number} end
 * @param {Fields} fields
 * @returns {Place}
 */
export function placed(form, source, tokens, first, end, fields) {
  const { text, line, column, offset } = tokens[first];
  const last = tokens[Math.max(first, Math.min(end, tokens.length) - 1)];
  const isMarked = text !== "\n" && text !== END_OF_FILE;
  return { form, line, column, length: isMarked ? source.slice(offset, last.offset + last.text.length).split("\n")[0].length : 0, fields };
}
