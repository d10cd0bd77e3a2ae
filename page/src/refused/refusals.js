// What is wrong in a source that is refused, by the table of refusals that the clients have too: the first form whose conditions hold at
// the place. clients/rewind_client/refusals.py tells how a form is written.

import { faultAt } from "./file.js";
import { inText, inTokens, placed, tokenAt } from "./matching.js";
import { goTokens } from "./tokens.js";
import { Statements } from "../session/statements.js";
import { translated } from "../phrases.js";

const LONGEST = 40; // letters of a field in a sentence

/** @typedef {{code: string, line: number, column: number, length: number, sentence: string, instead: string, hint: string, whole: {start: number, end: number} | null}} Explained */
/** @typedef {import("./matching.js").Place} Place */

// A text that can be read: other signs as escapes.
/** @param {string} text */
const shown = (text) => text.replace(/[^\P{C}\t]|[^\P{Z} ]/gu, escaped);

/** @param {string} sign */
function escaped(sign) {
  const number = Number(sign.codePointAt(0));
  return number > 0xff ? `\\u${number.toString(16).padStart(4, "0")}` : `\\x${number.toString(16).padStart(2, "0")}`;
}

// A sentence or code with its fields, or "" where one is not known. A sentence shows the beginning of a long one.
/**
 * @param {string | undefined} text
 * @param {Fields} fields
 * @param {number} longest
 */
function filled(text, fields, longest = Infinity) {
  if (!text) return "";
  const wanted = [...text.matchAll(/\{([a-z_]+)\}/g)].map(([, name]) => name);
  if (wanted.some((name) => fields[name] === undefined)) return "";
  const short = (/** @type {string} */ field) => ([...field].length <= longest ? field : `${[...field].slice(0, longest - 2).join("")}..`);
  return text.replace(/\{([a-z_]+)\}/g, (_, name) => shown(short(fields[name])));
}

// The names that have a form of their own, by group, each with its form.
/**
 * @param {RefusalForm[]} forms
 * @returns {GoNames}
 */
function namesOf(forms) {
  const groups = new Map();
  for (const { form, of = "", names = [] } of forms) groups.set(of, new Map([...(groups.get(of) || []), ...names.map((name) => [name, form])]));
  return groups;
}

// The form of a place at which the checker refused a statement or a heading.
/**
 * @param {RefusalForm[]} forms
 * @param {string} source
 * @param {Refusal} refusal
 * @param {GoNames} names
 * @returns {Place}
 */
function inStatement(forms, source, refusal, names) {
  const tokens = goTokens(source);
  const fault = faultAt(tokens, source, refusal, names);
  const number = tokenAt(tokens, refusal);
  if (!fault) return placed(undefined, source, tokens, number, number + 1, {});
  return placed(forms.find(({ form }) => form === fault.form), source, tokens, fault.first, fault.last + 1, fault.fields);
}

// Where the statement is that the checker refused, if it is one.
/**
 * @param {string} source
 * @param {Refusal} refusal
 */
function statementAt(source, { line, column }) {
  const found = new Statements(source).all.find((it) => it.line === line && it.column >= column);
  return found ? { start: found.start, end: found.end } : null;
}

// Explains a refusal by the table.
/**
 * @param {{[code: string]: RefusalTable}} table
 * @param {string} source
 * @param {Refusal} refusal
 * @returns {Explained}
 */
export function explain(table, source, refusal) {
  const { code, line, column } = refusal;
  const { meaning, forms } = table[code] || { meaning: refusal.text, forms: [] };
  const plain = { code, line, column, length: 1, sentence: translated(line ? meaning : forms[0]?.sentence || meaning), instead: "", hint: "", whole: null };
  if (!line) return plain;
  const text = (source.split("\n")[line - 1] || "").replace(/\r+$/, "");
  const isStatement = code.startsWith("C");
  const inSource = () => (isStatement ? inStatement(forms, source, refusal, namesOf(table.C1.forms)) : inTokens(forms, source, refusal));
  const found = code.startsWith("S") ? inText(forms, text, refusal) : inSource();
  if (!found) return plain;
  const { form, fields, length } = found;
  const sentence = filled(translated(form?.sentence || ""), fields, LONGEST);
  const instead = sentence && filled(form?.instead, fields);
  const hint = sentence && filled(translated(form?.hint || ""), fields, LONGEST);
  const whole = isStatement ? statementAt(source, refusal) : null;
  return { code, line: found.line, column: found.column, length, sentence: sentence || translated(meaning), instead, hint, whole };
}
