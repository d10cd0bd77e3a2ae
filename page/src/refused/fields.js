// What a sentence of a refusal may name besides the groups of its form.

import { openBrackets } from "./tokens.js";
import { phrase } from "../phrases.js";

const ESCAPES = new Map(Object.entries({ n: 10, t: 9, r: 13, a: 7, b: 8, f: 12, v: 11, "\\": 92, "'": 39 }));
const NEAR = 20; // tokens after a place in which a heading may go on

// What can be reckoned from a literal: the number of a rune, a text in double quotes, and an exponent as a whole number.
/**
 * @param {string} word
 * @returns {Fields}
 */
export function computed(word) {
  /** @type {Fields} */
  const fields = {};
  const rune = /^'.+'$/su.test(word) ? runeOf(word.slice(1, -1)) : undefined;
  if (rune !== undefined) fields.rune = String(rune);
  if (/^`.*`$/s.test(word) && word.length > 1) fields.quoted = `"${word.slice(1, -1).replace(/["\\]/g, "\\$&")}"`;
  const whole = wholeOf(word.replaceAll("_", ""));
  if (whole) fields.whole = whole;
  if (/^[0-9]+$/.test(word)) fields.decimal = word.replace(/^0+/, "") || "0";
  return fields;
}

// The number of a letter, or of an escape in its place.
/** @param {string} text */
function runeOf(text) {
  if ([...text].length === 1) return text.codePointAt(0);
  if (/^\\x[0-9a-fA-F]{2}$|^\\u[0-9a-fA-F]{4}$|^\\U[0-9a-fA-F]{8}$/.test(text)) return parseInt(text.slice(2), 16);
  if (/^\\[0-7]{3}$/.test(text)) return parseInt(text.slice(1), 8);
  return text[0] === "\\" ? ESCAPES.get(text.slice(1)) : undefined;
}

// A number with a fraction or an exponent in full, or "" where it is not whole or too large.
/** @param {string} number */
function wholeOf(number) {
  const [, integer, fraction, exponent] = /^([0-9]*)\.?([0-9]*)(?:[eE]\+?([0-9]{1,2}))?$/.exec(number) || [];
  if (!number || integer === undefined) return "";
  const decimals = fraction.replace(/0+$/, "");
  const places = Number(exponent || 0) - decimals.length;
  const whole = places < 0 ? "" : (integer + decimals + "0".repeat(places)).replace(/^0+/, "") || "0";
  return whole.length < 19 ? whole : "";
}

// What a sentence may name besides the groups: the function and the brackets around a place, and the line there.
/**
 * @param {GoToken[]} tokens
 * @param {number} number
 * @param {string[]} lines
 * @returns {Fields}
 */
export function around(tokens, number, lines) {
  const opened = openBrackets(tokens.slice(0, number));
  const innermost = opened[opened.length - 1];
  const parentheses = opened.length - 1 - opened.map(({ text }) => text !== "(").lastIndexOf(true);
  const braces = opened.filter(({ text }) => text === "{").length;
  const { text, line } = tokens[number];
  return {
    word: text, ...(innermost && { opening: innermost.text, opening_line: String(innermost.line) }),
    closing: ")".repeat(parentheses), braces: "}".repeat(braces), missing: phrase("a } is missing | {count} } are missing", { count: braces }),
    ...functionAround(tokens, number), here: (lines[line - 1] || "").split("//")[0].trim(),
  };
}

// The function at a place, and a letter that no parameter in its heading has.
/**
 * @param {GoToken[]} tokens
 * @param {number} number
 * @returns {Fields}
 */
function functionAround(tokens, number) {
  for (let at = Math.min(number, tokens.length - 2) - 1; at >= 0; at--) {
    if (tokens[at].text !== "func" || tokens[at + 1].kind !== "name") continue;
    const taken = new Set(tokens.slice(at, number + NEAR).map(({ text }) => text));
    const letter = [..."abcdefgh"].find((each) => !taken.has(each)) || "other";
    return { function: tokens[at + 1].text, function_line: String(tokens[at].line), letter };
  }
  return {};
}
