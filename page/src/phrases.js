// The words of the page in the language of its reader. A phrase is looked up by its English text, which words/page.txt has with its
// translations; one that no table has stays English. The parts of the page are made after the language is chosen.

/** @typedef {{[name: string]: string | number}} Fields */
/** @typedef {{languages: {[code: string]: string}, phrases: string[][]}} Table the names of the languages, and each phrase in all of them */

export const SOURCE = "en";
const RIGHT_TO_LEFT = new Set(["ar", "fa", "he", "ur"]);
const BETWEEN_FORMS = " | "; // the form for one, and the form for other counts
const FIELD = /\{(\w+)\}/g;

let language = SOURCE;
/** @type {Map<string, string>} */
let phrases = new Map();

// Chooses a language, with its phrases by their English text.
/**
 * @param {string} code
 * @param {Table} table
 */
export function speak(code, { languages, phrases: rows }) {
  const column = Object.keys(languages).indexOf(code);
  language = column < 0 ? SOURCE : code;
  phrases = new Map(column > 0 ? rows.map((row) => [row[0], row[column] || row[0]]) : []);
}

export const spoken = () => language;
export const directionOf = (/** @type {string} */ code) => (RIGHT_TO_LEFT.has(code) ? "rtl" : "ltr");

// The first of these languages that there is, as a browser wishes them: `de-AT` is German.
/**
 * @param {readonly string[]} wished
 * @param {string[]} known
 */
export const firstOf = (wished, known) => wished.map((it) => it.toLowerCase().split("-")[0]).find((it) => known.includes(it)) || SOURCE;

// Marks a text as a phrase that is told later, so that the table must have it.
/** @param {string} english */
export const phraseKey = (english) => english;

// A text of a story, an exercise or a table in the language, as it stands there.
/** @param {string} english */
export const translated = (english) => phrases.get(english) ?? english;

/** @param {number} number */
export const numeral = (number, digits = 0) => number.toLocaleString(language, { minimumFractionDigits: digits, maximumFractionDigits: digits });

// The form for a count, where the phrase has several.
/**
 * @param {string} text
 * @param {number | string | undefined} count
 */
function formFor(text, count) {
  const forms = text.split(BETWEEN_FORMS);
  const isOne = new Intl.PluralRules(language).select(Number(count)) === "one";
  return forms[isOne ? 0 : forms.length - 1];
}

/** @param {string | number} value */
const fieldText = (value) => (typeof value === "number" ? numeral(value) : value);

// A phrase with its fields. Of several forms, `count` chooses one. A number gets the digits of the language.
/**
 * @param {string} english
 * @param {Fields} [fields]
 */
export function phrase(english, fields = {}) {
  return formFor(translated(english), fields.count).replace(FIELD, (whole, name) => (name in fields ? fieldText(fields[name]) : whole));
}

// The same as its parts, where some fields are elements.
/**
 * @param {string} english
 * @param {{[name: string]: Node | string | number}} fields
 * @returns {(Node | string)[]}
 */
export function pieces(english, fields) {
  const parts = formFor(translated(english), /** @type {number} */ (fields.count)).split(FIELD);
  return parts.map((part, at) => (at % 2 ? pieceOf(fields[part]) : part)).filter((it) => it !== "");
}

/** @param {Node | string | number} value */
const pieceOf = (value) => (typeof value === "number" ? numeral(value) : value);

// Texts as a list: with 'or', with 'and', or with a sign between them.
/** @param {string[]} texts */
export const either = (texts) => joined(texts, (left, right) => phrase("{left} or {right}", { left, right }));
/** @param {string[]} texts */
export const both = (texts) => joined(texts, (left, right) => phrase("{left} and {right}", { left, right }));
/** @param {string[]} texts */
export const inRow = (texts) => joined(texts, (left, right) => phrase("{left}, {right}", { left, right }));
/** @param {string[]} texts */
export const apart = (texts) => joined(texts, (left, right) => phrase("{left}; {right}", { left, right }));

/**
 * @param {string[]} texts
 * @param {(left: string, right: string) => string} join
 */
const joined = (texts, join) => (texts.length ? texts.reduce(join) : "");

// The same of a step count: `1 step`, `2,000 steps`.
/** @param {number} count */
export const inSteps = (count) => phrase("{count} step | {count} steps", { count });

// What the page has as HTML, in the language: its texts, and the attributes that are read or shown.
const ATTRIBUTES = ["title", "aria-label", "placeholder"];
const UNTOLD = "code, kbd, script, style, [translate=no]";

/** @param {Element} root */
export function translateElements(root) {
  if (language === SOURCE) return;
  const walker = document.createTreeWalker(root, NodeFilter.SHOW_TEXT);
  while (walker.nextNode()) {
    const node = /** @type {Text} */ (walker.currentNode);
    const text = node.data.trim().replace(/\s+/g, " ");
    if (text && !node.parentElement?.closest(UNTOLD)) node.data = node.data.replace(/\S[^]*\S|\S/, () => translated(text));
  }
  for (const name of ATTRIBUTES) for (const it of root.querySelectorAll(`[${name}]`)) it.setAttribute(name, translated(String(it.getAttribute(name))));
}
