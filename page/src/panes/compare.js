// Two runs side by side: where the log that was kept and the log of now part, and what an order changed.

import { find, make } from "../element.js";
import { shortened } from "../picture/labels.js";
import { phrase } from "../phrases.js";

/** @typedef {{id: string, kind: string, statement?: string}} Row */

// Pairs the rows of two logs: those that both have stand beside each other where their order is the same.
/**
 * @param {Row[]} one
 * @param {Row[]} other
 */
export function paired(one, other) {
  let same = 0;
  while (same < Math.min(one.length, other.length) && isSame(one[same], other[same])) same++;
  const here = new Map(other.map((row, at) => [row.id, at]));
  const there = new Map(one.map((row, at) => [row.id, at]));
  const note = (/** @type {Row} */ row, /** @type {Map<string, number>} */ rows, /** @type {Row[]} */ others, /** @type {number} */ at) => {
    const found = rows.get(row.id);
    if (found === undefined) return phrase("only here");
    if (others[found].kind !== row.kind) return phrase("otherwise: {kind}", { kind: others[found].kind });
    return found === at ? "" : phrase("place {place} there", { place: found + 1 });
  };
  const rows = Array.from({ length: Math.max(one.length, other.length) }, (_, at) => ({
    left: one[at] && { ...one[at], note: note(one[at], here, other, at) },
    right: other[at] && { ...other[at], note: note(other[at], there, one, at) },
  }));
  return { same, rows };
}

/**
 * @param {Row} one
 * @param {Row} other
 */
const isSame = (one, other) => one.id === other.id && one.kind === other.kind;

/** @type {Row[] | null} */
let kept = null;
const STATEMENT = 40; // letters of a statement
const SHOWN = 400; // rows from where the logs part

/** @param {import("../control/page.js").Page} page */
function rowsOf(page) {
  const { session } = page;
  const statement = (/** @type {string} */ id) => shortened(session?.origin.noted(page.note(id))?.statement?.text || "", STATEMENT);
  return session ? session.log.steps(0, session.log.length).map(({ id, kind }) => ({ id, kind, statement: statement(id) })) : [];
}

/** @param {Row & {note: string} | undefined} row */
function cell(row) {
  if (!row) return make("td");
  const { id, kind, statement, note } = row;
  return make("td", { class: note ? "differs" : "" }, `${id} ${kind} `, make("code", {}, statement || ""), ...(note ? [make("small", {}, ` ${note}`)] : []));
}

// The first time it keeps the log of now; later it shows both.
/** @param {import("../control/page.js").Page} page */
export function showCompared(page) {
  const now = rowsOf(page);
  if (!kept || !kept.length) {
    kept = now;
    return page.say(phrase("This {count} step is kept: change the session, and press Compare again. | These {count} steps are kept: change the session, and press Compare again.", { count: now.length }));
  }
  const { same, rows } = paired(kept, now);
  const from = Math.max(0, same - 3);
  const body = rows.slice(from, from + SHOWN).map(({ left, right }, at) => make("tr", {}, make("th", {}, String(from + at + 1)), cell(left), cell(right)));
  const parts = same === rows.length ? phrase("The two logs are the same.") : phrase("The first {count} step is the same. There the logs part. | The first {count} steps are the same. There the logs part.", { count: same });
  find("compared-text").textContent = parts;
  find("compared").replaceChildren(make("tr", {}, ...[phrase("Row"), phrase("Kept"), phrase("Now")].map((it) => make("th", {}, it))), ...body);
  find("forget").onclick = () => {
    kept = null;
    /** @type {HTMLDialogElement} */ (find("compare-dialog")).close();
  };
  /** @type {HTMLDialogElement} */ (find("compare-dialog")).showModal();
}
