// The values of a variable over time: which steps gave it one, and which.

import { button, make } from "../element.js";
import { gives, lastRows } from "./finding.js";
import { parseGoroutine } from "../engine/protocol.js";
import { phrase } from "../phrases.js";

const MOST = 12; // values; of more the last

/** @typedef {{id: string, value: string}} Given */

/**
 * @param {import("../session/session.js").Session} session
 * @param {string} goroutine
 * @param {string} name
 * @returns {Promise<Given[]>}
 */
export async function courseOf(session, goroutine, name) {
  const { log, reader } = session;
  const rows = (await lastRows(session, gives(goroutine, name), MOST)).reverse();
  const { version } = log;
  const ids = rows.map((row) => log.id(row));
  const isSame = () => version === log.version;
  /** @type {Given[]} */
  const values = [];
  for (const [at, row] of rows.entries()) {
    const [reply] = (await reader.views(row + 1, [`show ${goroutine}`], isSame)) || [];
    if (!reply?.isOk) return [];
    const variables = parseGoroutine(reply).frames.flatMap((frame) => frame.variables);
    values.push({ id: ids[at], value: variables.find((it) => it.name === name)?.value ?? phrase("gone") });
  }
  return values;
}

// The values as a row, each with the step that gave it.
/**
 * @param {string} goroutine
 * @param {string} name
 * @param {Given[]} values
 * @param {(id: string) => void} show
 */
export function courseRow(goroutine, name, values, show) {
  const one = ({ id, value } = values[0], at = 0) => [at ? " → " : "", button({ class: "asked-value", title: phrase("Show {step}", { step: id }), onclick: () => show(id) }, `${value} (${id})`)];
  return make("p", {}, make("strong", {}, phrase("{goroutine} {variable} over time:", { goroutine, variable: name })), " ", ...(values.length === MOST ? [".. "] : []), ...values.flatMap((it, at) => one(it, at)));
}
