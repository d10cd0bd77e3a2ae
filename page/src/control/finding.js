// Finds the step behind what a pane shows: a variable, an item of a channel, a waiter, a goroutine, a printed line, a line of the source.

import { goroutineOf, stepName } from "../engine/protocol.js";
import { sends } from "../session/facts.js";
import { word } from "../session/edges.js";

const LOOKED_AT = 50; // steps back, for the last one outside of what carrying added
const PORTION = 500; // rows
const FURTHEST = 20000; // rows from the end, among which a step is looked for

/** @typedef {import("../session/session.js").Session} Session */

// The step that started a goroutine.
/**
 * @param {Session} session
 * @param {string} name
 */
export function starterOf({ log }, name) {
  const at = name.lastIndexOf(".");
  const [parent, number] = [name.slice(0, at), Number(name.slice(at + 1))];
  const rows = log.byName.get(parent)?.rows.filter((row) => log.kinds[row] === "go") || [];
  return rows[number - 1] === undefined ? "" : log.id(rows[number - 1]);
}

// The last step of a goroutine: where it waits, the one in which it began to.
/**
 * @param {Session} session
 * @param {string} name
 */
export function lastOf({ log }, name) {
  const count = log.byName.get(name)?.rows.length || 0;
  return count ? stepName(name, count) : "";
}

// The rows whose steps are such ones, from the last one on, so many at most.
/**
 * @param {Session} session
 * @param {(fact: About) => boolean} isSuch
 * @param {number} most
 */
export async function lastRows({ log, reader: { facts } }, isSuch, most) {
  /** @type {number[]} */
  const found = [];
  const last = Math.max(0, log.length - FURTHEST);
  for (let to = log.length; to > last && found.length < most; to -= PORTION) {
    const from = Math.max(last, to - PORTION);
    await facts.need(from, to);
    for (let row = Math.min(to, log.length) - 1; row >= from && found.length < most; row--) {
      const fact = facts.at(row);
      if (fact && isSuch(fact)) found.push(row);
    }
  }
  return found;
}

// The last but so many of the steps that are such ones, counted from 1, or "".
/**
 * @param {Session} session
 * @param {(fact: About) => boolean} isSuch
 * @param {number} number
 */
async function fromEnd(session, isSuch, number) {
  const rows = await lastRows(session, isSuch, number);
  return rows.length < number || number < 1 ? "" : session.log.id(rows[number - 1]);
}

// The step that printed a line of the console, counted from 0.
/**
 * @param {Session} session
 * @param {number} line
 */
export const printerOf = (session, line) => fromEnd(session, ({ prints }) => prints, session.scene.console.count - line);

// Whether a step gave a variable of a goroutine a value.
/**
 * @param {string} goroutine
 * @param {string} name
 */
export const gives = (goroutine, name) => (/** @type {About} */ { id, given }) => goroutineOf(id) === goroutine && given.includes(name);

// The last step that gave a variable a value.
/**
 * @param {Session} session
 * @param {string} goroutine
 * @param {string} name
 */
export const giverOf = (session, goroutine, name) => fromEnd(session, gives(goroutine, name), 1);

// The step that sent an item of a channel: `number` is 1 for the last send.
/**
 * @param {Session} session
 * @param {string} channel
 * @param {number} number
 */
export const senderOf = (session, channel, number) => fromEnd(session, (fact) => sends(fact) && fact.channel?.name === channel && word(fact.kind) !== "fault", number);

// The kept steps of a line of the source, in the order of the log.
/**
 * @param {Session} session
 * @param {number} line
 */
export function stepsOfLine({ log, notes, origin }, line) {
  const found = [];
  for (let row = 0; row < log.length; row++) {
    const id = log.id(row);
    if (origin.lineOf(notes.get(id)?.line || 0) === line) found.push(id);
  }
  return found;
}

// The line of the user's source at which a goroutine stands. Within a function that carrying added it is that of its last step outside.
/**
 * @param {Session} session
 * @param {Goroutine | null | undefined} goroutine
 */
export function placeOf(session, goroutine) {
  const { log, notes, origin, program } = session;
  if (!goroutine) return 0;
  const { name, line, frames } = goroutine;
  let found = origin.lineOf(line);
  for (let id = lastOf(session, name), count = 0; !found && line && id && count < LOOKED_AT; id = log.before(id), count++) found = origin.lineOf(notes.get(id)?.line || 0);
  for (let at = 1; !found && line && at < frames.length; at++) {
    const calls = program.callingLines(frames[at].name, frames[at - 1].name);
    if (calls.length === 1) found = origin.lineOf(calls[0]);
  }
  return found;
}

// The kept steps whose name, kind, statement or print has this text.
/**
 * @param {Session} session
 * @param {string} text
 */
export function stepsWith({ log, notes }, text) {
  const wanted = text.toLowerCase();
  const found = [];
  for (let row = 0; row < log.length; row++) {
    const id = log.id(row);
    const note = notes.get(id);
    if ([id, log.kinds[row], note?.statement?.text || "", note?.statement?.shown || "", ...(note?.printed || [])].some((it) => it.toLowerCase().includes(wanted))) found.push(id);
  }
  return found;
}
