// What is known of each step of a run, for files that other tools read.

import { ALL_EDGES } from "../control/annotating.js";
import { compareNames } from "../engine/protocol.js";
import { lineOf } from "../picture/outcomes.js";
import { shownOf } from "../picture/shown.js";
import { phrase } from "../phrases.js";

/** @typedef {import("../control/page.js").Page} Page */
/** @typedef {import("../session/session.js").Session} Session */

/**
 * @typedef {object} Fact what is known of a step
 * @property {Step} step
 * @property {Note} note
 * @property {string} says its statement, or the case that its select took, or else what it did
 * @property {string} outcome what came of it, without what it printed
 * @property {[name: string, count: number][]} clock how many steps of each goroutine it depends on, itself among them
 * @property {Edge[]} edges the direct dependences on steps of other goroutines
 * @property {string[]} rests the steps that it depends on directly
 */

/**
 * @typedef {object} Run
 * @property {Fact[]} facts
 * @property {Map<string, string>} functions of the goroutines
 * @property {(channel: string) => string} called a channel by a variable that holds it
 */

// Columns without bounds, so that no word of a line is cut.
const WHOLE = /** @type {any} */ ({ mostStatement: Infinity, mostOutcome: Infinity });

// Finds all notes and edges of a session.
/** @param {Session} session */
async function findAll(session) {
  const { length } = session.log;
  await session.notes.find(0, length, { isOld: () => session.isLeft });
  await session.order.find(0, length);
}

/** @param {Session} session */
function lackOf({ log }) {
  if (!log.length) return phrase("There is no step to save yet.");
  if (log.length > ALL_EDGES) return phrase("A run can be saved up to {most} steps: this one has {count} steps.", { most: ALL_EDGES, count: log.length });
  return "";
}

/**
 * @param {Page} page
 * @param {Session} session
 * @returns {Run}
 */
function read(page, { log, order }) {
  const shown = shownOf(page);
  const place = /** @type {any} */ ({ ...shown, log, columns: WHOLE });
  const facts = log.steps(0, log.length).map((step) => {
    const note = /** @type {Note} */ (page.note(step.id));
    const { kind, outcome } = lineOf(step, note, place);
    const before = log.before(step.id);
    const edges = order.edges.get(step.id) || [];
    return {
      step, note, says: kind, outcome: outcome.filter(({ name }) => name !== "printed").map(({ text }) => text).join(" "),
      clock: [...(order.causes(step.id) || [])].sort(([one], [other]) => compareNames(one, other)), edges,
      rests: [...(before ? [before] : []), ...edges.map(({ from }) => from)],
    };
  });
  return { facts, functions: shown.functions, called: shown.called };
}

// The facts of the whole run, or why they cannot be had.
/**
 * @param {Page} page
 * @returns {Promise<{run: Run | null, lack: string}>}
 */
export async function factsOf(page) {
  const { session } = page;
  if (!session || page.hindrance) return { run: null, lack: page.hindrance };
  const { version } = session.log;
  if (!lackOf(session)) await findAll(session);
  const lack = lackOf(session);
  if (lack) return { run: null, lack };
  const isSame = session === page.session && session.log.version === version;
  const isWhole = isSame && session.log.steps(0, session.log.length).every(({ id }) => page.note(id) && session.order.causes(id));
  return isWhole ? { run: read(page, session), lack: "" } : { run: null, lack: phrase("The run has changed meanwhile: save it again.") };
}
