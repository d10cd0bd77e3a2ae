// What panes show, asked of a session: goroutines, channels and what was printed.

import { parseChannel, parseGoroutine } from "../engine/protocol.js";
import { Unanswered } from "../engine/remote.js";

const SHOWN = 200; // of more goroutines, and of more channels, the first are shown
/** @type {Tail} */
const UNPRINTED = { isOk: true, count: 0, lines: [] };
/** @type {Tail} */
export const TOO_MUCH = { isOk: false, count: 0, lines: [] };

/** @typedef {(views: string[]) => Promise<any[]>} Ask gives the replies to `show G`, `chan C` and `console` of one state */

// Asks the goroutines and channels of a state of a session that runs the expanded source, and, where `areFew`, what was printed.
/**
 * @param {Ask} ask
 * @param {{names: string[], channels: string[]}} named
 * @param {import("./statements.js").Statements} statements
 * @param {{isAny: boolean, areFew: boolean}} prints
 * @returns {Promise<Scene>}
 */
export async function readScene(ask, { names, channels }, statements, { isAny, areFew }) {
  const [shown, made] = [names.slice(0, SHOWN), channels.slice(0, SHOWN)];
  const hidden = names.length - shown.length + channels.length - made.length;
  const states = [...shown.map((name) => `show ${name}`), ...made.map((name) => `chan ${name}`)];
  const replies = await ask([...states, ...(isAny && areFew ? ["console"] : [])]); // the last looks through the whole log
  const console = !isAny ? UNPRINTED : areFew ? replies[states.length] : TOO_MUCH;
  const refused = replies.slice(0, states.length).find((reply) => !reply.isOk);
  if (refused) throw new Unanswered(refused.last);
  const goroutines = shown.map((_, at) => placed(parseGoroutine(replies[at]), statements));
  const isPartial = names.length > shown.length;
  const isStuck = !isPartial && !goroutines.some(({ state }) => state === "ready");
  const found = made.map((name, at) => parseChannel(name, replies[shown.length + at]));
  const scene = { goroutines, channels: found, console, hidden, isPartial, isStuck, clauses: new Map(), missing: "" };
  return statements.origin ? statements.origin.readable(scene) : scene;
}

// A goroutine with its place in the user's source.
/**
 * @param {Goroutine} goroutine
 * @param {import("./statements.js").Statements} statements
 * @returns {Goroutine}
 */
export function placed(goroutine, statements) {
  const statement = statements.at(goroutine.line);
  return { ...goroutine, line: goroutine.line && statements.lineOf(goroutine.line), statement };
}

/** @type {Scene} */
export const NOTHING = { goroutines: [], channels: [], console: UNPRINTED, hidden: 0, isPartial: false, isStuck: false, clauses: new Map(), missing: "" };

// The scene of a state that cannot be shown.
/**
 * @param {string} reason
 * @returns {Scene}
 */
export const unshown = (reason) => ({ ...NOTHING, clauses: new Map(), missing: reason });
