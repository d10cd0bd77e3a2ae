// How a program stands, as the shell's `why` tells it: who waits for whom, the cycle, and what became of those that are not done.

import { View, cycleAmong } from "./waits.js";
import { Sentences } from "./sentences.js";
import { fatesOf } from "./endings.js";

/**
 * @typedef {object} Standing
 * @property {"deadlock" | "ended" | "running"} state
 * @property {import("./waits.js").Wait[]} waits
 * @property {string[]} cycle
 * @property {import("./endings.js").Fate[]} fates
 * @property {string[]} lines the sentences
 */

// How the program of a session stands; nothing where a fault stopped it, or there is too much to tell of.
/**
 * @param {import("../session/session.js").Session} session
 * @param {{go: {[fault: string]: string}, faults: {[fault: string]: string}}} given
 * @returns {Promise<Standing | null>}
 */
export async function standingOf(session, given) {
  const { reader, log, program } = session;
  const sentences = new Sentences(program, given);
  if (log.end?.kind.startsWith("fault")) return null;
  if (log.end) {
    const view = await View.read(reader, program);
    const found = view && (await fatesOf(session, view.goroutines.map(({ name }) => name).filter((name) => name !== "g0")));
    return found && { state: "ended", ...found, cycle: [], lines: sentences.ended(found.fates, found.waits) };
  }
  const waits = await (await View.read(reader, program))?.waits();
  if (!waits) return null;
  const cycle = cycleAmong(waits);
  return { state: session.scene.isStuck ? "deadlock" : "running", waits, cycle, fates: [], lines: sentences.deadlock(waits, cycle) };
}
