// Schedules that are drawn by chance from a state of a program, and the ends that they come to.

import { goroutineOf } from "../engine/protocol.js";
import { Log } from "../session/log.js";

const LONGEST = 600; // steps of a schedule that is drawn
const AT_ONCE = 40; // commands in one exchange, of which those are done that can be
const CLAUSES = 3; // of a select that are named by chance
const NAMED = 0.3; // of the commands name a clause

/** @typedef {"ended" | "deadlock" | "panic" | "unended"} End */
/**
 * @typedef {object} Schedule
 * @property {Step[]} steps from the first step of the program
 * @property {string[]} commands those that take the steps behind the state that it was drawn from
 * @property {End} end
 * @property {string} fault what stopped the program, or ""
 * @property {string[]} printed
 */

/** @param {number} count */
const chance = (count) => Math.floor(Math.random() * count);

/** @param {string[]} names */
function someStep(names) {
  const goroutine = names[chance(names.length)];
  return Math.random() < NAMED ? `step ${goroutine} ${1 + chance(CLAUSES)}` : `step ${goroutine}`;
}

/**
 * @param {Log} log
 * @param {boolean} isStuck
 * @returns {End}
 */
function endOf(log, isStuck) {
  if (log.end) return log.end.kind === "exit" ? "ended" : "panic";
  return isStuck ? "deadlock" : "unended";
}

// Whether no goroutine is ready: a run of one step is tried and undone.
/** @param {import("../engine/remote.js").RemoteSession} remote */
async function isStuckNow(remote) {
  const [reply] = await remote.questions(["run 1"]);
  if (reply.words[1] === "1") await remote.questions(["undo"]);
  return reply.words[2] === "stuck";
}

// What a session that stands at the end of a log has come to.
/**
 * @param {import("../engine/remote.js").RemoteSession} remote
 * @param {Log} log
 * @param {string[]} commands
 * @returns {Promise<Schedule>}
 */
export async function readEnd(remote, log, commands) {
  const end = endOf(log, !log.isOver && (await isStuckNow(remote)));
  const printed = (await remote.ask("console", "tail")).lines || [];
  return { steps: log.steps(0, log.length), commands, end, fault: end === "panic" ? String(log.end?.kind.slice("fault ".length)) : "", printed };
}

// Draws one schedule in a session that stands behind some steps, and takes it back.
/**
 * @param {import("../engine/remote.js").RemoteSession} remote
 * @param {Step[]} before
 */
export async function draw(remote, before) {
  const log = new Log();
  log.restart(before);
  /** @type {string[]} */
  const commands = [];
  for (let isStuck = false; !isStuck && !log.isOver && commands.length < LONGEST; ) {
    const asked = Array.from({ length: AT_ONCE }, () => someStep(log.names));
    const replies = await remote.askAll(asked);
    const done = asked.filter((_, at) => replies[at].isOk);
    for (const { words } of replies.filter(({ isOk }) => isOk)) log.append(goroutineOf(words[1]), words.slice(2).join(" "));
    commands.push(...done);
    isStuck = !done.length && (await isStuckNow(remote));
  }
  const drawn = await readEnd(remote, log, commands);
  await remote.questions(Array(commands.length).fill("undo"));
  return drawn;
}

/** @param {Schedule} schedule */
export const isBad = ({ end }) => end === "deadlock" || end === "panic";

// The schedules by their ends: of those that end, by what they print. Bad ends come last, and the more frequent ones first.
/** @param {Schedule[]} schedules */
export function outcomesOf(schedules) {
  /** @type {Map<string, Schedule[]>} */
  const outcomes = new Map();
  for (const it of schedules) {
    const key = JSON.stringify([it.end, it.fault, it.end === "ended" ? it.printed : []]);
    outcomes.set(key, [...(outcomes.get(key) || []), it]);
  }
  const shortest = (/** @type {Schedule[]} */ some) => some.reduce((one, other) => (other.steps.length < one.steps.length ? other : one));
  const counted = [...outcomes.values()].map((some) => ({ count: some.length, shown: shortest(some) }));
  return counted.sort((one, other) => Number(isBad(one.shown)) - Number(isBad(other.shown)) || other.count - one.count);
}

/** @typedef {ReturnType<typeof outcomesOf>[number]} Outcome */
