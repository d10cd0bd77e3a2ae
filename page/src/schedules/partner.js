// What is known of the schedules around one that ends badly: the step to blame, schedules that were drawn by chance, and a good one.

import { draw, outcomesOf, readEnd } from "./drawing.js";
import { goroutineOf } from "../engine/protocol.js";
import { Log } from "../session/log.js";
import { RemoteSession, Unanswered } from "../engine/remote.js";
import { wholeRun } from "../control/searching.js";

const DRAWN = 40; // schedules from where the search began
const TRIED = 60; // and at most from before the step to blame, until one ends well
const NONE = "no schedule of the program ends well"; // what the program says of the step to blame

/** @typedef {import("./drawing.js").Schedule} Schedule */
/**
 * @typedef {object} Around
 * @property {import("./drawing.js").Outcome[]} outcomes
 * @property {number} drawn how many schedules were drawn from where the search began
 * @property {number} tried and how many from before the step to blame
 * @property {string} blamed the step after which no schedule ends well any more, or ""
 * @property {boolean} isHopeless whether no schedule of the program ends well
 * @property {Schedule} bad the one that the search has found
 * @property {Schedule | null} good
 */

// Takes commands in a session, and gives the log that they make.
/**
 * @param {RemoteSession} remote
 * @param {string[]} commands
 */
async function logOf(remote, commands) {
  const log = new Log();
  for (const { isOk, words, last } of await remote.askAll(commands)) {
    if (!isOk) throw new Unanswered(last);
    log.append(goroutineOf(words[1]), words.slice(2).join(" "));
  }
  return log;
}

// Draws schedules behind some commands, as long as it is wanted.
/**
 * @param {RemoteSession} remote
 * @param {string[]} commands
 * @param {(drawn: Schedule[]) => boolean} isWanted
 */
async function drawBehind(remote, commands, isWanted) {
  const log = await logOf(remote, commands);
  const before = log.steps(0, log.length);
  /** @type {Schedule[]} */
  const drawn = [];
  while (!log.isOver && isWanted(drawn)) drawn.push(await draw(remote, before));
  await remote.questions(Array(commands.length).fill("undo"));
  return drawn;
}

/** @param {Schedule[]} schedules */
const goodOf = (schedules) => schedules.filter(({ end }) => end === "ended").sort((one, other) => one.steps.length - other.steps.length)[0];

// Finds what is known around the schedule of a search, while a move goes on. Nothing where somebody ended it.
/**
 * @param {import("../control/page.js").Page} page
 * @param {import("../session/session.js").Session} session
 * @param {import("../control/searching.js").Searched} searched
 * @returns {Promise<Around | null>}
 */
export async function aroundOf(page, session, { taken, commands }) {
  const whole = [...taken, ...commands];
  const blame = await wholeRun(page, session, "--blame", whole);
  if (!blame) return null;
  const blamed = blame.output.trim();
  const remote = await RemoteSession.open(/** @type {Machine} */ (page.machine), session.text);
  try {
    const log = await logOf(remote, whole);
    const bad = await readEnd(remote, log, commands);
    await remote.questions(Array(whole.length).fill("undo"));
    const goesOn = () => page.isMoving && session === page.session;
    const drawn = commands.length ? await drawBehind(remote, taken, (some) => goesOn() && some.length < DRAWN) : [];
    const row = log.row(blamed);
    const tried = row < 0 ? [] : await drawBehind(remote, whole.slice(0, row), (some) => goesOn() && some.length < TRIED && !goodOf(some));
    if (!goesOn()) return null;
    const outcomes = withFound(outcomesOf(drawn), bad);
    return { outcomes, drawn: drawn.length, tried: tried.length, blamed, isHopeless: blame.errors.includes(NONE), bad, good: goodOf(tried) || goodOf(drawn) || null };
  } finally {
    remote.close();
  }
}

// The outcomes with the schedule of the search among them: it stands for those that end as it does.
/**
 * @param {import("./drawing.js").Outcome[]} outcomes
 * @param {Schedule} bad
 */
function withFound(outcomes, bad) {
  const same = outcomes.find(({ shown }) => shown.end === bad.end && shown.fault === bad.fault);
  if (same) same.shown = bad;
  return same ? outcomes : [...outcomes, { count: 0, shown: bad }];
}
