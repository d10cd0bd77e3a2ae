// A search of all schedules from the present state: a run of the program of its own, in a worker that can be ended.

import { RemoteSession, SessionGone } from "../engine/remote.js";
import { phrase, phraseKey } from "../phrases.js";

const STATES = 1000000; // are searched at most
const LOOK = 100; // milliseconds between looks at whether it goes on
const UNFINISHED = /^not finished: (.*), and no schedule ends badly within (\d+) steps$/;
const NONE_ENDS_BADLY = phraseKey("No schedule ends badly: {where} none is stuck or ends in a panic, its one state seen. | No schedule ends badly: {where} none is stuck or ends in a panic, all {count} states seen.");
const LEADS_TO_DEADLOCK = phraseKey("A schedule ends badly: {count} step {where} leads to a deadlock. | A schedule ends badly: {count} steps {where} lead to a deadlock.");
const LEADS_TO_PANIC = phraseKey("A schedule ends badly: {count} step {where} leads to a panic. | A schedule ends badly: {count} steps {where} lead to a panic.");
const STATES_SEEN = phraseKey("{states} states seen");
const LIMITS = /** @type {{[limit: string]: string}} */ ({
  "a schedule is as long as the log may be": phraseKey("a schedule is as long as the log may be"),
  "as many events tried as may be": phraseKey("as many events tried as may be"),
  "there is no memory for more": phraseKey("there is no memory for more"),
});
const [NONE_BAD, BAD, NOT_FINISHED] = [0, 4, 5]; // what the status of the program says

/** @typedef {import("./page.js").Page} Page */
/**
 * @typedef {object} Searched what a search came to, as long as nothing changes
 * @property {string} sentence
 * @property {string} tone
 * @property {string[]} taken the commands that take the kept steps
 * @property {string[]} commands to the bad end from here
 * @property {boolean} isBad whether a bad end was found
 * @property {string | null} pinned the step that was chosen
 */

// Searches, tells what was found, and offers to take the steps to it.
/** @param {Page} page */
export async function searchAll(page) {
  const { session } = page;
  const taken = session ? session.steps : [];
  const found = await search(page, taken);
  if (!found) return;
  const commands = found.output.split("\n").filter((line) => line).slice(taken.length);
  const sentence = sentenceOf(found.status, found.errors.trim(), commands.length, phrase("from here"));
  page.searched = { sentence, tone: found.status === NONE_BAD ? "good" : found.status === BAD ? "stuck" : "", taken, commands, isBad: found.status === BAD, pinned: page.pointing.pinned };
  page.say(sentence);
  page.showControls();
}

// Searches all schedules of the program from its first step, whatever was done of it, and keeps the answer for the source.
/** @param {Page} page */
export async function searchWhole(page) {
  const source = page.session?.source || "";
  const found = await search(page, []);
  if (!found) return;
  const { length } = found.output.split("\n").filter((line) => line);
  const sentence = sentenceOf(found.status, found.errors.trim(), length, phrase("from the first step"));
  page.searchedWhole = { source, status: found.status, sentence };
  page.say(sentence, found.status === BAD ? "bad" : "");
  page.tell();
}

// Runs the search behind steps that were taken. Nothing where it came to no answer, which is told.
/**
 * @param {Page} page
 * @param {string[]} taken
 */
async function search(page, taken) {
  const { session } = page;
  if (!session || page.hindrance) return page.say(page.hindrance, "bad"), null;
  page.past.leave();
  return page.moving(() => wholeRun(page, session, "--search", taken)).finally(() => page.showControls());
}

// Runs the program once over the schedules behind steps that were taken, while a move goes on that can be stopped. Nothing where it came
// to no answer, which is told.
/**
 * @param {Page} page
 * @param {import("../session/session.js").Session} session
 * @param {"--search" | "--blame"} option
 * @param {string[]} taken
 */
export async function wholeRun(page, session, option, taken) {
  const remote = new RemoteSession(/** @type {Machine} */ (page.machine));
  const began = performance.now();
  const watch = setInterval(() => (page.isMoving ? page.views.status.searching((performance.now() - began) / 1000) : remote.close()), LOOK);
  page.views.status.searching(0);
  page.showControls(true);
  try {
    const words = ["rewind", option, "program.go", "--after", "-", "--states", String(STATES)];
    const found = await remote.whole(words, session.text, taken.map((line) => `${line}\n`).join(""));
    return session === page.session ? found : null;
  } catch (fault) {
    if (!(fault instanceof SessionGone)) throw fault;
    page.say(page.isMoving ? phrase("The search could not go on: {reason}.", { reason: fault.message }) : phrase("The search was stopped by you: nothing is known of all schedules."));
    return null;
  } finally {
    clearInterval(watch);
    remote.close();
  }
}

// Which limit a search has met, and what is known then.
/** @param {string} said */
function unfinishedText(said) {
  const [, limit, within] = UNFINISHED.exec(said) || [];
  const reason = phrase(LIMITS[limit] || STATES_SEEN, { states: Number(/\d+/.exec(limit || "")?.[0] || 0) });
  return limit ? phrase("The search is not finished: {reason}, and no schedule ends badly within {count} steps.", { reason, count: Number(within) }) : phrase("The search could not be made: {reason}.", { reason: said });
}

/**
 * @param {number} status
 * @param {string} said
 * @param {number} ahead
 * @param {string} where
 */
function sentenceOf(status, said, ahead, where) {
  const isStuck = /deadlock/.test(said);
  if (status === NONE_BAD) return phrase(NONE_ENDS_BADLY, { where, count: Number(/\d+/.exec(said)?.[0] || 1) });
  if (status === BAD && !ahead) return isStuck ? phrase("A bad end: the program stands in a deadlock.") : phrase("A bad end: the program stands in a panic.");
  if (status === BAD) return phrase(isStuck ? LEADS_TO_DEADLOCK : LEADS_TO_PANIC, { where, count: ahead });
  return status === NOT_FINISHED ? unfinishedText(said) : phrase("The search could not be made: {reason}.", { reason: said });
}

// Takes the steps of the schedule that was found.
/** @param {Page} page */
export async function follow(page) {
  const commands = page.searched?.commands || [];
  await page.replay(commands);
  page.say(phrase("{count} step of the schedule was taken. | {count} steps of the schedule were taken.", { count: commands.length }));
}
