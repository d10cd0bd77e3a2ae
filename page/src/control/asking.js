// What a click on a value, a name, a printed line or a line of the source asks for: the step behind it.

import { giverOf, lastOf, printerOf, senderOf, starterOf, stepsOfLine, stepsWith } from "./finding.js";
import { courseOf, courseRow } from "./course.js";
import { find } from "../element.js";
import { isUnanswered } from "../engine/remote.js";
import { phrase } from "../phrases.js";

/** @typedef {import("./page.js").Page} Page */

/**
 * @param {() => Page} later
 * @returns {import("../panes/panes.js").PaneEvents}
 */
export function paneEvents(later) {
  return {
    step: (name, clause) => void later().step(name, clause),
    choose: (name) => later().chooseGoroutine(name),
    findStep: (what) => void findStep(later(), what),
  };
}

/**
 * @param {import("../session/session.js").Session} session
 * @param {Parameters<import("../panes/panes.js").PaneEvents["findStep"]>[0]} what
 */
function stepBehind(session, { go, variable, item, waiter, line }) {
  if (go) return starterOf(session, go);
  if (waiter) return lastOf(session, waiter);
  if (line !== undefined) return printerOf(session, line);
  if (variable) return giverOf(session, variable[0], variable[1]);
  return item ? senderOf(session, item[0], item[1]) : "";
}

// Chooses the step behind something, so that its causes and consequences are seen and it can be taken back.
/**
 * @param {Page} page
 * @param {Parameters<import("../panes/panes.js").PaneEvents["findStep"]>[0]} what
 */
async function findStep(page, what) {
  const { session } = page;
  if (!session || page.hindrance) return page.say(page.hindrance, "bad");
  if (page.past.isOn) return page.say(phrase("Steps are found from the present state: leave the past first."), "bad");
  try {
    const id = await stepBehind(session, what);
    if (session !== page.session) return;
    if (!id) return page.say(phrase("No step of the log gave this: it is a parameter, or its step is not found yet."), "bad");
    page.say(phrase("{step} is the step behind it: see what depends on it, or take it back.", { step: id }));
    await page.pointing.show(id);
    if (what.variable) await showCourse(page, session, what.variable);
  } catch (fault) {
    if (!isUnanswered(fault)) throw fault;
  }
}

// The values that a variable had.
/**
 * @param {Page} page
 * @param {import("../session/session.js").Session} session
 * @param {[string, string]} variable
 */
async function showCourse(page, session, [goroutine, name]) {
  const values = await courseOf(session, goroutine, name);
  if (session !== page.session || !page.pointing.pinned) return;
  find("course").replaceChildren(courseRow(goroutine, name, values, (id) => void page.pointing.choose(id, true).then(() => page.views.picture.reveal(id))));
}

// Marks the steps of a line of the source, and chooses the last of them.
/**
 * @param {Page} page
 * @param {number} line
 */
export function showStepsOf(page, line) {
  if (!page.session) return;
  const ids = stepsOfLine(page.session, line);
  return mark(page, ids, phrase("{count} step of line {line} | {count} steps of line {line}", { count: ids.length, line: String(line) }));
}

// Marks the steps that have a text, and goes to the next of them.
/**
 * @param {Page} page
 * @param {string} text
 */
export function search(page, text) {
  if (!page.session || !text.trim()) {
    page.pointing.forgetFound();
    return page.pointing.draw();
  }
  const ids = stepsWith(page.session, text.trim());
  const { log } = page.session;
  const here = log.row(page.pointing.pinned);
  const next = ids.find((id) => log.row(id) > here) || ids[0];
  return mark(page, ids, phrase("{count} step with “{text}” | {count} steps with “{text}”", { count: ids.length, text: text.trim() }), next);
}

// Of which steps the statements and prints are read, where these are not all.
/** @param {Page} page */
function amongRead({ session }) {
  const read = session?.notes.size || 0;
  return !session || read >= session.log.length ? "" : phrase(", among the {count} whose statements are read", { count: read });
}

/**
 * @param {Page} page
 * @param {string[]} ids
 * @param {string} what
 */
async function mark(page, ids, what, shown = ids[ids.length - 1]) {
  page.pointing.found = new Set(ids);
  find("found").textContent = what + amongRead(page);
  if (shown) await page.pointing.show(shown);
  else page.pointing.draw();
}
