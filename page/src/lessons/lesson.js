// A story or an exercise of one's own: what is recorded of a session, with the sentences and the goal that somebody gave to it.

import { phrase, phraseKey } from "../phrases.js";

export const OWN = "lesson"; // its name in the menu
const NO_NAME = phraseKey("a lesson");
const ENDS = new Set(["ended", "deadlock", "cycle", "fault", "ready"]);

/** @param {unknown} it */
const textIn = (it) => (typeof it === "string" ? it : "");
/** @param {unknown} it */
export const isLine = (it) => typeof it === "string" && /^[^\n\r]*\S[^\n\r]*$/.test(it);
/** @param {unknown} it */
const lines = (it) => (Array.isArray(it) ? it.filter((one) => typeof one === "string" && !/[\n\r]/.test(one)) : []);

// What of a goal was read has the types that it must have. A goal without any part is none.
/**
 * @param {any} read
 * @returns {Goal | null}
 */
export function checkedGoal(read) {
  if (typeof read !== "object" || !read) return null;
  /** @type {Goal} */
  const goal = {};
  if (typeof read.printed === "string") goal.printed = read.printed;
  if (ENDS.has(read.end)) goal.end = read.end;
  if (isLine(read.chosen)) goal.chosen = read.chosen;
  if (Array.isArray(read.state)) goal.state = lines(read.state);
  if (read.safe === true) goal.safe = true;
  return Object.keys(goal).length ? goal : null;
}

// The lesson that was read of a link, of a file or of what was kept, or nothing. An exercise has a goal, and a story commands.
/**
 * @param {any} read
 * @returns {Lesson | null}
 */
export function checkedLesson(read) {
  if (typeof read?.source !== "string") return null;
  const told = (Array.isArray(read.told) ? read.told : []).filter((/** @type {any} */ it) => isLine(it?.command)).map((/** @type {any} */ it) => ({ text: textIn(it.text), command: it.command }));
  const goal = checkedGoal(read.goal);
  if (!told.length && !goal) return null;
  const [title, shows, task, hint] = [read.title, read.shows, read.task, read.hint].map(textIn);
  return { title: title.trim() || phrase(NO_NAME), source: read.source, shows, told: goal ? [] : told, task, hint, before: goal ? lines(read.before).filter(isLine) : [], goal };
}

// A lesson as a story of the menu, and as an exercise.
/**
 * @param {Lesson | null} lesson
 * @returns {Story | null}
 */
export const storyOf = (lesson) => (lesson && !lesson.goal ? { name: OWN, title: lesson.title, source: lesson.source, script: "", shows: lesson.shows, told: lesson.told } : null);

/**
 * @param {Lesson | null} lesson
 * @returns {Exercise | null}
 */
export function exerciseOf(lesson) {
  if (!lesson?.goal) return null;
  const { title, source, task, hint, goal, before } = lesson;
  return { name: OWN, title, level: 0, source, task, hint, goal, before };
}

// The name of a file for a title.
/** @param {string} title */
export const fileNameOf = (title) => title.toLowerCase().replace(/[^\p{L}\p{N}]+/gu, "_").replace(/^_+|_+$/g, "") || OWN;

// The commands of a session, with the sentences of others that are the same, in their order.
/**
 * @param {string[]} commands
 * @param {Told[]} told
 * @returns {Told[]}
 */
export function withTexts(commands, told) {
  const found = commands.map((command) => ({ text: "", command }));
  let at = 0;
  for (const { text, command } of told) {
    const later = found.findIndex((it, place) => place >= at && it.command === command);
    if (later < 0) continue;
    found[later].text = text;
    at = later + 1;
  }
  return found;
}

// What was recorded: the commands of the session, unless they only are the first of those of the draft, as after a trial of it.
/**
 * @param {string[]} commands
 * @param {Told[]} told
 */
export const recorded = (commands, told) => (commands.every((command, at) => told[at]?.command === command) ? told : withTexts(commands, told));
