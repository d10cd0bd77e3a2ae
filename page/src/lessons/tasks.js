// The exercise at hand: its task, its hint, what is missing until it is solved, and the one that comes next.

import { find } from "../element.js";
import { missing } from "./exercises.js";
import { OWN } from "./lesson.js";
import { openStory } from "../control/actions.js";
import { keepSettings, settings } from "../control/keeping.js";
import { phrase } from "../phrases.js";

/** @typedef {import("../control/page.js").Page} Page */

// Brings the session of an exercise to where its task begins.
/** @param {Page} page */
export async function openTask(page) {
  const { exercise } = page.views.stories;
  if (!exercise) return showTask(page);
  await page.replay(exercise.before);
  page.say("");
  showTask(page);
}

// What is missing of the exercise at hand, or "".
/**
 * @param {Page} page
 * @param {Exercise} exercise
 * @param {import("../session/session.js").Session} session
 */
function missingOf({ cycle, pointing, searchedWhole }, { before, goal }, session) {
  const prepared = before.every((line, at) => session.commands[at] === line) ? before.length : 0;
  const { log, scene } = session;
  const searched = searchedWhole?.source === session.source ? searchedWhole : null;
  return missing(goal, { log, scene, cycle, pinned: pointing.pinned, commands: session.commands.slice(prepared), searched });
}

/** @param {Page} page */
function showTask(page) {
  const { session, views } = page;
  const { exercise, nextExercise } = views.stories;
  find("task").hidden = !exercise || !views.stories.isOf(session?.source || "");
  if (!exercise || !session) return;
  const lacks = missingOf(page, exercise, session);
  find("task-text").textContent = exercise.task;
  find("task-hint").textContent = exercise.hint;
  find("task-hint").parentElement?.toggleAttribute("hidden", !exercise.hint);
  const verdict = lacks ? phrase("Not yet: {lacks}.", { lacks }) : phrase("Solved.");
  if (find("task-verdict").textContent !== verdict) find("task-verdict").textContent = verdict;
  find("task").classList.toggle("solved", !lacks);
  find("next-task").hidden = Boolean(lacks) || !nextExercise;
  find("search-whole").hidden = !exercise.goal.safe;
  if (nextExercise) find("next-task").textContent = phrase("Next exercise: {title}", { title: nextExercise.title });
  if (!lacks) markSolved(page, exercise.name);
}

// An exercise that was solved once has a sign in the menu.
/**
 * @param {Page} page
 * @param {string} name
 */
function markSolved({ views: { stories } }, name) {
  const solved = new Set(settings().solved || []);
  if (name === OWN || solved.has(name)) return;
  solved.add(name);
  keepSettings({ solved: [...solved] });
  stories.markSolved([name]);
}

/** @param {Page} page */
export async function nextTask(page) {
  const { nextExercise } = page.views.stories;
  if (nextExercise) await openStory(page, nextExercise.name);
}

/** @param {Page} page */
export function watchExercise(page) {
  const { solved } = settings();
  if (Array.isArray(solved)) page.views.stories.markSolved(solved);
  page.listeners.push(showTask);
}
