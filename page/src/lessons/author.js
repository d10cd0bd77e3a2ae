// The dialog in which a story or an exercise is made of the session. Its commands are recorded as they are given; here they get
// sentences, or a task with a goal, which a click takes from the session as it stands.

import { addressBefore, copiedText } from "../control/sharing.js";
import { download, enable, field, find, make } from "../element.js";
import { GOALS } from "./goals.js";
import { fileNameOf, OWN, recorded, withTexts } from "./lesson.js";
import { keepSettings, settings } from "../control/keeping.js";
import { lessonFile } from "../control/filing.js";
import { openStory } from "../control/actions.js";
import { toHash } from "../control/linking.js";
import { phrase } from "../phrases.js";

const SHOWN = 300; // commands that get a field for a sentence
const KEPT = 5000; // commands of a session
const MOST = 200000; // letters of a draft that is kept over a reload

/** @typedef {import("../control/page.js").Page} Page */
/** @typedef {import("../session/session.js").Session} Session */

/**
 * @typedef {object} Draft what was written so far
 * @property {string} source
 * @property {boolean} isExercise
 * @property {string} title
 * @property {string} shows
 * @property {string} task
 * @property {string} hint
 * @property {number} begins
 * @property {Told[]} told the recorded commands, each with what is told before it
 * @property {Goal} goal
 */

/** @type {Draft | null} */
let draft = null;

/**
 * @param {Page} page
 * @param {Session} session
 * @returns {Draft}
 */
function begun({ views: { stories } }, { source, commands }) {
  const isOf = stories.isOf(source);
  const [own, story] = isOf ? [stories.own, stories.story] : [null, null];
  return {
    source, title: own?.title || "", shows: story?.shows || "", told: withTexts(commands, story?.told || []), isExercise: Boolean(own?.goal),
    task: own?.task || "", hint: own?.hint || "", begins: own?.before.length || 0, goal: { ...own?.goal },
  };
}

// The draft of a source: the one at hand, or the one that was kept.
/** @param {string} source */
function draftOf(source) {
  const kept = settings().draft;
  const known = draft || (kept && Array.isArray(kept.told) && typeof kept.goal === "object" ? kept : null);
  return known?.source === source ? known : null;
}

function keepDraft() {
  if (draft && JSON.stringify(draft).length <= MOST) keepSettings({ draft });
}

/**
 * @param {Draft} of
 * @returns {Lesson}
 */
function lessonOf({ source, isExercise, title, shows, task, hint, begins, told, goal }) {
  const named = title.trim() || phrase("a lesson");
  if (!isExercise) return { title: named, source, shows, told, task: "", hint: "", before: [], goal: null };
  return { title: named, source, shows: "", told: [], task, hint, before: told.slice(0, begins).map(({ command }) => command), goal };
}

// Why it cannot be given yet, or "".
/** @param {Draft} of */
function lackOf({ isExercise, told, goal, begins }) {
  if (!isExercise) return told.length ? "" : phrase("No command is recorded yet: take some steps, and come back.");
  if (!Object.keys(goal).length) return phrase("Choose what solves it.");
  return begins === told.length && !goal.safe ? phrase("It begins where it is solved: let it begin earlier, or take the steps that solve it first.") : "";
}

/** @param {Page} page */
function showCommands(page) {
  const { told } = /** @type {Draft} */ (draft);
  const rows = told.slice(0, SHOWN).map((one) => make("li", {}, make("input", {
    value: one.text, "aria-label": phrase("Told before {command}", { command: one.command }), oninput: (/** @type {any} */ { target }) => ((one.text = target.value), keepDraft()),
  }), make("code", {}, one.command)));
  const more = told.length > SHOWN ? [make("li", { class: "none" }, phrase("and {count} command more | and {count} commands more", { count: told.length - SHOWN }))] : [];
  find("lesson-commands").replaceChildren(...rows, ...more);
  const options = [{ command: "" }, ...told].map(({ command }, at) => make("option", { value: String(at) }, at ? phrase("after {count} command: {command} | after {count} commands: {command}", { count: at, command: command.slice(0, 60) }) : phrase("at the first step")));
  find("lesson-begins").replaceChildren(...options);
  const now = page.session?.commands.length || 0;
  find("lesson-anew").hidden = now >= told.length;
  find("lesson-recorded").textContent = phrase("{count} command is recorded. | {count} commands are recorded.", { count: told.length });
}

/** @param {Page} page */
function showGoals(page) {
  const { goal } = /** @type {Draft} */ (draft);
  const rows = GOALS.map(({ name, says, take }) => {
    const now = take(page);
    const isSet = goal[name] !== undefined;
    const isOff = (!isSet && now === undefined) || (Boolean(goal.safe) && (name === "state" || name === "chosen"));
    const change = (/** @type {any} */ { target }) => {
      if (target.checked) /** @type {any} */ (goal)[name] = now;
      else delete goal[name];
      if (goal.safe) delete goal.state, delete goal.chosen;
      show(page);
      find(`goal-${name}`).focus();
    };
    return make("label", {}, make("input", { type: "checkbox", id: `goal-${name}`, checked: isSet, disabled: isOff, onchange: change }), ` ${says(isSet ? goal[name] : now)}`);
  });
  find("lesson-goals").replaceChildren(...rows);
}

/** @param {Page} page */
function show(page) {
  const of = /** @type {Draft} */ (draft);
  of.begins = Math.min(of.begins, of.told.length);
  showCommands(page);
  showGoals(page);
  for (const name of /** @type {("title" | "shows" | "task" | "hint")[]} */ (["title", "shows", "task", "hint"])) field(FIELDS[name]).value = of[name];
  field("lesson-begins").value = String(of.begins);
  field(of.isExercise ? "lesson-is-exercise" : "lesson-is-story").checked = true;
  find("lesson-story").hidden = of.isExercise;
  find("lesson-exercise").hidden = !of.isExercise;
  const lack = lackOf(of);
  find("lesson-lack").textContent = lack;
  for (const id of ["lesson-try", "lesson-link", "lesson-file"]) enable(id, !lack);
  keepDraft();
}

const FIELDS = { title: "lesson-name", shows: "lesson-shows", task: "lesson-task", hint: "lesson-hint" };
const dialog = () => /** @type {HTMLDialogElement} */ (find("lesson-dialog"));

/** @param {Page} page */
export function openAuthor(page) {
  const { session, views } = page;
  if (!session || page.hindrance) return page.say(page.hindrance, "bad");
  if (session.source !== views.editor.text) return page.say(phrase("You changed the source: press Start first, and take the steps of the story or the exercise."), "bad");
  if (!session.isKept) return page.say(phrase("This session has more commands than are kept: a story can have up to {most}.", { most: KEPT }), "bad");
  const known = draftOf(session.source);
  draft = known ? { ...known, told: recorded(session.commands, known.told) } : begun(page, session);
  show(page);
  dialog().showModal();
}

// The link of a lesson, which opens where it begins.
/** @param {Lesson} lesson */
export const linkOf = async (lesson) => addressBefore() + (await toHash({ source: lesson.source, commands: lesson.before, name: OWN, lesson }));

/** @param {Page} page */
async function copyLink(page) {
  const address = await linkOf(lessonOf(/** @type {Draft} */ (draft)));
  const ofDisk = location.protocol === "file:" ? ` ${phrase("It begins with the place of this page on your disk: others put the part from #s= on behind the address of theirs.")}` : "";
  try {
    await navigator.clipboard.writeText(address);
    find("lesson-lack").textContent = copiedText(address) + ofDisk;
  } catch {
    page.views.transcript.remark(address);
    find("lesson-lack").textContent = phrase("The link stands among the commands: copy it from there.") + ofDisk;
  }
}

/** @param {Page} page */
async function tryIt(page) {
  dialog().close();
  page.views.stories.open(lessonOf(/** @type {Draft} */ (draft)));
  await openStory(page, OWN);
}

/** @param {Page} page */
function saveFile(page) {
  const lesson = lessonOf(/** @type {Draft} */ (draft));
  download(new Blob([lessonFile(lesson, page.given.version)], { type: "text/plain" }), `${fileNameOf(lesson.title)}.go`);
}

/** @param {Page} page */
export function listenToAuthor(page) {
  const change = (/** @type {(of: Draft) => void} */ act, isShown = true) => () => {
    act(/** @type {Draft} */ (draft));
    if (isShown) show(page);
    else keepDraft();
  };
  for (const name of /** @type {("title" | "shows" | "task" | "hint")[]} */ (["title", "shows", "task", "hint"])) find(FIELDS[name]).oninput = change((of) => (of[name] = field(FIELDS[name]).value), false);
  find("lesson-is-story").onchange = change((of) => (of.isExercise = false));
  find("lesson-is-exercise").onchange = change((of) => (of.isExercise = true));
  find("lesson-begins").onchange = change((of) => (of.begins = Number(field("lesson-begins").value)));
  find("lesson-anew").onclick = change((of) => (of.told = withTexts(page.session?.commands || [], of.told)));
  find("lesson-try").onclick = () => void tryIt(page);
  find("lesson-link").onclick = () => void copyLink(page);
  find("lesson-file").onclick = () => saveFile(page);
}
