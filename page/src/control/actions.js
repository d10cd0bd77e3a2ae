// What the buttons of the page do.

import { showCarried } from "../panes/carrying.js";
import { asPng } from "../picture/saved.js";
import { bringBack } from "./losses.js";
import { EXPORTS } from "../exports/saving.js";
import { download, field, find } from "../element.js";
import { copyFrame, copyLink, openFiles, saveFile } from "./sharing.js";
import { MOST_STEPS } from "./page.js";
import { runAlone, runToLine, stepOver } from "./moves.js";
import { moving } from "../picture/moving.js";
import { savePicture } from "../picture/saving.js";
import { search } from "./asking.js";
import { follow, searchAll, searchWhole } from "./searching.js";
import { showCompared } from "../panes/compare.js";
import { listenToAuthor, openAuthor } from "../lessons/author.js";
import { showParting } from "../schedules/parting.js";
import { nextTask, openTask } from "../lessons/tasks.js";
import { nextOfStory } from "./telling.js";
import { findBlame } from "../panes/why.js";
import { ownText } from "./keeping.js";
import { phrase } from "../phrases.js";

/** @typedef {import("./page.js").Page} Page */

// A run of as many steps as the field says.
/** @param {Page} page */
function run(page) {
  const text = field("count").value.trim().replace(/^\d{1,3}([., \u00a0\u202f]\d{3})+$/, (count) => count.replace(/\D/g, ""));
  const count = Number(text);
  if (!/^\d+$/.test(text) || count < 1 || count > MOST_STEPS) return page.say(phrase("Run takes a whole number of steps, from 1 to {most}.", { most: MOST_STEPS }), "bad");
  return page.perform(`run ${count}`);
}

/** @param {Page} page */
async function saveSvg(page) {
  const text = await savePicture(page);
  if (text) download(new Blob([text], { type: "image/svg+xml" }), `${page.views.stories.fileName}.svg`);
}

/** @param {Page} page */
async function savePng(page) {
  const text = await savePicture(page);
  const blob = text && (await asPng(text));
  if (blob) download(blob, `${page.views.stories.fileName}.png`);
}

/** @param {Page} page */
async function saveMoving(page) {
  const text = await savePicture(page);
  const ids = page.session?.log.steps(0, Infinity).map(({ id }) => id) || [];
  if (text) download(new Blob([moving(text, ids)], { type: "image/svg+xml" }), `${page.views.stories.fileName}.svg`);
}

// Presentation: picture and source alone, in large letters. Its own button leads out of it, since the header is gone.
/** @param {Page} page */
function present(page) {
  page.tour.leave();
  const isOn = document.body.classList.toggle("presentation");
  find("present").setAttribute("aria-pressed", String(isOn));
  page.views.tabs.show(isOn ? "console" : "state");
  page.views.picture.zoom(isOn ? 2 : -2);
  page.views.editor.refresh();
}

/** @param {Page} page */
function fold(page) {
  const { picture } = page.views;
  picture.isFolded = !picture.isFolded;
  find("fold").setAttribute("aria-pressed", String(picture.isFolded));
  picture.place();
  page.views.overview.draw();
}

/** @param {Page} page */
function direct(page) {
  page.pointing.isDirect = !page.pointing.isDirect;
  find("direct").setAttribute("aria-pressed", String(page.pointing.isDirect));
  page.pointing.draw();
}

/** @type {{[name: string]: (page: Page) => unknown}} */
const ACTIONS = {
  start: (page) => page.open(),
  again: (page) => page.open(),
  restart: (page) => page.open(),
  own: ownProgram,
  carried: showCarried,
  next: nextOfStory,
  play: (page) => page.player.toggle(),
  "ask-first": (page) => page.prediction.toggle(),
  "tell-it": nextOfStory,
  "run-it": run,
  "run-on": run,
  "show-why": (page) => {
    page.views.tabs.show("why");
    page.views.windows.show("state");
  },
  "show-line": (page) => {
    page.views.windows.show("source");
    page.views.editor.reveal(page.refusedLine);
    page.views.editor.focus();
  },
  "bar-back": (page) => page.pointing.takeBack(page.pointing.pinned),
  "next-task": nextTask,
  "tour-again": (page) => page.tour.begin(),
  "tour-next": (page) => page.tour.go(),
  "tour-leave": (page) => page.tour.leave(),
  step: (page) => page.step(page.chosen),
  over: stepOver,
  alone: runAlone,
  "to-line": (page) => runToLine(page, page.views.editor.line),
  run,
  undo: (page) => page.perform("undo"),
  redo: (page) => page.perform("redo"),
  stop: (page) => page.stop(),
  back: (page) => page.pointing.takeBack(page.pointing.pinned),
  earlier: (page) => page.pointing.moveBy(-1),
  later: (page) => page.pointing.moveBy(1),
  smaller: (page) => page.views.picture.zoom(-1),
  larger: (page) => page.views.picture.zoom(1),
  fit: (page) => page.views.picture.fit(),
  fold,
  direct,
  save: saveSvg,
  "save-png": savePng,
  "save-moving": saveMoving,
  ...EXPORTS,
  help: () => /** @type {HTMLDialogElement} */ (find("help-dialog")).showModal(),
  "copy-link": copyLink,
  "copy-frame": copyFrame,
  "save-file": saveFile,
  "open-file": () => field("file").click(),
  present,
  leave: present,
  now: (page) => page.past.back(),
  "bring-back": bringBack,
  "search-all": searchAll,
  "search-whole": searchWhole,
  "make-lesson": openAuthor,
  follow,
  "show-parting": showParting,
  "find-blame": findBlame,
  "take-blamed": (page) => page.pointing.takeBack(page.blame?.id),
  compare: showCompared,
};

// Does what the button of this name does, where it can be used.
/**
 * @param {Page} page
 * @param {string} name
 */
export function act(page, name) {
  if (field(name).disabled || find(name).hidden) return;
  return void ACTIONS[name](page);
}

// A program of one's own: the last one, or a small one to begin with. The text before comes back by undoing in the editor.
/** @param {Page} page */
async function ownProgram(page) {
  const { stories, editor, windows } = page.views;
  if (stories.isOf(editor.text)) {
    stories.choose("");
    editor.text = ownText();
    await page.open();
  }
  windows.show("source");
  editor.focus();
}

// Turns to a story, an exercise or a program of one's own. The text before can be brought back by undoing in the editor.
/**
 * @param {Page} page
 * @param {string} name
 */
export async function openStory(page, name) {
  page.tour.leave();
  const source = page.views.stories.choose(name);
  if (source) page.views.editor.text = source;
  const isOpen = await page.open();
  if (isOpen) await openTask(page);
  return isOpen;
}

// The lines that were typed, which arrow keys bring back.
function listenToHistory() {
  /** @type {string[]} */
  const lines = [];
  let at = 0;
  find("line").addEventListener("keydown", (event) => {
    if (event.key === "Enter" && field("line").value.trim()) at = lines.push(field("line").value);
    const by = { ArrowUp: -1, ArrowDown: 1 }[event.key];
    if (!by || !lines.length) return;
    event.preventDefault();
    at = Math.max(0, Math.min(lines.length, at + by));
    field("line").value = lines[at] || "";
  });
}

/** @param {Page} page */
function listenToFields(page) {
  listenToHistory();
  find("story").onchange = () => void (field("story").value ? openStory(page, field("story").value) : ownProgram(page));
  find("ask").onsubmit = async (event) => {
    event.preventDefault();
    const line = field("line").value;
    field("line").value = "";
    const isDone = (await page.perform(line)) !== null;
    if (!isDone && line.trim() && !field("line").value) field("line").value = line;
  };
  find("search").onsubmit = (event) => {
    event.preventDefault();
    void search(page, field("search-text").value);
  };
  find("moment").oninput = () => void page.past.lookAt(Number(field("moment").value));
  find("file").onchange = () => void openFiles(page, field("file").files || []);
}

/** @param {Page} page */
function listenToDrops(page) {
  const hasFiles = (/** @type {DragEvent} */ event) => event.dataTransfer?.types.includes("Files");
  document.addEventListener("dragover", (event) => hasFiles(event) && event.preventDefault(), true);
  document.addEventListener("drop", (event) => {
    if (!hasFiles(event)) return;
    event.preventDefault();
    event.stopPropagation();
    void openFiles(page, event.dataTransfer?.files || []);
  }, true);
}

/** @param {Page} page */
export function listenToActions(page) {
  for (const name of Object.keys(ACTIONS)) find(name).onclick = () => void ACTIONS[name](page);
  listenToFields(page);
  listenToDrops(page);
  listenToAuthor(page);
}
