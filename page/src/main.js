// Puts the page together: it draws menu and source first, then compiles the program, and begins with a link, kept work or a story.

import { toggleBreak } from "./control/breaks.js";
import { canSuspend, Session as Engine } from "./engine/engine.js";
import { askedBy, inflated } from "./control/linking.js";
import { begin, linked, openBeginning } from "./control/opening.js";
import { embed, isEmbedded, linkToFull } from "./control/embedding.js";
import { keep, keepOwn, keepSettings, settings } from "./control/keeping.js";
import { listenToLanguage, takeLanguage } from "./control/language.js";
import { erred } from "./control/losses.js";
import { exportedRun } from "./exports/saving.js";
import { legend } from "./picture/legend.js";
import { act, listenToActions, openStory } from "./control/actions.js";
import { listenInPicture, listenToKeys } from "./control/shortcuts.js";
import { makeToolbar } from "./panes/toolbars.js";
import { makeViews } from "./panes/views.js";
import { explain } from "./refused/refusals.js";
import { Page } from "./control/page.js";
import { parseFault } from "./engine/protocol.js";
import { isUnanswered } from "./engine/remote.js";
import { asPng } from "./picture/saved.js";
import { moving } from "./picture/moving.js";
import { savePicture } from "./picture/saving.js";
import { tokenRules } from "./tokens.js";
import { PICTURE_RULES } from "./picture/picture.js";
import { Words } from "./panes/words.js";
import { field, find, make, tableRow } from "./element.js";
import { SMALL } from "./panes/tabs.js";
import { makeMenus } from "./panes/menus.js";
import { frameOf } from "./control/sharing.js";
import { makePanes } from "./panes/splitters.js";
import { paneEvents, showStepsOf } from "./control/asking.js";
import { watchExercise } from "./lessons/tasks.js";
import { phrase, phraseKey, spoken, translated } from "./phrases.js";

const BROWSERS = phraseKey("Rewind needs a browser with WebAssembly: Chrome or Edge 103, Firefox 113, Safari 16.4, or newer ones. This one says: {reason}");

/** @returns {Given} */
const given = () => JSON.parse(find("given").textContent || "");

/** @param {Given} told */
function makePage(told) {
  const words = new Words(told);
  /** @type {{page?: Page}} */
  const made = {};
  const later = () => /** @type {Page} */ (made.page);
  made.page = new Page(told, makeViews(told, later, words, paneEvents(later), (line) => showStepsOf(later(), line)), words);
  words.where = (line) => made.page?.session?.origin.where(line) || phrase("line {line}", { line: String(line) });
  return later();
}

// The program, compiled, and the script of the workers in which its sessions run.
/** @returns {Promise<Machine>} */
async function makeMachine() {
  const program = await WebAssembly.compile(await inflated(find("program").textContent || ""));
  const script = URL.createObjectURL(new Blob([find("worker").textContent || ""], { type: "text/javascript" }));
  return { program, script, suspends: canSuspend() && !askedBy(location.hash).isRepeating };
}

/** @param {Page} page */
function fillHelp({ given: { commands, licence } }) {
  find("commands").append(...commands.map(([command, says]) => tableRow("code", command, translated(says))));
  find("licence").textContent = licence;
  find("legend").innerHTML = legend();
}

// A link that is put into the address of the open page.
/** @param {Page} page */
function listenToLinks(page) {
  window.addEventListener("hashchange", async () => {
    const { link } = await linked(page);
    if (!link) return;
    const { isEmbedded: isFrame, isAsking, language } = askedBy(location.hash);
    if (language && language !== spoken()) return location.reload();
    embed(isFrame);
    page.prediction.set(isAsking);
    page.views.editor.refresh();
    page.tour.leave();
    page.views.stories.turnTo(link);
    page.views.editor.text = link.source;
    await openBeginning(page, link);
  });
}

/** @param {string} theme */
function setTheme(theme) {
  document.documentElement.dataset.theme = theme;
  field("theme").value = theme;
}

function takeSettings() {
  const { theme = "", letters = true } = settings();
  setTheme(theme);
  field("letters").checked = letters;
  find("theme").onchange = () => {
    setTheme(field("theme").value);
    keepSettings({ theme: field("theme").value });
  };
  find("letters").onchange = () => keepSettings({ letters: field("letters").checked });
}

// Keeps the work after each change. A link in the address is left then, so that a reload brings the work and not the link.
/** @param {Page} page */
function keepWork(page) {
  let timer = 0;
  const now = () => {
    if (isEmbedded()) return;
    keep(page.work);
    if (!page.views.stories.isOf(page.views.editor.text)) keepOwn(page.views.editor.text);
  };
  page.listeners.push(() => {
    clearTimeout(timer);
    if (askedBy(location.hash).isLink && !isEmbedded()) history.replaceState(null, "", location.href.split("#")[0]);
    timer = window.setTimeout(now, 200);
    page.views.controls.show(page);
  });
  window.addEventListener("pagehide", now);
}

// On a small screen the bar below has the moves that are wanted most, and the menu beside them the others.
function fitControls() {
  const fit = () => {
    for (const id of ["run", "redo"]) SMALL.matches ? find("moves-menu").prepend(find(id)) : find("undo").after(find(id));
    if (SMALL.matches) find("picture-frame").append(find("picture-tools"));
    else find("what").after(find("picture-tools"));
    if (!SMALL.matches) find("step").after(find("run"));
  };
  SMALL.addEventListener("change", fit);
  fit();
}

// An error of the page that nothing else met. What the browser tells of its own work has no error with it.
/** @param {Page} page */
function listenToErrors(page) {
  window.addEventListener("error", ({ error }) => error && erred(page, error));
  window.addEventListener("unhandledrejection", ({ reason }) => isUnanswered(reason) || erred(page, reason)); // a session may be left meanwhile
}

async function start() {
  document.head.append(make("style", {}, tokenRules() + PICTURE_RULES));
  embed(askedBy(location.hash).isEmbedded);
  const told = given();
  await takeLanguage(told.languages);
  takeSettings();
  const page = makePage(told);
  listenToErrors(page);
  listenToActions(page);
  listenToKeys(page);
  listenInPicture(page);
  makeToolbar(find("controls"));
  makeMenus();
  fitControls();
  makePanes(page);
  fillHelp(page);
  watchExercise(page);
  linkToFull(page);
  listenToLanguage(page);
  page.prediction.set(askedBy(location.hash).isAsking);
  const { shared, fault, isFirst, theme } = await begin(page);
  if (theme) setTheme(theme);
  page.showControls();
  try {
    page.machine = await makeMachine();
  } catch (hindrance) {
    find("cannot").hidden = false;
    find("cannot").textContent = phrase(BROWSERS, { reason: hindrance instanceof Error ? hindrance.message : String(hindrance) });
    return page.say(phrase("The program cannot run in this browser.")), false;
  }
  // The tests and the pictures of the documents reach the page by this name.
  window.rewind = { page, program: page.machine.program, Session: Engine, act, openStory, toggleBreak, savePicture, moving, asPng, exportedRun, frameOf, explain, parseFault };
  await openBeginning(page, shared);
  if (fault) page.say(fault, "bad");
  keepWork(page);
  listenToLinks(page);
  if (isFirst && !fault) void page.tour.offer();
  return true;
}

window.started = start();
