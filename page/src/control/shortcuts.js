// The keys of the page and of the picture.

import { Keys } from "./keys.js";
import { act } from "./actions.js";
import { toggleBreak } from "./breaks.js";
import { field, find, tableRow } from "../element.js";
import { phrase, phraseKey } from "../phrases.js";

const IN_PICTURE = [
  [phraseKey("Arrows"), phraseKey("in the picture: go along the steps")],
  [phraseKey("Enter"), phraseKey("in the picture: keep a step chosen, or let it go")],
  [phraseKey("Alt+Up, Alt+Down"), phraseKey("in the picture: exchange it with its neighbour")],
  [phraseKey("Escape"), phraseKey("in the picture: choose none")],
];

/** @typedef {import("./page.js").Page} Page */

/** @param {Page} page */
export function listenToKeys(page) {
  const focus = (/** @type {string} */ id) => find(id).focus();
  const does = (/** @type {string} */ name) => () => act(page, name);
  const table = [
    { keys: ["s", "F11"], shown: "s, F11", says: phrase("a step of the chosen goroutine"), act: does("step") },
    { keys: ["o", "F10"], shown: "o, F10", says: phrase("over the statement of the chosen goroutine"), act: does("over") },
    { keys: ["a"], says: phrase("the chosen goroutine alone, until it waits"), act: does("alone") },
    { keys: ["l"], says: phrase("run to the line of the cursor in the source"), act: does("to-line") },
    { keys: ["r", "F5"], shown: "r, F5", says: phrase("run"), act: does("run") },
    { keys: ["F9"], says: phrase("set or remove a breakpoint at the line of the cursor"), act: () => void toggleBreak(page, page.views.editor.line) },
    { keys: [..."123456789"], shown: phrase("1 to 9"), says: phrase("the case of its select with this number"), act: (/** @type {string} */ key) => void page.stepClause(Number(key)) },
    { keys: ["]"], says: phrase("choose the next goroutine"), act: () => page.nextGoroutine(1) },
    { keys: ["["], says: phrase("choose the goroutine before"), act: () => page.nextGoroutine(-1) },
    { keys: ["x"], says: phrase("stop a long run"), act: () => page.stop() },
    { keys: ["u"], says: phrase("take the last step back"), act: does("undo") },
    { keys: ["b"], says: phrase("take the chosen step back, with all that depends on it"), act: () => void page.pointing.takeBack() },
    { keys: ["y"], says: phrase("take again what was taken back"), act: does("redo") },
    { keys: ["k"], says: phrase("play by itself, or stop"), act: does("play") },
    { keys: ["n"], says: phrase("the next command of the story"), act: does("next") },
    { keys: ["q"], says: phrase("be asked before each step of a story, or not"), act: does("ask-first") },
    { keys: [",", "."], shown: phrase(", and ."), says: phrase("look at the state one step before, or after"), act: (/** @type {string} */ key) => look(page, key === "," ? -1 : 1) },
    { keys: ["v"], says: phrase("presentation: picture and source alone, in large letters"), act: does("present") },
    { keys: ["p"], says: phrase("to the picture"), act: () => toPicture(page) },
    { keys: ["f"], says: phrase("find steps"), act: () => focus("search-text") },
    { keys: ["/"], says: phrase("to the field of commands"), act: () => toCommands(page) },
    { keys: ["e"], says: phrase("to the source (Ctrl+Enter starts it, Tab leaves it)"), act: () => toSource(page) },
    { keys: ["t"], says: phrase("to the next tab of the panel"), act: () => nextTab(page) },
    { keys: ["?"], says: phrase("this page of keys"), act: () => find("help").click() },
  ];
  const keys = new Keys(table, () => field("letters").checked);
  keys.show(find("keys"));
  find("keys").append(...IN_PICTURE.map(([key, says]) => tableRow("kbd", phrase(key), phrase(says))));
}

/** @param {Page} page */
function toCommands(page) {
  page.views.tabs.show("commands");
  page.views.windows.show("state");
  find("line").focus();
}

/** @param {Page} page */
function toSource(page) {
  page.views.windows.show("source");
  page.views.editor.focus();
}

/** @param {Page} page */
function toPicture(page) {
  page.views.windows.show("picture");
  find("picture").focus();
}

/** @param {Page} page */
function nextTab({ views: { tabs } }) {
  const names = tabs.tabs.map(({ id }) => id.slice("tab-".length));
  tabs.show(names[(names.indexOf(tabs.name) + 1) % names.length]);
}

/**
 * @param {Page} page
 * @param {number} by
 */
function look(page, by) {
  const count = page.session?.log.length || 0;
  const row = page.past.isOn ? page.past.row : count;
  if (count && row + by >= 0) void page.past.lookAt(row + by);
}

/** @param {Page} page */
export function listenInPicture(page) {
  const { pointing, views } = page;
  const go = async (/** @type {number} */ by, columns = 0) => {
    const id = views.picture.neighbour(pointing.atHand, by, columns);
    if (!id) return;
    pointing.pinned = "";
    pointing.pointed = id;
    views.picture.reveal(id);
    await pointing.color();
  };
  const acts = /** @type {{[key: string]: () => unknown}} */ ({
    ArrowUp: () => go(-1), ArrowDown: () => go(1), ArrowLeft: () => go(0, -1), ArrowRight: () => go(0, 1),
    Enter: () => pointing.atHand && pointing.choose(pointing.atHand),
    Escape: () => pointing.pinned && pointing.choose(pointing.pinned),
  });
  const moves = /** @type {{[key: string]: () => unknown}} */ ({ ArrowUp: () => pointing.moveBy(-1), ArrowDown: () => pointing.moveBy(1) });
  find("picture").addEventListener("keydown", (event) => {
    const done = (event.altKey ? moves : acts)[event.key];
    if (!done) return;
    event.preventDefault();
    void done();
  });
}
