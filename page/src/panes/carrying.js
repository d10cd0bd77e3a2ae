// A refused source that is ordinary Go: it is carried over, and shown beside what comes of it.

import { carry, FILE } from "../engine/carry.js";
import { button, find, make } from "../element.js";
import { phrase } from "../phrases.js";

/** @typedef {import("../control/page.js").Page} Page */
/** @typedef {import("../engine/carry.js").Carried} Carried */

// What ordinary Go has and the language does not: packages, function literals and methods, types, and some statements.
const ORDINARY = /^\s*(?:import|type|const|defer|switch)\b|\bfunc\s*\(|\bstruct\s*\{\s*\w|\[\w*\]\w|&\w/m;

/** @type {Carried | null} */
let last = null; // what was carried over last, to be run

// What a text was carried over to, if it was.
/** @param {string} text */
export const carriedOf = (text) => (last?.source === text ? last : null);

// The button beside a refusal, where the source looks like ordinary Go.
/**
 * @param {Page} page
 * @param {string} text
 */
export const carryButton = (page, text) => (ORDINARY.test(text) ? button({ class: "carry", onclick: () => carryOver(page, text) }, phrase("Carry it over")) : "");

/**
 * @param {Page} page
 * @param {string} text
 */
async function carryOver(page, text) {
  page.say(phrase("The source is being carried over."));
  const found = await carry("source.go", text);
  if (!found) return page.say(phrase("What carries Go over is not here: put {file} beside this page, and try again.", { file: FILE }), "bad");
  page.say(found.carried ? phrase("The source can be carried over.") : phrase("The source cannot be carried over whole."), found.carried ? "" : "bad");
  show(page, text, found);
}

/**
 * @param {Page} page
 * @param {string} text
 * @param {Carried} found
 */
function show(page, text, found) {
  const kind = found.carried ? "changed" : "left";
  const notes = found.notes.filter((it) => it.kind === kind);
  find("carry-title").textContent = found.carried ? phrase("Carried over") : phrase("Not carried over");
  find("carry-text").textContent = textOf(found, notes.length);
  find("carry-notes").replaceChildren(...notes.map((it) => make("li", {}, make("b", {}, phrase("Line {line}:", { line: String(it.line) })), " ", it.what, it.advice ? `; ${it.advice}` : "")));
  find("carry-sides").hidden = !found.carried;
  find("carry-before").textContent = text;
  find("carry-after").textContent = found.text || "";
  const dialog = /** @type {HTMLDialogElement} */ (find("carry-dialog"));
  find("carry-use").hidden = !found.carried || page.session?.carried === found;
  find("carry-use").onclick = () => {
    dialog.close();
    last = found;
    page.open();
  };
  dialog.showModal();
}

// Shows once more what the source was carried over to that is run.
/** @param {Page} page */
export function showCarried(page) {
  if (page.session?.carried) show(page, page.session.source, page.session.carried);
}

// Opens the text of the editor, and carries it over where it is refused: work that was kept, or came by a link, is taken up again.
/** @param {Page} page */
export async function openAgain(page) {
  if (await page.open()) return true;
  const text = page.views.editor.text;
  const found = ORDINARY.test(text) ? await carry("source.go", text) : null;
  if (!found?.carried) return false;
  last = found;
  return page.open();
}

/**
 * @param {Carried} found
 * @param {number} count
 */
function textOf(found, count) {
  if (!found.carried) return phrase("{count} place of the source cannot be carried over: | {count} places of the source cannot be carried over:", { count });
  return count ? phrase("The program means the same, but for {count} place: | The program means the same, but for {count} places:", { count }) : phrase("The program means the same.");
}
