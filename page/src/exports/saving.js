// The buttons that save a run for other tools.

import { download } from "../element.js";
import { factsOf } from "./facts.js";
import { toCsv, toMermaid, toShiviz } from "./formats.js";
import { phrase } from "../phrases.js";

const MERMAID_TEXT = 50000; // letters that Mermaid draws unless it is told otherwise

/** @typedef {import("../control/page.js").Page} Page */
/** @typedef {{of: (run: import("./facts.js").Run) => string, ending: string, type: string}} Format */

/** @type {{[name: string]: Format}} */
const FORMATS = {
  "save-shiviz": { of: toShiviz, ending: "shiviz.log", type: "text/plain" },
  "save-mermaid": { of: toMermaid, ending: "mmd", type: "text/plain" },
  "save-csv": { of: toCsv, ending: "csv", type: "text/csv" },
};

// The text of the run in a format, or "".
/**
 * @param {Page} page
 * @param {string} name
 */
export function exportedRun(page, name) {
  return page.doing(async () => {
    const { run, lack } = await factsOf(page);
    if (!run) return page.say(lack, "bad"), "";
    return FORMATS[name].of(run);
  });
}

/**
 * @param {Page} page
 * @param {string} name
 */
async function saveRun(page, name) {
  const { ending, type } = FORMATS[name];
  const text = await exportedRun(page, name);
  if (!text) return;
  download(new Blob([text], { type }), `${page.views.stories.fileName}.${ending}`);
  if (name === "save-mermaid" && text.length > MERMAID_TEXT) page.say(phrase("The diagram is saved: {count} letters. Mermaid draws up to {most}, unless its maxTextSize is raised.", { count: text.length, most: MERMAID_TEXT }));
}

export const EXPORTS = Object.fromEntries(Object.keys(FORMATS).map((name) => [name, (/** @type {Page} */ page) => saveRun(page, name)]));
