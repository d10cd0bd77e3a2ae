// Real Go, carried over. The tool lies beside the page as `rewind-carry.js`, and is loaded when a source first needs it.

export const FILE = "rewind-carry.js";

/**
 * What became of a place of the source: `kind` is carried, changed or left.
 * @typedef {object} Carried
 * @property {boolean} carried
 * @property {string} source that was carried over
 * @property {string} text the carried program, where all of it is carried
 * @property {{line: number, column: number, kind: string, rule: string, what: string, advice?: string}[]} notes
 * @property {{line: number, source: number, column: number, function: string, moves?: string}[]} places from which line each line comes
 * @property {string[]} [texts] for which numbers stand
 * @property {string[]} [errors] for which numbers stand
 * @property {import("../session/texts.js").Form[]} [forms] of texts that are made
 * @property {{[func: string]: {[variable: string]: string}}} [variables] what stands for a text or an error
 */

/** @type {Promise<((name: string, text: string) => string) | null> | null} */
let tool = null;

// Carries a source over; null where the tool is not there.
/**
 * @param {string} name
 * @param {string} text
 * @returns {Promise<Carried | null>}
 */
export async function carry(name, text) {
  tool ||= load();
  const call = await tool;
  if (!call) tool = null;
  return call && { ...JSON.parse(call(name, text)), source: text };
}

async function load() {
  const begin = (await isLoaded()) && /** @type {any} */ (globalThis).beginCarry;
  return begin ? begin() : null;
}

function isLoaded() {
  return new Promise((done) => {
    const script = document.createElement("script");
    script.src = FILE;
    script.onload = () => done(true);
    script.onerror = () => done(false);
    document.head.append(script);
  });
}
