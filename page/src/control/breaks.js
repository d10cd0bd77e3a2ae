// Breakpoints of the page: dots beside the lines of the source, which stand at statements once there is a session on the text.

import { phrase, phraseKey } from "../phrases.js";

const STOPS = phraseKey("A run stops before {place}.");
const GONE = phraseKey("The breakpoint in {place} is gone.");

/** @typedef {import("./page.js").Page} Page */

// Sets the breakpoints of the editor, each at the first statement at its line or below.
/** @param {Page} page */
export async function takeBreaks(page) {
  const { session, views } = page;
  if (!session) return;
  const wanted = views.editor.breaks.map((line) => session.snap(line)).filter((line) => line);
  await session.setBreaks(wanted);
  showBreaks(page);
}

// Shows the breakpoints of the session. The line to which a run goes is none.
/** @param {Page} page */
export function showBreaks({ session, views }) {
  if (session) views.editor.markBreaks([...session.breakpoints].filter((line) => line !== session.goal).map((line) => session.origin.lineOf(line)).filter((line) => line));
}

// Sets or removes a breakpoint: at the first statement at this line or below.
/**
 * @param {Page} page
 * @param {number} line
 */
export async function toggleBreak(page, line) {
  const { session, views } = page;
  if (session && views.editor.text === session.source && !session.gone) {
    if (page.hindrance) return page.say(page.hindrance, "bad");
    const snapped = session.snap(line);
    if (!snapped) return page.say(phrase("There is no statement at this line or below."), "bad");
    await page.perform(`${session.breakpoints.has(snapped) ? "clear" : "break"} ${snapped}`);
    return page.say(phrase(session.breakpoints.has(snapped) ? STOPS : GONE, { place: session.origin.where(snapped) }));
  }
  const lines = new Set(views.editor.breaks);
  if (!lines.delete(line)) lines.add(line);
  views.editor.markBreaks(lines);
}
