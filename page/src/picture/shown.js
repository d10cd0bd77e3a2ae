// What the picture needs to know of a session beside its log: functions, notes and the names of channels.

import { calledBy, holdersOf } from "../panes/holders.js";

/** @param {import("../control/page.js").Page} page */
export function shownOf(page) {
  const { session, words } = page;
  const holders = holdersOf(session?.scene.goroutines || []);
  return {
    functions: page.annotating.functions(),
    notes: (/** @type {string} */ id) => (session ? session.origin.readNote(page.note(id), session.scene) : page.note(id)),
    called: (/** @type {string} */ channel) => calledBy(holders, channel),
    does: (/** @type {string} */ kind) => words.kind(kind),
  };
}
