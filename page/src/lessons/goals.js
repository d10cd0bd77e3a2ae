// The goals that an exercise of one's own can have, each taken by a click from the session as it stands.

import { stateOf } from "./exercises.js";
import { phrase, phraseKey } from "../phrases.js";

const PRINTED = 120; // letters of what was printed that are shown

/** @typedef {import("../control/page.js").Page} Page */

/** @type {{[end: string]: string}} */
const ENDS = {
  ended: phraseKey("the program has ended"), deadlock: phraseKey("the program is in a deadlock"),
  cycle: phraseKey("goroutines wait for each other in a cycle"), fault: phraseKey("a panic has stopped the program"),
};

// How the program stands, where it goes on no more.
/** @param {Page} page */
export function endNow({ session }) {
  if (!session?.log.length) return undefined;
  const { log, scene } = session;
  if (log.end) return log.end.kind === "exit" ? "ended" : "fault";
  return scene.isStuck ? "deadlock" : undefined;
}

/** @param {string} text */
const quoted = (text) => (text ? `“${text.replaceAll("\n", " ").slice(0, PRINTED)}”` : phrase("nothing"));

/** @typedef {{name: "state" | "printed" | "end" | "chosen" | "safe", take: (page: Page) => any, says: (value: any) => string}} Kind */

// Each takes the value that a goal has now; undefined where there is none.
/** @type {Kind[]} */
export const GOALS = [
  { name: "state", take: ({ session }) => (session && !session.scene.hidden && !session.scene.missing ? stateOf(session.scene) : undefined), says: () => phrase("this state: goroutines, variables and channels are as now") },
  { name: "printed", take: ({ session }) => session?.scene.console.lines.join("\n"), says: (text) => phrase("this print: the console has {text}", { text: quoted(text || "") }) },
  { name: "end", take: endNow, says: (end) => (end ? phrase("this end: {end}", { end: phrase(ENDS[end]) }) : phrase("this end: the program can go on, so there is none")) },
  { name: "chosen", take: ({ pointing }) => pointing.pinned || undefined, says: (id) => (id ? phrase("this step is chosen: {step}", { step: id }) : phrase("this step is chosen: choose one first")) },
  { name: "safe", take: () => true, says: () => phrase("no schedule of the program ends badly: its source is to be changed") },
];
