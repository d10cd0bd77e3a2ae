// What the page begins with: the text of a link, the work that was kept, or a deadlock that has happened.

import { isEmbedded } from "./embedding.js";
import { askedBy, fromHash } from "./linking.js";
import { kept } from "./keeping.js";
import { openAgain } from "../panes/carrying.js";
import { phrase, phraseKey } from "../phrases.js";

const DAMAGED = phraseKey("The link is damaged, and no session can be read of it: ask for it anew.");
// The first view: the program is stuck, and a step is chosen that can be taken back.
const FIRST = { name: "deadlock", commands: ["run 100"], chosen: "g0.2#1" };

/** @typedef {import("./page.js").Page} Page */
/** @typedef {import("./linking.js").Shared} Shared */

// What the address holds, or nothing; and what is wrong with it.
/** @param {Page} page */
export async function linked(page) {
  const { fault, link } = await readAddress(page.views.stories);
  if (fault) {
    page.views.transcript.fault(fault);
    page.say(fault, "bad");
  }
  return { link, fault };
}

/**
 * @param {import("../lessons/stories.js").Stories} stories
 * @returns {Promise<{link: Shared | null, fault: string}>}
 */
async function readAddress(stories) {
  const { story } = askedBy(location.hash);
  const link = story === null ? null : stories.beginning(story);
  if (story !== null && !link) return { link, fault: phrase("There is no story “{name}” in this page: choose one in the menu.", { name: String(story) }) };
  try {
    return { link: link || (await fromHash(location.hash)), fault: "" };
  } catch {
    return { link: null, fault: phrase(DAMAGED) };
  }
}

// The first of these that there is. Undoing in the editor brings kept work back that a link replaced.
/** @param {Page} page */
export async function begin(page) {
  const { editor, stories } = page.views;
  const [{ link, fault }, work] = [await linked(page), isEmbedded() ? null : kept()];
  const shared = link || work;
  const source = stories.turnTo(shared || FIRST);
  editor.begin(work ? work.source : link ? "" : source);
  if (link) editor.text = link.source;
  return { shared: shared || { ...FIRST, source }, fault, isFirst: !shared && !isEmbedded(), theme: link?.theme || "" };
}

// Opens what the page begins with, and does its commands again.
/**
 * @param {Page} page
 * @param {Shared} shared
 */
export async function openBeginning(page, shared) {
  page.views.editor.markBreaks(shared.breaks || []);
  const isOpen = await (shared.commands.length ? openAgain(page) : page.open());
  if (!isOpen || !shared.commands.length) return;
  await page.replay(shared.commands);
  page.views.stories.catchUp(shared.commands);
  page.say(phrase("{count} command was done again. | {count} commands were done again.", { count: shared.commands.length }));
  if (shared.chosen && page.session && page.session.log.row(shared.chosen) >= 0) await page.pointing.show(shared.chosen);
}

// Opens the first view once more.
/** @param {Page} page */
export async function openFirst(page) {
  const { editor, stories } = page.views;
  const source = stories.choose(FIRST.name);
  editor.text = source;
  await openBeginning(page, { ...FIRST, source });
}
