// The next command of a story.

import { phrase } from "../phrases.js";

// Gives it, and its reply; nothing where it could not be given.
/** @param {import("./page.js").Page} page */
export async function nextOfStory(page) {
  const { stories } = page.views;
  const line = stories.next;
  if (line === undefined) return page.say(phrase("The story gives no more commands.")), null;
  if (page.busy || page.hindrance) return page.say(page.hindrance || phrase("The page is busy: wait a moment."), "bad"), null;
  const reply = await page.perform(line);
  if (reply) stories.take();
  page.showControls();
  page.tell();
  return reply;
}
