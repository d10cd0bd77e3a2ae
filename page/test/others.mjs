// The example sessions and a story in the browsers beside Chromium: Firefox, and WebKitGTK, whose engine is Safari's.

import { spawnSync } from "node:child_process";
import { insertions } from "./insertions.mjs";
import { sessions } from "./sessions.mjs";
import { firstStory } from "./story.mjs";
import { BROWSERS, DrivenBrowser } from "./webdriver.mjs";

/** @param {string} program */
const isThere = (program) => spawnSync("sh", ["-c", 'command -v "$0"', program]).status === 0;

/**
 * @param {TestContext} t
 * @param {TestBrowser} browser
 */
async function sessionsAndStory(t, browser) {
  await sessions(t, browser);
  await firstStory(t, browser);
  await insertions(t, browser);
  await browser.takeFaults();
}

// Parts of the test. What is missing is the first program that is not there.
export const others = Object.entries(BROWSERS).map(([name, { programs }]) => ({
  name: `sessions and a story in ${name}`,
  part: sessionsAndStory,
  open: () => DrivenBrowser.open(name),
  missing: () => programs.find((program) => !isThere(program)) || "",
}));
