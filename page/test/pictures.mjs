// pictures.mjs PAGE.html PICTURES.json FOLDER: the SVG pictures of the stories, as the page saves them.

import { readFileSync, writeFileSync } from "node:fs";
import { Browser } from "./browser.mjs";

const [file, list, folder] = process.argv.slice(2);

// Runs in the page: plays a story to just before the first command of this word, and points at a step.
/** @param {{story: string, until: string, point: string, title: string}} given */
async function pictureInPage({ story, until, point, title }) {
  const { page, openStory, savePicture } = window.rewind;
  await openStory(page, story);
  for (const { command } of page.views.stories.commands) {
    if (command.split(" ")[0] === until) break;
    await page.perform(command);
  }
  await page.settled();
  await page.pointing.show(point);
  return savePicture(page, { title, hasLegend: false });
}

const browser = await Browser.open();
let status = 1;
try {
  await browser.size(1280, 800);
  await browser.load(file);
  for (const picture of JSON.parse(readFileSync(list, "utf8"))) {
    const svg = await browser.run(`(${pictureInPage})(${JSON.stringify(picture)})`);
    if (!svg.includes(`data-step="${picture.point}"`)) throw new Error(`${picture.story} has no step ${picture.point}`);
    writeFileSync(`${folder}/${picture.story}.svg`, svg);
  }
  status = browser.faults.length ? 1 : 0;
  for (const fault of browser.faults) console.log(`fault in the page: ${fault}`);
} finally {
  await browser.close();
}
process.exit(status);
