// The figures of a page in headless Chromium: node figures.mjs PAGE. Each line of standard output tells what was measured, and its
// figure: how soon the page is painted, and what its process holds in a log of 1,000,000 steps. The status is 1 where an aim is missed.

import { readFileSync } from "node:fs";
import { Browser } from "./browser.mjs";
import { Hands } from "./hands.mjs";
import { LOOP } from "./truths.mjs";

const [PAGE] = process.argv.slice(2); // with its whole path
const OPENINGS = 7; // each in a browser of its own
const PAINT = 300; // milliseconds
const HELD = 700; // MB
const PAINTED = "performance.getEntriesByName('first-contentful-paint')[0]?.startTime || 0";

// Does something with a page in a browser of its own.
/**
 * @template T
 * @param {(browser: Browser) => Promise<T>} act
 */
async function inBrowser(act) {
  const browser = await Browser.open();
  try {
    await browser.size(1440, 900);
    await browser.load(PAGE);
    return await act(browser);
  } finally {
    await browser.close();
  }
}

/** @typedef {{now: number, most: number, all: number}} Held in MB */

// What the process of the page holds, and the most that it has held; and what all such processes hold. The browser keeps some for pages to
// come.
/**
 * @param {Browser} browser
 * @returns {Promise<Held>}
 */
async function heldBy(browser) {
  const { processInfo } = await browser.pipe.call("SystemInfo.getProcessInfo");
  const texts = processInfo.filter((/** @type {{type: string}} */ { type }) => type === "renderer").map((/** @type {{id: number}} */ { id }) => readFileSync(`/proc/${id}/status`, "utf8"));
  const held = texts.map((/** @type {string} */ text) => [/VmRSS:\s+(\d+)/, /VmHWM:\s+(\d+)/].map((row) => Math.round(Number(row.exec(text)?.[1] || 0) / 1024)));
  const all = held.reduce((/** @type {number} */ sum, /** @type {number[]} */ [now]) => sum + now, 0);
  const [now, most] = held.reduce((/** @type {number[]} */ one, /** @type {number[]} */ other) => (other[1] > one[1] ? other : one));
  return { now, most, all };
}

/** @param {Held} held */
const heldText = ({ now, most, all }) => `${now} MB, at most ${most} MB on the way; ${all} MB with processes for pages to come`;

async function paints() {
  const times = [];
  for (let count = 0; count < OPENINGS; count++) times.push(await inBrowser((browser) => browser.run(PAINTED)));
  times.sort((one, other) => one - other);
  const median = times[OPENINGS >> 1];
  console.log(`first paint: ${median.toFixed(0)} ms, the median of ${OPENINGS} openings; the longest ${times[OPENINGS - 1].toFixed(0)} ms (at most ${PAINT})`);
  return median <= PAINT;
}

async function memory() {
  return inBrowser(async (browser) => {
    const hands = new Hands(browser);
    await hands.source(LOOP);
    const before = await heldBy(browser);
    await hands.perform("run 1000000");
    const after = await heldBy(browser);
    await hands.browser.run("rewind.page.past.lookAt(999000)");
    await hands.idle();
    const past = await heldBy(browser);
    console.log(`memory before the run: ${heldText(before)}`);
    console.log(`memory at 1,000,000 steps: ${heldText(after)} (at most ${HELD})`);
    console.log(`memory with a past state there: ${heldText(past)}`);
    return after.all <= HELD;
  });
}

const isMet = [await paints(), await memory()];
process.exit(isMet.every((it) => it) ? 0 : 1);
