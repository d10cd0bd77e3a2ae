// The files of a run for other tools: their clocks and their direct dependences are what the program answers.

import assert from "node:assert/strict";
import { inTurn } from "./parts.mjs";
import { LOOP } from "./truths.mjs";

const STORIES = ["deadlock", "lost_update", "race_in_select", "buffered_channel", "philosophers", "worker_pool", "double_close"];

/**
 * @param {Hands} hands
 * @param {string} format
 * @returns {Promise<string>}
 */
const exported = (hands, format) => hands.browser.run(`rewind.exportedRun(rewind.page, "save-${format}")`);

// Runs in the page: the program's own answer to `causes` for each step, as a list of names.
async function answers() {
  const { session } = window.rewind.page;
  const ids = session.log.steps(0, Infinity).map((/** @type {Step} */ { id }) => id);
  const replies = await session.inCopy((/** @type {any} */ remote) => remote.questions(ids.map((/** @type {string} */ id) => `causes ${id}`)));
  return ids.map((/** @type {string} */ id, /** @type {number} */ at) => [id, replies[at].words.slice(2)]);
}

// The events of a log, read by the expression in its first line.
/** @param {string} text */
function eventsIn(text) {
  const [regex, , ...lines] = text.split("\n");
  return [...lines.join("\n").matchAll(new RegExp(regex, "g"))].map(({ groups }) => /** @type {{[name: string]: string}} */ (groups));
}

/** @param {{[name: string]: number}} clock */
const stepsIn = (clock) => Object.entries(clock).flatMap(([name, count]) => Array.from({ length: count }, (_, at) => `${name}#${at + 1}`));

/** @param {Hands} hands */
async function clocks(hands) {
  for (const name of STORIES) {
    await hands.story(name);
    await hands.perform("run 300");
    const [events, known] = [eventsIn(await exported(hands, "shiviz")), await hands.browser.run(`(${answers})()`)];
    assert.ok(events.length > 5, `${name} has steps`);
    assert.deepEqual(events.map(({ event, clock }) => [event.split(" ")[0], stepsIn(JSON.parse(clock)).sort()]), known.map((/** @type {[string, string[]]} */ [id, causes]) => [id, [...causes].sort()]), `each clock of ${name} has the steps that the program answers`);
  }
}

// What is before a step, by the direct dependences alone, is all that it depends on. The end of the program depends on every step.
/** @param {Hands} hands */
async function directOnes(hands) {
  for (const name of STORIES) {
    await hands.story(name);
    await hands.perform("run 300");
    const rows = (await exported(hands, "csv")).trimEnd().split("\r\n").slice(1).map((/** @type {string} */ row) => row.split(","));
    /** @type {Map<string, Set<string>>} */
    const before = new Map();
    const known = new Map(await hands.browser.run(`(${answers})()`));
    for (const row of rows) {
      const [id, kind, rests] = [row[1], row[3], /,([^,"]*),"\{/.exec(row.join(","))?.[1].split(" ").filter((it) => it) || []];
      before.set(id, new Set([id, ...rests.flatMap((it) => [...(before.get(it) || [])])]));
      if (!/^exit|^fault/.test(kind)) assert.deepEqual([...(before.get(id) || [])].sort(), [.../** @type {string[]} */ (known.get(id))].sort(), `${name}: what ${id} depends on follows from the direct dependences`);
    }
  }
}

/** @param {Hands} hands */
async function diagram(hands) {
  await hands.story("deadlock");
  await hands.perform("back g0.2#1");
  await hands.perform("run 100");
  const lines = (await exported(hands, "mermaid")).trimEnd().split("\n").map((/** @type {string} */ line) => line.trim());
  assert.deepEqual(lines.slice(0, 6), ["sequenceDiagram", "participant g0 as g0 main", "participant g0_1 as g0.1 transfer", "participant g0_2 as g0.2 transfer", "g0-)g0_1: go transfer(a, b, 10, done)", "g0-)g0_2: go transfer(b, a, 20, done)"], "a diagram has the goroutines, and who started them");
  assert.equal(lines.filter((/** @type {string} */ line) => /^\w+(->>|-->>|-\)|--\))\w+: /.test(line)).length, (await hands.edges()).length, "and an arrow for each of the picture");
  assert.ok(lines.every((/** @type {string} */ line) => !/[<>;]/.test(line.replaceAll(/#\w+;/g, "").replace(/-?->>/, ""))), "and no letter that has a meaning there");
}

/** @param {Hands} hands */
async function refusedOnes(hands) {
  await hands.source(LOOP);
  assert.equal(await hands.browser.run("document.getElementById('save-csv').disabled"), true, "a run without steps cannot be saved");
  await hands.perform("run 5001");
  assert.equal(await exported(hands, "csv"), "", "nor one of more than 5,000 steps");
  assert.equal(await hands.text("#status"), "A run can be saved up to 5,000 steps: this one has 5,001 steps.", "and the page says so");
  await hands.perform("undo");
  assert.equal(eventsIn(await exported(hands, "shiviz")).length, 5000, "one of 5,000 is whole");
}

// A file is given to the user by its name.
/** @param {Hands} hands */
async function saved(hands) {
  const { browser } = hands;
  await hands.story("deadlock");
  await hands.perform("run 100");
  await browser.run("window.given = [], HTMLAnchorElement.prototype.click = function () { if (this.download) given.push(this.download); }");
  await browser.run("document.getElementById('share').click()");
  for (const format of ["shiviz", "mermaid", "csv"]) {
    await browser.run(`document.getElementById('share-menu').hidden && document.getElementById('share').click()`);
    await hands.click(`#save-${format}`);
  }
  await hands.until("given.length === 3");
  assert.deepEqual(await browser.run("given"), ["deadlock.shiviz.log", "deadlock.mmd", "deadlock.csv"], "the menu of what is shared saves all three");
}

/**
 * @param {TestContext} t
 * @param {TestBrowser} browser
 */
export const exports = (t, browser) =>
  inTurn(t, browser, {
    "clocks as the program answers": clocks,
    "direct dependences": directOnes,
    "a sequence diagram": diagram,
    "runs that cannot be saved": refusedOnes,
    "files by their names": saved,
  });
