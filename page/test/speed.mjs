// Long logs: nothing costs the square of the prints, a click shows soon, and the page goes on drawing meanwhile.

import assert from "node:assert/strict";
import { inTurn } from "./parts.mjs";
import { LOOP } from "./truths.mjs";

const PRINTS = `package main
func main() {
	n := 0
	for {
		println(n)
		n++
	}
}
`;
const LONG_PRINTS = PRINTS.replace("println(n)", `println("${"x".repeat(10000)}", n)`);
// Milliseconds on a machine that has other work; a processor of one's own takes half of it.
const CLICK = 500;
const POINTING = 250;
const LOOKING = 900;
const LAYOUTS = 6; // of the page, for each step that is pointed at

// Runs in the page: the milliseconds of an act until the next frame is drawn.
/** @param {string} act */
const untilShown = (act) => `(async () => { const began = performance.now(); await ${act}; await new Promise((go) => requestAnimationFrame(() => setTimeout(go, 0))); return performance.now() - began; })()`;

// Runs in the page: points at the step of a row, as the pointer does, until the page tells of it.
/** @param {number} row */
const pointing = (row) => `(async ({ page } = rewind, id = page.session.log.id(${row})) => {
  page.pointing.point(id);
  while (page.pointing.about?.id !== id) await new Promise((go) => setTimeout(go, 0));
})()`;

// Runs in the page: points at the step of a row until it is marked.
/** @param {number} row */
const marking = (row) => `(async ({ page } = rewind, id = page.session.log.id(${row})) => {
  page.pointing.point(id);
  while (page.views.picture.view.pointed !== id) await new Promise((go) => setTimeout(go, 0));
})()`;

/** @param {number[]} times */
const median = (times) => [...times].sort((one, other) => one - other)[times.length >> 1];

/**
 * @param {Hands} hands
 * @param {(at: number) => string} act
 */
async function timesOf(hands, act, count = 7) {
  const times = [];
  for (let at = 0; at < count; at++) times.push(await hands.browser.run(untilShown(act(at))));
  return median(times);
}

// Seconds until a run is found and shown.
/**
 * @param {Hands} hands
 * @param {string} source
 * @param {number} steps
 */
async function secondsOf(hands, source, steps) {
  await hands.source(source);
  const began = performance.now();
  await hands.perform(`run ${steps}`);
  return (performance.now() - began) / 1000;
}

// Four times the steps take some four times as long: a cost that is the square of the prints would take sixteen times.
/**
 * @param {Hands} hands
 * @param {TestContext} t
 * @param {string} source
 * @param {number} steps
 */
async function prints(hands, t, source, steps) {
  const [few, all] = [await secondsOf(hands, source, steps / 4), await secondsOf(hands, source, steps)];
  t.diagnostic(`${steps} steps, a third of which print, are found and shown in ${all.toFixed(1)} s, a quarter of them in ${few.toFixed(1)} s`);
  assert.ok(all < 10 * Math.max(few, 0.5), `${steps} steps with prints cost no square of the prints`);
  const printed = await hands.browser.run("rewind.page.session.scene.console.count");
  const found = await hands.browser.run("rewind.page.session.log.steps(0, Infinity).filter(({ id }) => rewind.page.note(id)?.printed.length).length");
  assert.deepEqual(found, printed, "each printed line stands at its step");
}

// How often the browser lays the page out while so many steps are pointed at, on the mean.
/**
 * @param {TestBrowser} browser
 * @param {(at: number) => string} act
 */
async function layoutsOf(browser, act, count = 20) {
  const laidOut = async () => (await browser.call("Performance.getMetrics")).metrics.find((/** @type {{name: string}} */ { name }) => name === "LayoutCount").value;
  await browser.call("Performance.enable");
  const before = await laidOut();
  for (let at = 0; at < count; at++) await browser.run(untilShown(act(at)));
  const after = await laidOut();
  await browser.call("Performance.disable");
  return (after - before) / count;
}

/**
 * @param {Hands} hands
 * @param {TestContext} t
 */
async function clicksAtLength(hands, t) {
  await hands.source(LOOP);
  await hands.browser.run("rewind.page.perform('run 100000'), 0");
  await hands.idle();
  const step = await timesOf(hands, () => "rewind.page.step('g0')");
  const undo = await timesOf(hands, () => "rewind.page.perform('undo')");
  await hands.browser.run("rewind.page.annotating.work");
  const pointed = await timesOf(hands, (/** @type {number} */ at) => pointing(99990 - at));
  const again = await timesOf(hands, (/** @type {number} */ at) => pointing(99990 - at));
  const layouts = await layoutsOf(hands.browser, (/** @type {number} */ at) => pointing(99990 - at));
  const far = await timesOf(hands, (/** @type {number} */ at) => pointing(50000 - at));
  t.diagnostic(`at 100,000 steps: a step shows in ${step.toFixed(0)} ms, an undo in ${undo.toFixed(0)} ms`);
  t.diagnostic(`causes and consequences of a step in view show in ${pointed.toFixed(0)} ms, again in ${again.toFixed(0)} ms, of one far away in ${far.toFixed(0)} ms`);
  assert.ok(step < CLICK, "a step shows soon at 100,000 steps");
  assert.ok(undo < CLICK, "an undo shows soon there");
  assert.ok(pointed < POINTING && again < POINTING, "causes and consequences get their colours soon there");
  assert.ok(far < POINTING, "also those of a step that is far away");
  // Causes and consequences of a step that came into view are asked before they are wanted.
  await hands.browser.run("rewind.page.views.picture.reveal('g0#30000')");
  await hands.until("rewind.page.session.known.has('g0#30000')");
  assert.ok(layouts <= LAYOUTS, `the page is laid out at most ${LAYOUTS} times for each, on the mean`);
  await hands.idle();
  await hands.browser.run("document.getElementById('search-text').value = 'total', document.getElementById('search').onsubmit(new Event('submit'))");
  assert.ok(/^[\d,]+ steps with “total”, among the [\d,]+ whose statements are read$/.test(await hands.text("#found")), "of a long log, a search says how many steps were read");
  const past = await timesOf(hands, (/** @type {number} */ at) => `rewind.page.past.lookAt(99900 - ${at})`, 3);
  assert.ok(past < LOOKING, "a past state near the end shows soon there");
  await hands.act("now");
}

// At as many steps as one run takes, the program lists causes in half a second. The step that is pointed at is marked before.
/**
 * @param {Hands} hands
 * @param {TestContext} t
 */
async function clicksAtAMillion(hands, t) {
  await hands.source(LOOP);
  await hands.browser.run("rewind.page.perform('run 1000000'), 0");
  await hands.idle();
  const statement = await hands.browser.run("(({ page } = rewind, [row] = page.views.picture.stepsInView()) => page.note(page.session.log.id(row))?.statement?.text)()");
  assert.ok(["for", "c <- 1", "total += <-c"].includes(statement), "statements are shown at any length");
  const step = await timesOf(hands, () => "rewind.page.step('g0')");
  const marked = await timesOf(hands, (/** @type {number} */ at) => marking(999990 - at));
  await hands.until("rewind.page.pointing.about?.id === rewind.page.pointing.pointed");
  const again = await timesOf(hands, () => pointing(999984), 3);
  const past = await timesOf(hands, (/** @type {number} */ at) => `rewind.page.past.lookAt(999900 - ${at})`, 5);
  t.diagnostic(`at 1,000,000 steps: a step shows in ${step.toFixed(0)} ms, the mark of the pointer in ${marked.toFixed(0)} ms, a past state near the last in ${past.toFixed(0)} ms`);
  assert.ok(step < CLICK, "a step shows soon at 1,000,000 steps");
  assert.ok(marked < POINTING && again < POINTING, "a step that is pointed at is marked soon, and coloured soon where it was before");
  assert.ok(past < LOOKING, "a past state near the end shows soon");
  await hands.act("now");
}

// The pointer passes over many steps: only some are asked for, and the last one is shown.
/** @param {Hands} hands */
async function passing(hands) {
  const { browser } = hands;
  await hands.source(LOOP);
  await hands.perform("run 100000");
  const asked = "rewind.page.session.user.last";
  const before = await browser.run(asked);
  await browser.run(pointing(40001).replace("page.pointing.point(id);", "for (let row = 40100; row > 40000; row--) page.pointing.point(page.session.log.id(row));"));
  assert.ok((await browser.run(asked)) - before <= 4, "the pointer passes over a hundred steps, and few of them are asked for");
}

// The page draws while a long run goes on.
/**
 * @param {Hands} hands
 * @param {TestContext} t
 */
async function drawingMeanwhile(hands, t) {
  await hands.source(LOOP);
  const frames = await hands.browser.run(`(async () => { let longest = 0; let last = performance.now(); let isOver = false;
    const run = rewind.page.perform("run 200000").then(() => (isOver = true));
    while (!isOver) { await new Promise((go) => requestAnimationFrame(go)); const now = performance.now(); longest = Math.max(longest, now - last); last = now; }
    await run; return longest; })()`);
  t.diagnostic(`during a run of 200,000 steps the longest time between two frames is ${frames.toFixed(0)} ms`);
  assert.ok(frames < 1500, "the page goes on drawing during a long run");
  await hands.source("package main\nfunc main() {}\n");
}

// Very many steps go at once, and come again: the page has those of the program.
/** @param {Hands} hands */
async function longBacks(hands) {
  await hands.source(LOOP);
  await hands.perform("run 220000");
  const counts = "rewind.page.session.inCopy((it) => it.ask('log', 'columns')).then(({ of }) => [rewind.page.session.log.length, of.length, rewind.page.session.gone])";
  for (const { line, count } of [{ line: "back g0#4", count: 5 }, { line: "redo", count: 220000 }]) {
    await hands.perform(line);
    assert.deepEqual(await hands.browser.run(counts), [count, count, ""], `after '${line}' of 220,000 steps the page has the steps of the program`);
  }
}

const SPEEDS = {
  "very many steps go and come again": longBacks,
  "many prints": (/** @type {Hands} */ hands, /** @type {TestContext} */ t) => prints(hands, t, PRINTS, 20000),
  "many long prints": (/** @type {Hands} */ hands, /** @type {TestContext} */ t) => prints(hands, t, LONG_PRINTS, 2000),
  "clicks at 100,000 steps": clicksAtLength,
  "clicks at 1,000,000 steps": clicksAtAMillion,
  "the pointer passes over many steps": passing,
  "drawing during a long run": drawingMeanwhile,
};

/**
 * @param {TestContext} t
 * @param {TestBrowser} browser
 */
export const speed = (t, browser) => inTurn(t, browser, SPEEDS);
