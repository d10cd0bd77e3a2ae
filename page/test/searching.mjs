// A search of all schedules: what it says, the steps that it offers, and that it can be stopped.

import assert from "node:assert/strict";
import { inTurn } from "./parts.mjs";

// A program that counts for ever, so that no search of it ends.
const COUNTS = `package main
func main() {
	n := 0
	for {
		n++
	}
}
`;

const LINES = /^A schedule ends badly: \d+ steps from here lead to a deadlock\.$/;

/** @param {Hands} hands */
async function badEnd(hands) {
  await hands.story("deadlock");
  await hands.perform("run 5");
  await hands.act("search-all");
  const said = await hands.text("#headline");
  assert.ok(LINES.test(said), `a schedule is found: ${said}`);
  const steps = Number(/\d+/.exec(said)?.[0]);
  assert.equal(await hands.text("#follow"), `Take these ${steps}`, "and its steps can be taken");
  await hands.click("#follow");
  assert.ok(/^Deadlock: /.test(await hands.text("#state")), "they lead there");
  assert.equal((await hands.ids()).length, 5 + steps, "and are as many as were told");
  await hands.act("search-all");
  assert.ok(/^A bad end: the program stands in a deadlock/.test(await hands.text("#headline")), "of a bad end it is said that the program stands in it");
}

// What the dialog shows: the ends, the sentence, and of each picture the steps with their heights.
const BESIDE = `(() => ({
  outcomes: [...document.querySelectorAll("#outcomes button")].map((it) => it.textContent), text: document.getElementById("parting-text").textContent,
  pictures: [...document.querySelectorAll("#schedules svg")].map((svg) => [...svg.querySelectorAll("[data-step]")].map((it) => [it.dataset.step, Number(it.querySelector(".kind").getAttribute("y"))])),
}))()`;

/** @param {Hands} hands */
async function besideGood(hands) {
  await hands.story("deadlock");
  await hands.perform("run 5");
  await hands.act("search-all");
  await hands.act("show-parting");
  await hands.until("document.querySelectorAll('#schedules svg').length === 2");
  const { outcomes, text, pictures } = await hands.browser.run(BESIDE);
  assert.ok(outcomes.length > 1 && outcomes.some((/** @type {string} */ it) => /^\d+: a deadlock$/.test(it)), `each kind of end has its number: ${outcomes.join("; ")}`);
  const counts = outcomes.map((/** @type {string} */ it) => Number(it.split(":")[0]));
  assert.equal(counts.reduce((/** @type {number} */ sum, /** @type {number} */ it) => sum + it, 0), 40, "as many as were drawn");
  const [, left, right, alone] = /^g0[\d.]*#\d+ is to blame: .* They part (?:where (\S+) stands beside (\S+)|at (\S+))\.$/.exec(text) || [];
  const [good, bad] = pictures.map((/** @type {[string, number][]} */ rows) => new Map(rows));
  const height = alone ? Math.min(good.get(alone) ?? Infinity, bad.get(alone) ?? Infinity) : good.get(left);
  assert.ok(height && (alone || height === bad.get(right)), `the steps where they part stand on one line: ${text}`);
  const before = pictures[0].filter((/** @type {[string, number]} */ [, y]) => y < height);
  assert.ok(before.length >= 5 && before.every((/** @type {[string, number]} */ [id, y]) => bad.get(id) === y), "before them both have the same steps on the same lines");
  await hands.browser.run(`[...document.querySelectorAll("#outcomes button")].find((it) => !it.textContent.includes("deadlock")).click()`);
  await hands.until("!document.querySelector('#outcomes [aria-pressed=true]').textContent.includes('deadlock')");
  await hands.browser.run("document.getElementById('parting-take').click()");
  await hands.idle();
  assert.ok(/^The program has ended/.test(await hands.text("#headline")), "the steps of an outcome can be taken");
}

// A program without any schedule that ends well.
/** @param {Hands} hands */
async function noGood(hands) {
  await hands.source("package main\nfunc main() {\n\tc := make(chan int)\n\t<-c\n}\n");
  await hands.act("search-all");
  await hands.act("show-parting");
  await hands.until("document.querySelectorAll('#schedules svg').length === 1");
  assert.equal((await hands.browser.run(BESIDE)).text, "No schedule of the program ends well.");
  await hands.browser.run("document.getElementById('parting-dialog').close()");
}

/** @param {Hands} hands */
async function noneBad(hands) {
  await hands.story("lost_update");
  await hands.act("search-all");
  assert.ok(/^No schedule ends badly: .*, all \d+ states seen\.$/.test(await hands.text("#headline")), "where none ends badly, this is said");
  assert.equal(await hands.browser.run("document.getElementById('matter').className"), "good");
  await hands.key("s");
  assert.ok(!/No schedule/.test(await hands.text("#headline")), "and no longer once something has changed");
}

/** @param {Hands} hands */
async function chosenStep(hands) {
  await hands.story("deadlock");
  await hands.perform("run 5");
  await hands.act("search-all");
  await hands.browser.run("rewind.page.pointing.show('g0#2')");
  await hands.idle();
  assert.ok(/^g0#2 is because of/.test(await hands.text("#headline")), "a step that is chosen then has the row");
}

/** @param {Hands} hands */
async function stopped(hands) {
  await hands.source(COUNTS);
  await hands.browser.run("rewind.act(rewind.page, 'search-all'), 0");
  await hands.until("/^all schedules are searched: [1-9]/.test(document.getElementById('taken').textContent)");
  assert.equal(await hands.browser.run("document.getElementById('stop').hidden"), false, "a search can be stopped");
  await hands.browser.run("rewind.act(rewind.page, 'stop'), 0");
  await hands.idle();
  assert.equal(await hands.text("#status"), "The search was stopped by you: nothing is known of all schedules.");
  await hands.key("s");
  assert.equal((await hands.ids()).length, 1, "the session goes on");
}

/**
 * @param {TestContext} t
 * @param {TestBrowser} browser
 */
export const searches = (t, browser) =>
  inTurn(t, browser, {
    "a schedule that ends badly": badEnd,
    "a bad one beside a good one": besideGood,
    "no good one": noGood,
    "no schedule that ends badly": noneBad,
    "a step that is chosen behind a search": chosenStep,
    "a search that is stopped": stopped,
  });
