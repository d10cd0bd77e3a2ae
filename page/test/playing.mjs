// Play: a story, a past run, and a program step by step go on by themselves, at a speed, until they are stopped.

import assert from "node:assert/strict";
import { inTurn } from "./parts.mjs";

const LOOP = "package main\nfunc main() {\n\tx := 0\n\tfor {\n\t\tx++\n\t}\n}\n";
const TWO = "package main\nfunc two() {\n\tprintln(1)\n\tprintln(2)\n}\nfunc main() {\n\tgo two()\n\tprintln(3)\n\tprintln(4)\n}\n";

/**
 * @param {Hands} hands
 * @param {string} name
 */
const speed = ({ browser }, name) => browser.run(`document.getElementById("speed").value = "${name}", document.getElementById("speed").onchange()`);

/** @param {Hands} hands */
const press = ({ browser }) => browser.run("rewind.act(rewind.page, 'play'), document.getElementById('play').textContent");

/** @param {Hands} hands */
async function ended(hands) {
  await hands.until("!rewind.page.player.isOn");
  await hands.idle();
  assert.equal(await hands.text("#play"), "Play", "the button offers to play again");
}

/** @param {Hands} hands */
async function aStory(hands) {
  const { browser } = hands;
  await hands.story("race_in_select");
  await speed(hands, "fast");
  const commands = await browser.run("rewind.page.views.stories.commands.map(({ command }) => command)");
  await browser.run("(() => { window.shifts = []; new PerformanceObserver((list) => window.shifts.push(...list.getEntries().map((it) => it.value))).observe({ type: 'layout-shift' }); })()");
  assert.equal(await press(hands), "Stop", "while it plays, the button stops it");
  await ended(hands);
  const done = await browser.run("[...document.querySelectorAll('#transcript .asked')].map((it) => it.textContent.replace(/^> /, ''))");
  assert.deepEqual(done, commands, "a story is told to its end");
  assert.deepEqual(await browser.run("window.shifts"), [], "and nothing moves over it");
  assert.ok(/That was the story/.test(await hands.text("#about-story")));
}

/** @param {Hands} hands */
async function speeds(hands) {
  const { browser } = hands;
  await hands.story("race_in_select");
  const paces = [];
  for (const name of ["slow", "medium", "fast"]) {
    await speed(hands, name);
    paces.push(await browser.run("rewind.page.player.pace()"));
  }
  assert.ok(paces[0] > paces[1] && paces[1] > paces[2], `a speed can be chosen: ${paces}`);
  await speed(hands, "slow");
  assert.ok((await browser.run("rewind.page.player.pace()")) > 2400, "and what is told stays long enough to be read");
  assert.equal(await browser.run("JSON.parse(localStorage.getItem('rewind-settings')).speed"), "slow", "the browser keeps it");
  await speed(hands, "fast");
}

/** @param {Hands} hands */
async function stepByStep(hands) {
  await hands.source(TWO);
  await hands.perform("run 100");
  const wanted = await hands.ids();
  await hands.source(TWO);
  await press(hands);
  await ended(hands);
  assert.deepEqual(await hands.ids(), wanted, "a program goes on round robin, to its end");
  await hands.source(TWO);
  await hands.browser.run("rewind.toggleBreak(rewind.page, 4)");
  await hands.idle();
  await press(hands);
  await ended(hands);
  assert.ok(!(await hands.words("#console")).includes("2"), "and stops before a breakpoint");
  assert.ok((await hands.goroutine("g0.1")).includes("ready at line 4"));
  await hands.browser.run("rewind.toggleBreak(rewind.page, 4)");
  await hands.idle();
}

/** @param {Hands} hands */
async function thePast(hands) {
  const { browser } = hands;
  await hands.story("deadlock");
  await hands.perform("run 100");
  const before = await hands.ids();
  await browser.run("rewind.page.views.stories.at = 1000");
  await browser.run("window.rows = [], rewind.page.past.show = ((show) => function (...given) { rows.push(this.row); return show.apply(this, given); })(rewind.page.past.show)");
  await press(hands);
  await ended(hands);
  assert.deepEqual(await browser.run("rows"), [...before.keys()], "a run that is over is shown from its start, a state after another");
  assert.deepEqual([await browser.run("rewind.page.past.isOn"), await hands.ids()], [false, before], "until now, and nothing is changed");
  await browser.run("rewind.page.past.lookAt(12)");
  assert.deepEqual(await hands.drawn(".at[data-step]"), [before[11]], "a cursor stands at the last step of the state that is shown");
  await press(hands);
  await ended(hands);
  assert.deepEqual(await browser.run("rows.slice(-4)"), [12, 13, 14, 15], "from a past state it goes on from there");
  assert.deepEqual(await hands.drawn(".at[data-step]"), [], "the present has no cursor");
}

/** @param {Hands} hands */
async function stopped(hands) {
  const { browser } = hands;
  await hands.source(LOOP);
  await hands.key("k");
  await hands.until("rewind.page.session.log.length > 2 && document.querySelectorAll('#picture .at[data-step]').length === 1");
  await hands.key("x");
  await ended(hands);
  const { length } = await hands.ids();
  await new Promise((go) => setTimeout(go, 900));
  assert.equal((await hands.ids()).length, length, "a key stops it");
  for (const [how, stop] of /** @type {[string, () => Promise<void>][]} */ ([["k", () => hands.key("k")], ["a click", () => hands.click("#picture")], ["another key", () => hands.key("s")], ["a new start", () => hands.source(LOOP)]])) {
    await browser.run("document.activeElement.blur()");
    await hands.key("k");
    await hands.until("rewind.page.player.isOn && rewind.page.session.log.length > 0");
    await stop();
    await hands.until("!rewind.page.player.isOn");
    assert.equal(await browser.run("rewind.page.player.isOn"), false, `so does ${how}`);
  }
}

/**
 * @param {TestContext} t
 * @param {TestBrowser} browser
 */
export const playing = (t, browser) =>
  inTurn(t, browser, { "a story": aStory, speeds, "step by step": stepByStep, "a past run": thePast, "what stops it": stopped });
