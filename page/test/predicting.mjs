// Prediction: what is asked before the commands of a story, answers, the count, and that nothing moves.

import assert from "node:assert/strict";
import { inTurn } from "./parts.mjs";

/** @param {Hands} hands */
const question = ({ browser }) => browser.run("document.getElementById('question').textContent");
/** @param {Hands} hands */
const options = ({ browser }) => browser.run("[...document.querySelectorAll('#options button')].map((it) => it.textContent)");

/**
 * @param {Hands} hands
 * @param {string} option
 * @param {string} text
 */
async function answer(hands, option, text = "") {
  await hands.browser.run(`{ const guess = document.getElementById("guess"); if (guess) guess.value = ${JSON.stringify(text)};
    [...document.querySelectorAll("#options button")].find((it) => it.textContent === ${JSON.stringify(option)}).click(); }`);
  await hands.idle();
}

/** @param {Hands} hands */
async function aStory(hands) {
  const { browser } = hands;
  await hands.story("deadlock");
  assert.equal(await browser.run("document.getElementById('prediction').hidden"), true, "nothing is asked unless it is wanted");
  await hands.key("q");
  assert.deepEqual([await question(hands), await options(hands)], ["The story goes on with “run 100”. What is printed by it, and how does it end?", ["the program ends", "a deadlock", "a panic", "it can go on"]], "before a run, what is printed and how it ends");
  assert.equal((await hands.ids()).length, 0, "before the step is taken");
  await browser.run("(() => { window.shifts = []; new PerformanceObserver((list) => window.shifts.push(...list.getEntries().map((it) => it.value))).observe({ type: 'layout-shift' }); })()");
  await answer(hands, "the program ends");
  assert.deepEqual([await hands.text("#verdict"), await hands.text("#score"), (await hands.ids()).length], ["No: nothing is printed, and it ends in a deadlock.", "0 of 1 right", 16], "the answer comes with the step, and is counted");
  assert.equal(await question(hands), "Nothing is asked before the next command: press Next in story.", "nothing is asked of a command that only looks");
  while ((await question(hands)).startsWith("Nothing")) await hands.act("next");
  assert.equal(await question(hands), "The story goes on with “back g0.2#1”. How many steps go back?");
  await answer(hands, "Answer", "4");
  assert.deepEqual([await hands.text("#verdict"), await hands.text("#score")], ["Right: it is 4 steps.", "1 of 2 right"]);
  assert.equal(await question(hands), "Who can go next?");
  assert.deepEqual(await browser.run("window.shifts"), [], "nothing moves over it");
  const told = await browser.run("rewind.page.views.stories.at");
  await hands.act("next");
  assert.deepEqual([await browser.run("rewind.page.views.stories.at"), await hands.text("#score")], [told + 1, "1 of 2 right"], "a question can be passed over");
  await hands.key("q");
  assert.equal(await browser.run("document.getElementById('prediction').hidden"), true, "and be left");
}

// Each story of the menu is told to its end with the answers that the page itself gives afterwards.
/** @param {Hands} hands */
async function goroutinesAndPrints(hands) {
  const { browser } = hands;
  await hands.story("lost_update");
  await hands.key("q");
  const kinds = new Set();
  for (let count = 0; count < 40 && !(await browser.run("document.getElementById('next').disabled")); count++) {
    const [asked, buttons] = [await question(hands), await options(hands)];
    if (!buttons.length) {
      await hands.act("next");
      continue;
    }
    if (asked === "Who can go next?") {
      kinds.add("who");
      const ready = await browser.run("rewind.page.session.scene.goroutines.filter(({ state }) => state === 'ready').map(({ name }) => name)");
      const waiting = buttons.filter((/** @type {string} */ it) => !ready.includes(it));
      const isWrong = count % 3 === 2 && waiting.length > 0;
      await answer(hands, isWrong ? waiting[0] : ready[0]);
      assert.ok((await hands.text("#verdict")).startsWith(isWrong ? "No: " : "Right: "), "who is ready can go, and nobody else");
    } else {
      kinds.add(/print/.test(asked) ? "print" : "count");
      await answer(hands, buttons[0]);
    }
  }
  assert.ok(kinds.size > 1, `several kinds of questions are asked: ${[...kinds]}`);
  assert.ok(/^\d+ of \d+ right$/.test(await hands.text("#score")), "and counted");
  assert.equal(await question(hands), "The story has no more commands.");
  await hands.act("start");
  assert.deepEqual([await hands.words("#score"), await hands.words("#verdict")], ["", ""], "a new start counts anew");
  await hands.key("q");
}

/** @param {Hands} hands */
async function byKeys(hands) {
  const { browser } = hands;
  await browser.run("location.hash = '#story=deadlock&ask'");
  await hands.until("rewind.page.views.stories.name === 'deadlock' && !document.getElementById('prediction').hidden && document.getElementById('options').children.length > 4");
  await hands.idle();
  await browser.run("document.querySelectorAll('#options button')[1].focus()");
  await browser.key("Enter");
  await hands.until("document.getElementById('score').textContent === '1 of 1 right'");
  await hands.idle();
  assert.equal(await browser.run("document.activeElement.id"), "next", "an address asks too, and the focus goes to what comes next");
  while ((await question(hands)).startsWith("Nothing")) await hands.key("Enter");
  await browser.run("document.getElementById('guess').focus()");
  await browser.key("4");
  await browser.key("Enter");
  await hands.until("document.getElementById('score').textContent === '2 of 2 right'");
  await browser.run("document.activeElement.blur()");
  await hands.source("package main\nfunc main() { println(7) }\n");
  assert.equal(await browser.run("document.getElementById('prediction').hidden"), true, "of a program of one's own nothing is asked");
  await browser.run("rewind.page.prediction.set(false)");
}

/**
 * @param {TestContext} t
 * @param {TestBrowser} browser
 */
export const predictions = (t, browser) => inTurn(t, browser, { "a story": aStory, "goroutines and prints": goroutinesAndPrints, "by keys": byKeys });
