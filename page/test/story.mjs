// Stories by clicks and keys. What panes and picture show is compared with docs/SESSIONS.md's replies.

import assert from "node:assert/strict";
import { inTurn } from "./parts.mjs";

const ALT = 1;

// A send on a closed channel: run, point, take back, do again.
/** @param {Hands} hands */
async function takeBackAndDoAgain(hands) {
  await hands.story("send_on_closed");
  await hands.key("r");
  assert.equal(await hands.text("#status"), "13 steps taken: a panic stopped the program.", "the end of the run");
  const log = "g0#1 g0#2 g0#3 g0.1#1 g0#4 g0.1#2 g0.1#3 g0#5 g0.1#4 g0#6 g0.1#5 g0#7 g0.1#6".split(" ");
  assert.deepEqual(await hands.drawn(), log, "rows of the picture");
  const edges = ["g0#3 start g0.1#1", "g0#4 order g0.1#3", "g0.1#3 message g0#5", "g0#6 close g0.1#6"];
  assert.deepEqual(await hands.edges(), edges, "edges");
  assert.equal(await hands.browser.run(`document.querySelector('[data-step="g0#5"] .printed').textContent.trim()`), "“0”", "the printed line stands at its step");
  assert.deepEqual(await hands.texts("#console li"), ["0"], "the console");
  await hands.point("g0#6");
  assert.deepEqual(await hands.drawn(".consequence[data-step]"), ["g0#7", "g0.1#6"], "consequences of the close");
  const causes = (await hands.browser.run("rewind.page.session.user.ask('causes g0#6')")).words.slice(2);
  assert.deepEqual(await hands.drawn(".cause[data-step]"), causes.filter((/** @type {string} */ id) => id !== "g0#6"), "causes of the close");
  await hands.click("#picture .take-back");
  assert.deepEqual(await hands.lastReply(), ["> back g0#6", "ok 3 g0#6 g0#7 g0.1#6"], "one click takes the close back");
  assert.deepEqual(await hands.drawn(), log.filter((id) => !["g0#6", "g0#7", "g0.1#6"].includes(id)), "what is left");
  assert.equal(await hands.goroutine("g0"), "g0 ready at line 13, 5 steps main numbers = g0/c1 Step", "the receiver");
  await hands.click("#redo");
  assert.deepEqual(await hands.lastReply(), ["> redo", "ok 3 g0#6 g0#7 g0.1#6"], "another click does it again");
  assert.equal(await hands.channel("g0/c1"), "numbers (g0/c1) also out closed, room for 0 items none senders none receivers none", "the channel is closed again");
  await hands.key("u");
  assert.deepEqual(await hands.lastReply(), ["> undo", "ok g0.1#6"], "undo by a key");
}

// A goroutine that leaks: the first sender that waits is the one that is met, though the second waits too.
/** @param {Hands} hands */
async function messages(hands) {
  await hands.story("leaked_goroutine");
  await hands.key("r");
  const edges = (await hands.edges()).filter((/** @type {string} */ edge) => !edge.includes("order"));
  const starts = ["g0#4 start g0.1#1", "g0#5 start g0.2#1", "g0#12 start g0.3#1", "g0#13 start g0.4#1"];
  assert.deepEqual(edges.sort(), [...starts, "g0.1#1 message g0#6", "g0.3#1 message g0#14"].sort(), "starts and messages");
  assert.deepEqual(await hands.texts("#console li"), ["100", "100"], "what is printed");
  assert.equal(await hands.goroutine("g0.2"), "g0.2 waiting at line 4, 1 step started by g0 waits to send 200 to answers (g0/c1) ask server = 2 answers = g0/c1", "the one that leaks");
}

// A race in a select: the steps of goroutines and clauses by their buttons.
/** @param {Hands} hands */
async function pickClauses(hands) {
  await hands.story("race_in_select");
  for (let count = 0; count < 5; count++) await hands.key("s");
  await hands.clickLabel("Step g0.1");
  await hands.clickLabel("Step g0.2");
  assert.equal(await hands.goroutine("g0"), "g0 ready at line 11, 5 steps main left = g0/c1 right = g0/c2 Step 1: v := <-left 2: v := <-right", "both clauses are offered");
  assert.equal(await hands.channel("g0/c2"), "right (g0/c2) also out open, room for 0 items none senders g0.2=2 receivers none", "a sender waits");
  await hands.clickLabel("Case 2: v := <-right, of g0");
  assert.deepEqual(await hands.lastReply(), ["> step g0 2", "ok g0#6 pick 2"], "the second clause");
  await hands.key("u");
  await hands.browser.run("rewind.page.chooseGoroutine('g0')");
  await hands.key("1");
  assert.deepEqual(await hands.lastReply(), ["> step g0 1", "ok g0#6 pick 1"], "the first clause by its key");
  assert.deepEqual(await hands.texts("#editor .at-line"), ["g0.2", "g0.1", "g0"], "the lines at which they stand");
}

// The order of neighbours: exchanged by dragging and by keys, and refused with the pair that forbids it.
/** @param {Hands} hands */
async function exchangeNeighbours(hands) {
  await hands.story("lost_update");
  for (let count = 0; count < 18; count++) await hands.key("n");
  const before = await hands.ids();
  assert.deepEqual(before.slice(-3), ["g0.1#5", "g0.2#2", "g0.3#2"], "the last three");
  await hands.browser.run("rewind.page.views.picture.reveal('g0.3#2')");
  await hands.drag("g0.3#2", "g0.2#2");
  assert.deepEqual((await hands.ids()).slice(-3), ["g0.1#5", "g0.3#2", "g0.2#2"], "a drag exchanges them");
  await hands.browser.run("document.getElementById('picture').focus()");
  await hands.key("ArrowDown", ALT);
  assert.deepEqual(await hands.ids(), before, "and keys put them back");
  await hands.browser.run("rewind.page.views.picture.reveal('g0.2#1')");
  await hands.drag("g0.3#1", "g0.2#1");
  assert.equal(await hands.text("#status"), "Not possible: g0.3#1 depends on g0.2#1, so it cannot come before it.", "the refusal names the pair");
  assert.deepEqual(await hands.drawn(".forbids[data-step]"), ["g0.2#1", "g0.3#1"], "and the picture rings it");
  await hands.type("run 100");
  assert.deepEqual(await hands.lastReply(), ["> run 100", "ok 20 ended"], "a typed command");
  assert.deepEqual(await hands.texts("#console li"), ["balance 20"], "the wrong balance");
}

/** @param {Hands} hands */
async function refusals(hands) {
  await hands.program("number_too_large");
  assert.ok(/does not fit int/.test(await hands.text(".refusal-note")) && !/C7/.test(await hands.text(".refusal-note")), "a refusal stands at its line, in words");
  assert.ok((await hands.lastReply())[0].includes("(rewind: C7 at 2:"), "and with its code among the replies");
  assert.equal((await hands.text("#refusal")).slice(0, 19), "Refused at line 2: ", "and in words");
  await hands.program("bad_commands");
  await hands.type("step g0.9");
  assert.deepEqual((await hands.lastReply()).slice(1), ["no N2", "N2: there is no such goroutine or channel"], "the meaning of a code");
}

const LOOP = `package main
func count(c chan int) { for { c <- 1 } }
func main() {
	c := make(chan int)
	go count(c)
	total := 0
	for { total += <-c }
}
`;

// Runs in the page: the milliseconds that drawing takes after each of fifty scrolls.
function timeOfDrawing() {
  const began = performance.now();
  const picture = /** @type {Element} */ (document.getElementById("picture"));
  for (let at = 0; at < 50; at++) {
    picture.scrollTop = 500 * at;
    window.rewind.page.views.picture.draw();
  }
  return (performance.now() - began) / 50;
}

// Long runs go in portions and can be stopped; of a long log only what is in view is drawn.
/**
 * @param {Hands} hands
 * @param {TestContext} t
 */
async function longRuns(hands, t) {
  await hands.source(LOOP);
  await hands.type("run 5000");
  assert.equal(await hands.browser.run("rewind.page.session.log.length"), 5000, "five thousand steps");
  assert.ok((await hands.drawn()).length < 80, "few of them are drawn");
  await hands.browser.run("document.getElementById('picture').scrollTop = 40000");
  await hands.until(`Number(document.querySelector('#picture [data-step]')?.getAttribute('aria-posinset')) > 1500`);
  const scrolled = await hands.browser.run(`(${timeOfDrawing})()`);
  t.diagnostic(`a picture of 5,000 steps is drawn anew in ${scrolled.toFixed(1)} ms`);
  await hands.story("lost_update");
  await hands.source(LOOP);
  await hands.browser.run("rewind.page.perform('run 1000000'), 0");
  await hands.until("Number(document.getElementById('progress').value) > 0.004");
  assert.ok(await hands.browser.run("!document.getElementById('stop').hidden"), "a run shows how far it is");
  await hands.browser.key("x");
  await hands.until("!rewind.page.busy");
  const steps = await hands.browser.run("rewind.page.session.log.length");
  assert.ok(steps >= 2000 && steps < 1000000, "and is stopped by a key");
  await hands.source("package main\nfunc main() {}\n");
}

const STORIES = {
  "a close, taken back and done again": takeBackAndDoAgain,
  "messages of a leak": messages,
  "clauses of a select by buttons": pickClauses,
  "an order by dragging and by keys": exchangeNeighbours,
  refusals,
  "long runs": longRuns,
};

/**
 * @param {TestContext} t
 * @param {TestBrowser} browser
 */
export const stories = (t, browser) => inTurn(t, browser, STORIES);

/**
 * @param {TestContext} t
 * @param {TestBrowser} browser
 */
export const firstStory = (t, browser) => inTurn(t, browser, { "a close, taken back and done again": takeBackAndDoAgain });
