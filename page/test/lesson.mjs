// For a lesson: links and files, moves, past states, rollback by clicks with its preview, exercises, search, folds, two runs.

import assert from "node:assert/strict";
import { readFileSync } from "node:fs";
import { inTurn } from "./parts.mjs";
import { LOOP } from "./truths.mjs";

const EXERCISES = JSON.parse(readFileSync(new URL("../exercises.json", import.meta.url), "utf8"));
const TOP = new URL("../../", import.meta.url).pathname;
const CALLS = `package main
func twice(x int) int {
	y := x + x
	return y
}
func main() {
	a := twice(1) + twice(2)
	println(a)
	println("end")
}
`;

/** @param {Hands} hands */
async function links(hands) {
  const { browser } = hands;
  await hands.story("deadlock");
  await hands.key("r");
  await browser.run("rewind.page.pointing.show('g0.2#1')");
  await browser.run("navigator.clipboard.writeText = () => Promise.reject(new Error('not allowed'))");
  await hands.act("copy-link");
  await hands.until("location.hash.startsWith('#s=')");
  const hash = await browser.run("location.hash");
  await hands.source(CALLS);
  assert.equal(await browser.run("location.hash"), "", "after a change the address is no link any more");
  await new Promise((go) => setTimeout(go, 300));
  await browser.run(`location.hash = ${JSON.stringify(hash)}`);
  await hands.until("rewind.page.pointing.pinned");
  await hands.idle();
  assert.ok(hash.length < 1500, "a link is short");
  assert.deepEqual([(await hands.ids()).length, await browser.run("rewind.page.pointing.pinned"), await hands.text("#state")].map((it) => (typeof it === "string" ? it.slice(0, 9) : it)), [16, "g0.2#1", "Deadlock:"], "a link opens its source, steps and chosen step");
  await browser.run("rewind.page.views.editor.editor.undo()");
  assert.deepEqual(await browser.run("rewind.page.views.editor.text"), CALLS, "undoing in the editor brings back the text that a link replaced");
}

/** @param {Hands} hands */
async function files(hands) {
  /** @param {[name: string, text: string][]} list */
  const open = (list) => hands.browser.run(`{ const files = ${JSON.stringify(list)}.map(([name, text]) => new File([text], name)); const data = new DataTransfer(); files.forEach((it) => data.items.add(it));
    document.dispatchEvent(new DragEvent("drop", { dataTransfer: data, bubbles: true, cancelable: true })); }`);
  await open([["a.go", CALLS], ["a.script", "step g0\nstep g0\n"]]);
  await hands.until("rewind.page.session.log.length === 2");
  await hands.idle();
  assert.deepEqual([await hands.browser.run("rewind.page.views.editor.text"), await hands.ids()], [CALLS, ["g0#1", "g0#2"]], "files that are dropped are opened, and their commands done");
  await open([["b.go", `${CALLS}\n// commands of Rewind:\n// run 3\n`]]);
  await hands.until("rewind.page.session.log.length === 3");
  await hands.idle();
  assert.equal((await hands.ids()).length, 3, "one file may hold both");
}

/** @param {Hands} hands */
async function moves(hands) {
  await hands.source(CALLS);
  await hands.act("over");
  assert.equal(await hands.text("#status"), "g0 stands at line 8.", "a step over passes what a statement calls");
  const back = await hands.ids();
  await hands.act("over");
  assert.deepEqual([await hands.texts("#console li"), (await hands.ids()).length], [["6"], back.length + 1], "and goes on by a statement");
  await hands.story("lost_update");
  await hands.act("alone");
  assert.deepEqual([await hands.text("#status"), new Set((await hands.ids()).map((/** @type {string} */ id) => id.split("#")[0])).size], ["g0 waits now: step another goroutine, or run.", 1], "a goroutine goes on alone until it waits");
  await hands.act("over");
  assert.ok(/g0 goes on at line|still waits/.test(await hands.text("#status")), "one that waits is helped on by the others");
  await hands.story("lost_update");
  await hands.browser.run("rewind.page.views.editor.editor.setCursor({ line: 14, ch: 0 })");
  await hands.act("to-line");
  assert.equal((await hands.text("#status")).replace(/^\d+ steps/, "N steps").replace(/ [\d.]+ s\.$/, ""), "N steps taken: stopped at the breakpoint in line 15.", "a run to a line stops there");
  assert.equal(await hands.browser.run("rewind.page.session.breakpoints.size"), 0, "and leaves no breakpoint");
}

/** @param {Hands} hands */
async function usualKeys(hands) {
  await hands.source(CALLS);
  await hands.key("F10");
  assert.equal(await hands.text("#status"), "g0 stands at line 8.", "F10 steps over");
  await hands.act("undo");
  await hands.key("F11");
  assert.equal((await hands.lastReply())[0], "> step g0", "F11 steps");
  await hands.browser.run("rewind.page.views.editor.editor.setCursor({ line: 8, ch: 0 })");
  await hands.key("F9");
  await hands.key("F5");
  assert.equal(await hands.text("#status"), "1 step taken: stopped at the breakpoint in line 9.", "F9 sets a breakpoint, at which F5 stops");
  await hands.key("F9");
  await hands.type("show g0");
  await hands.browser.run("document.getElementById('line').focus()");
  await hands.browser.key("ArrowUp");
  assert.equal(await hands.browser.run("document.getElementById('line').value"), "show g0", "arrows bring typed lines back");
  await hands.browser.run("document.getElementById('line').value = '', document.activeElement.blur()");
  await hands.source("package main\nfunc main() {\n\tfor { }\n}\n");
  await hands.browser.run("rewind.act(rewind.page, 'alone'), 0");
  await hands.until("rewind.page.session.log.length > 20");
  assert.ok(await hands.browser.run("!document.getElementById('stop').hidden"), "a move shows how far it is");
  await hands.browser.run("rewind.page.stop()");
  await hands.idle();
  assert.ok(/^Stopped by you after \d+ steps\.$/.test(await hands.text("#status")), "and can be stopped");
}

/** @param {Hands} hands */
async function pasts(hands) {
  await hands.story("deadlock");
  await hands.key("r");
  const before = await hands.ids();
  await hands.act("fit");
  await hands.browser.run("rewind.page.past.lookAt(1)");
  await hands.idle();
  await hands.browser.size(1280, 600);
  await hands.idle();
  assert.ok(await isInPicture(hands, '[data-mark="g0#1"] .mark'), "the last step of a past state stays in view in a smaller window");
  await hands.browser.size(1280, 800);
  await hands.act("now");
  await hands.browser.run("{ const it = document.getElementById('moment'); it.value = '5'; it.oninput(); }");
  await hands.until("rewind.page.past.scene");
  assert.deepEqual([await hands.goroutine("g0"), await hands.text("#then-text")], ["g0 ready at line 15, 5 steps main a = g0/c1 b = g0/c2", "This is the state after step 5, g0#5, of 16 steps. Nothing is changed."], "the slider shows a past state");
  assert.equal(await hands.browser.run("document.querySelectorAll('.buttons').length"), 0, "no step can be taken there");
  const dim = "['.step.later[data-step]', '.edge.later', '.edge:not(.later)'].map((it) => document.querySelectorAll(`#picture ${it}`).length > 0)";
  assert.deepEqual(await hands.browser.run(dim), [true, true, false], "later steps are dim, and the arrows to them");
  assert.deepEqual(await hands.ids(), before, "the session is as it was");
  await hands.act("now");
  assert.ok((await hands.goroutine("g0.2")).includes("waiting at line 5"), "and one comes back to now");
  await hands.key(",");
  await hands.until("rewind.page.past.scene");
  assert.equal(await hands.browser.run("rewind.page.past.row"), 15, "a key looks a step back");
  await hands.key("u");
  assert.deepEqual([await hands.browser.run("rewind.page.past.isOn"), (await hands.ids()).length], [false, 15], "a command comes back to now, and is done");
  const shorter = "(({ picture } = rewind.page.views) => { picture.mark({ ...picture.view, last: 100 }); picture.resized(); return picture.staying; })()";
  assert.equal(await hands.browser.run(shorter), "", "a log that is shorter than a past state can be shown in another size");
  await hands.browser.run("rewind.page.session.reader.sceneAt = async () => null, rewind.page.past.lookAt(5)");
  assert.equal(await hands.text("#then-text"), "This page cannot find the state after step 5, g0#5, of 15 steps.", "a state that cannot be found is not said to be shown");
}

// A past state that takes seconds to find: the page says how far it is, and the way there can be left.
/** @param {Hands} hands */
async function farPast(hands) {
  const { browser } = hands;
  await hands.source(LOOP);
  await hands.perform("run 400000");
  const at = () => browser.run("rewind.page.session.reader.place");
  await browser.run("void rewind.page.past.lookAt(390000)");
  await hands.until("/^On the way to the state after step 390,000, .*: now at step \\d+,000\\.$/.test(document.getElementById('then-text').textContent)");
  assert.ok((await at()) < 390000, "while a past state is looked for, the panes are not said to show it");
  await hands.act("now");
  await browser.run("rewind.page.session.inTurn(async () => 0)");
  const stopped = await at();
  assert.ok(stopped < 390000, "the way there ends where one comes back to now");
  await browser.run(`rewind.page.past.lookAt(${stopped + 1})`);
  assert.ok(/^This is the state after step/.test(await hands.text("#then-text")), "a state that is near is shown then");
  await hands.act("now");
  await hands.source("package main\nfunc main() {}\n");
}

/** @param {Hands} hands */
async function clicks(hands) {
  const pinned = "rewind.page.pointing.pinned";
  /**
   * @param {string} selector
   * @param {string} text
   */
  const ask = async (selector, text) => {
    assert.ok((await hands.texts(selector)).includes(text), `${text} can be clicked`);
    await hands.browser.run(`rewind.page.pointing.clear(), [...document.querySelectorAll(${JSON.stringify(selector)})].find((it) => it.innerText.trim() === ${JSON.stringify(text)})?.click()`);
    await hands.until(pinned);
    await hands.idle();
    return hands.browser.run(pinned);
  };
  await hands.story("buffered_channel");
  await hands.key("r");
  const items = await hands.texts('[data-channel="g0/c1"] dd .asked-value');
  assert.deepEqual(items, ["3", "4", "g0=5"], "items and waiters of a channel can be clicked");
  assert.ok(/^ch\s+\(g0.c1\)\s+open/.test(await hands.words('[data-channel="g0/c1"] .top')), "a channel is shown with the variables that hold it");
  const sends = [];
  for (const number of [3, 4]) {
    sends.push(await hands.browser.run(`rewind.page.session.user.ask('back send g0/c1 ${number}').then(async (it) => (await rewind.page.session.user.ask('redo'), it.words[2]))`));
  }
  assert.deepEqual([await ask('[data-channel="g0/c1"] .asked-value', "3"), await ask('[data-channel="g0/c1"] .asked-value', "4")], sends, "an item finds the step that sent it");
  assert.equal(await ask('[data-channel="g0/c1"] .asked-value', "g0=5"), "g0#14", "a waiter finds its wait");
  await hands.story("lost_update");
  await hands.perform("run 100");
  assert.equal(await ask('[data-goroutine="g0.1"] .asked-value', "started by g0"), "g0#5", "a goroutine finds the step that started it");
  assert.equal(await hands.browser.run(`rewind.page.session.log.kindOf(${JSON.stringify(await ask("#console .asked-value", "balance 20"))})`), "pure", "a printed line finds its step");
  const variable = await ask('[data-goroutine="g0.1"] .asked-value', "balance = 20");
  assert.equal(variable.split("#")[0], "g0.1", "a variable finds the step that gave it its value");
  await hands.until("document.querySelector('#course p')");
  const course = await hands.text("#course");
  assert.ok(/^g0\.1 balance over time: 0 \(g0\.1#1\) → .*20 \(g0\.1#\d+\)$/s.test(course.replace(/\s+/g, " ")), "and its values over time");
  assert.equal((await hands.ids()).length, 36, "which changes nothing");
}

/** @param {Hands} hands */
async function previews(hands) {
  await hands.story("send_on_closed");
  await hands.key("r");
  await hands.browser.run("rewind.page.pointing.show('g0.1#3')");
  await hands.until("document.querySelector('#preview s')");
  const said = await hands.text("#preview");
  assert.ok(/^\d+ steps would go, and \d+ stay:/.test(said), "a preview tells how many steps would go");
  assert.ok((await hands.texts("#preview s"))[0] === "0", "what goes from the console");
  assert.ok(/Goroutines/.test(said) && /Variables/.test(said), "and how variables and goroutines change");
  assert.equal((await hands.ids()).length, 13, "nothing is changed by it");
  await hands.story("lost_update");
  await hands.key("r");
  const last = (await hands.ids()).at(-1);
  await hands.browser.run(`rewind.page.pointing.show(${JSON.stringify(last)})`);
  await hands.until("document.querySelector('#preview p')");
  await hands.idle();
  assert.ok(await isInPicture(hands, `[data-mark="${last}"] .mark`), "the chosen step stays in view where a preview takes room");
}

// Whether an element of the picture is in view.
/**
 * @param {Hands} hands
 * @param {string} selector
 */
function isInPicture({ browser }, selector) {
  return browser.run(`(() => {
    const [it, picture] = [${JSON.stringify(selector)}, "#picture"].map((it) => document.querySelector(it)?.getBoundingClientRect());
    return Boolean(it) && it.top >= picture.top && it.bottom <= picture.bottom;
  })()`);
}

/** @param {Hands} hands */
async function exercises(hands) {
  assert.ok(EXERCISES.length >= 12 && new Set(EXERCISES.map((/** @type {{level: string}} */ { level }) => level)).size === 3, "there are at least twelve exercises in three levels");
  for (const { name, solution, choose } of EXERCISES) {
    await hands.story(name);
    assert.ok(/^Not yet: \S.*\.$/.test(await hands.text("#task-verdict")), `exercise ${name} is not solved at its start, and says what is missing`);
    const commands = typeof solution === "string" ? readFileSync(TOP + solution, "utf8").split("\n").filter((line) => line.trim()) : solution;
    for (const line of commands) await hands.browser.run(`rewind.page.perform(${JSON.stringify(line)}).then(() => 1)`);
    if (choose) await hands.browser.run(`rewind.page.pointing.show(${JSON.stringify(choose)})`);
    await hands.idle();
    assert.equal(await hands.text("#task-verdict"), "Solved.", `exercise ${name} is solved by its solution`);
  }
}

/** @param {Hands} hands */
async function stories(hands) {
  const titles = await hands.texts("#story option");
  assert.ok(titles.length > 30 && !titles.some((/** @type {string} */ it) => /octal|underscore|wrong words|replayed/.test(it)), "the menu has some twenty stories and no tests");
  await hands.story("lost_update");
  while (!(await hands.browser.run("document.getElementById('next').disabled"))) await hands.act("next");
  assert.ok(/That was the story/.test(await hands.text("#about-story")), "a story is told to its end");
  assert.deepEqual(await hands.texts("#console li"), ["balance 30"], "and comes out as it is told");
}

/** @param {Hands} hands */
async function comparisons(hands) {
  await hands.story("race_in_select");
  await hands.perform("run 100");
  await hands.act("compare");
  await hands.perform("back g0#6");
  await hands.perform("step g0.2");
  await hands.perform("step g0 2");
  await hands.act("compare");
  assert.ok(/The first \d+ steps are the same\. There the logs part\./.test(await hands.text("#compared-text")), "two runs are shown side by side, from where they part");
  assert.ok((await hands.texts("#compared .differs")).length > 1, "with what differs");
  assert.ok((await hands.texts("#compared code")).some((/** @type {string} */ it) => /^select|<-/.test(it)), "and with their statements");
  await hands.browser.run("document.getElementById('forget').click()");
}

/** @param {Hands} hands */
async function presentation(hands) {
  const { browser } = hands;
  await hands.story("deadlock");
  await hands.key("v");
  assert.equal(await browser.run("getComputedStyle(document.querySelector('#editor .CodeMirror')).fontSize"), "20px", "presentation has letters of 20 pixels");
  assert.deepEqual(await browser.run("['transcript', 'goroutines', 'legend', 'tabs'].filter((id) => document.getElementById(id).getClientRects().length)"), [], "and picture and source alone");
  await hands.perform("run 100");
  await hands.click("#leave");
  assert.ok(await browser.run("!document.body.classList.contains('presentation') && !document.getElementById('leave').getClientRects().length"), "a button leads out of it");
  await browser.size(853, 533);
  await hands.key("v");
  await hands.idle();
  await hands.until("document.querySelector('#picture .cycle-word')");
  assert.ok(await isInPicture(hands, ".cycle-word:last-of-type"), "the cycle of a deadlock is in view in a small presentation");
  await hands.key("v");
  await browser.size(400, 800);
  const step = await browser.run("document.getElementById('step').getBoundingClientRect().bottom");
  assert.ok(step < 800, "Step is in reach on a phone");
  await browser.run("scrollTo(0, 1500)");
  assert.ok((await browser.run("document.getElementById('step').getBoundingClientRect().top")) >= 0, "and stays there");
  await browser.size(1280, 800);
}

const LESSONS = {
  links,
  "files that are dropped": files,
  moves,
  "the usual keys": usualKeys,
  "past states": pasts,
  "a past state that is far": farPast,
  "clicks on values": clicks,
  "previews of a rollback": previews,
  "stories of the menu": stories,
  "two runs side by side": comparisons,
  presentation,
  exercises,
};

/**
 * @param {TestContext} t
 * @param {TestBrowser} browser
 */
export const lessons = (t, browser) => inTurn(t, browser, LESSONS);
