// What is asked before a command of a story, and which answers are right.

import assert from "node:assert/strict";
import { test } from "node:test";
import { questionFor, verdictOf } from "../../src/lessons/questions.js";

/**
 * @param {string} name
 * @param {string} state
 * @param {string} text
 * @returns {any}
 */
const one = (name, state, text = "x := 1") => ({ name, state, steps: 1, line: 4, frames: [], statement: { text } });
/** @type {any} */
const SCENE = { goroutines: [one("g0", "ready"), one("g0.1", "waiting"), one("g0.2", "ready", "println(<-c, x)"), one("g0.3", "done")], channels: [], console: { lines: [], count: 0 }, hidden: 0 };

/**
 * @param {string} last
 * @param {string[]} printed
 * @returns {any}
 */
const outcome = (last, printed = []) => ({ reply: { words: last.split(" "), isOk: last.startsWith("ok"), last, lines: [] }, printed, before: SCENE });

/**
 * @param {string} command
 * @param {import("../../src/lessons/questions.js").Guess} guess
 * @param {any} what
 */
const verdict = (command, guess, what) => /** @type {any} */ (verdictOf(/** @type {any} */ (questionFor(command, SCENE)), guess, what));

test("who can go next", () => {
  const question = questionFor("step g0", SCENE);
  assert.deepEqual([question?.kind, question?.options], ["who", ["g0", "g0.1", "g0.2"]], "of all that are not done");
  const step = outcome("ok g0#2 pure");
  assert.deepEqual(verdict("step g0", { option: "g0" }, step), { isRight: true, text: "Right: g0 can go, and in the story it goes." });
  assert.deepEqual(verdict("step g0", { option: "g0.2" }, step), { isRight: true, text: "Right: g0.2 can go, and in the story g0 goes." }, "whoever is ready can go");
  assert.deepEqual(verdict("step g0", { option: "g0.1" }, step), { isRight: false, text: "No: g0.1 waits at line 4, and in the story g0 goes." });
  assert.equal(questionFor("step g0", { ...SCENE, goroutines: [SCENE.goroutines[0]] }), null, "of one alone it is not asked");
});

test("what is printed", () => {
  assert.equal(questionFor("step g0.2", SCENE)?.text, "g0.2 goes next, at “println(<-c, x)”. What does this step print?");
  assert.deepEqual(verdict("step g0.2", { text: " 5  3 " }, outcome("ok g0.2#2 pure", ["5 3"])), { isRight: true, text: "Right: “5 3” is printed." });
  assert.deepEqual(verdict("step g0.2", { text: "" }, outcome("ok g0.2#2 take")), { isRight: true, text: "Right: nothing is printed." });
  assert.deepEqual(verdict("step g0.2", { text: "nothing" }, outcome("ok g0.2#2 take")).isRight, true);
  assert.deepEqual(verdict("step g0.2", { text: "5" }, outcome("ok g0.2#2 take")), { isRight: false, text: "No: nothing is printed." });
});

test("how a run ends", () => {
  assert.deepEqual(questionFor("run 100", SCENE)?.options, ["the program ends", "a deadlock", "a panic", "it can go on"]);
  assert.deepEqual(verdict("run 100", { option: "the program ends", text: "1, 2" }, outcome("ok 9 ended", ["1", "2"])), { isRight: true, text: "Right: “1”, “2” are printed, and the program ends." }, "with what it prints");
  assert.deepEqual(verdict("run 100", { option: "the program ends" }, outcome("ok 9 stuck")), { isRight: false, text: "No: nothing is printed, and it ends in a deadlock." });
  assert.deepEqual(verdict("run 100", { option: "a panic", text: "1" }, outcome("ok 9 fault")).isRight, false, "both must be right");
  assert.deepEqual(verdict("run 5", { option: "it can go on" }, outcome("ok 5 count")), { isRight: true, text: "Right: nothing is printed, and then it can go on." });
});

test("how many steps", () => {
  assert.deepEqual(["back g0.2#1", "deps g0#1", "causes g0#3"].map((it) => questionFor(it, SCENE)?.kind), ["count", "count", "count"]);
  assert.deepEqual(verdict("back g0.2#1", { text: "4" }, outcome("ok 4 g0.2#1 g0.1#3 g0.2#2 g0.2#3")), { isRight: true, text: "Right: it is 4 steps." });
  assert.deepEqual(["", "5", "4 steps", "four"].map((text) => verdict("back g0.2#1", { text }, outcome("ok 4 a b c d")).isRight), [false, false, false, false]);
  assert.equal(verdict("back g0.2#9", { text: "4" }, outcome("no B1")), null, "of a refused command nothing is said");
});

test("commands of which nothing is asked", () => {
  assert.deepEqual([undefined, "undo", "redo", "order g0#1 g0#2", "show g0", "log"].map((it) => questionFor(it, SCENE)), Array(6).fill(null));
  assert.equal(questionFor("run 9", { ...SCENE, hidden: 30 }), null, "nor where not all goroutines are known");
});
