// Stories and exercises of one's own: what is read of them, files, and what is recorded.

import assert from "node:assert/strict";
import { test } from "node:test";
import { fromFiles, isOfSource, lessonFile, toFile } from "../../src/control/filing.js";
import { checked, fromHash, toHash } from "../../src/control/linking.js";
import { isReached, missing, stateOf } from "../../src/lessons/exercises.js";
import { checkedLesson, exerciseOf, fileNameOf, OWN, recorded, storyOf, withTexts } from "../../src/lessons/lesson.js";
import { Log } from "../../src/session/log.js";

const SOURCE = "package main\n\nfunc main() {\n\tprintln(1)\n}\n";
/** @type {Lesson} */
const STORY = { title: "Two locks", source: SOURCE, shows: "who waits", told: [{ text: "First: this.", command: "step g0" }, { text: "", command: "run 3" }], task: "", hint: "", before: [], goal: null };
/** @type {Lesson} */
const EXERCISE = { title: "Untie it", source: SOURCE, shows: "", told: [], task: "Let it end.", hint: "Look at g0.", before: ["step g0"], goal: { end: "ended", printed: "1\n2" } };

test("what is read of a lesson has the types that it must have", () => {
  assert.deepEqual([checkedLesson(STORY), checkedLesson(EXERCISE)], [STORY, EXERCISE]);
  assert.deepEqual([null, {}, { source: 5 }, { source: "x" }, { source: "x", told: [{ command: "a\nb" }] }, { source: "x", goal: { end: "never" } }].map((it) => checkedLesson(it)), Array(6).fill(null), "else it is none");
  const odd = checkedLesson({ ...EXERCISE, title: " ", task: 5, goal: { ...EXERCISE.goal, only: "(a+)+$", most: 2 }, before: ["step g0", 7, "a\nb"] });
  assert.deepEqual([odd?.title, odd?.task, odd?.goal, odd?.before], ["a lesson", "", EXERCISE.goal, ["step g0"]], "what is odd is left out");
});

test("as a story or an exercise of the menu", () => {
  assert.deepEqual([storyOf(STORY)?.name, storyOf(STORY)?.told, exerciseOf(STORY)], [OWN, STORY.told, null]);
  assert.deepEqual([exerciseOf(EXERCISE)?.task, exerciseOf(EXERCISE)?.before, storyOf(EXERCISE)], ["Let it end.", ["step g0"], null]);
  assert.deepEqual([fileNameOf("Two locks, in two orders!"), fileNameOf("二つ"), fileNameOf("..")], ["two_locks_in_two_orders", "二つ", OWN]);
});

test("in a link", async () => {
  const shared = { ...checked({ source: SOURCE, commands: ["step g0"], name: OWN, lesson: EXERCISE }) };
  assert.deepEqual(shared.lesson, EXERCISE);
  assert.deepEqual(await fromHash(`${await toHash(shared)}&embed`), shared, "which may ask for a frame besides");
});

test("in a file", () => {
  /** @param {string} text */
  const opened = (text) => fromFiles([{ name: "a.go", text }]);
  const story = opened(lessonFile(STORY, "1.2.0"));
  assert.deepEqual([story.source, story.lesson, story.commands, story.version], [SOURCE, STORY, [], "1.2.0"], "a story begins at its start");
  const exercise = opened(lessonFile(EXERCISE, "1.2.0"));
  assert.deepEqual([exercise.source, exercise.lesson, exercise.commands], [SOURCE, EXERCISE, ["step g0"]], "an exercise where its task begins");
  const solved = opened(toFile({ source: SOURCE, commands: ["step g0", "run 9"], lesson: EXERCISE }, "1.2.0"));
  assert.deepEqual([solved.lesson, solved.commands], [EXERCISE, ["step g0", "run 9"]], "or with what was done of it");
  assert.deepEqual(opened(toFile({ source: SOURCE, commands: [] }, "1.2.0")).source, SOURCE, "a source alone is a source");
  assert.ok(lessonFile(STORY, "1").split("\n").slice(SOURCE.split("\n").length).every((line) => !line || line.startsWith("// ")), "all behind the source is a comment");
  const wild = { ...STORY, title: "a\nb", told: [{ text: "one\ntwo // three", command: "step g0" }] };
  assert.deepEqual(opened(lessonFile(wild, "1")).lesson, { ...STORY, title: "a b", told: [{ text: "one two // three", command: "step g0" }] }, "sentences have a line each");
});

test("files that are odd", () => {
  /** @param {string} script */
  const opened = (script) => fromFiles([{ name: "a.script", text: script }], SOURCE);
  assert.deepEqual(opened("// story: x\n// say: hello\nstep g0\n").lesson?.told, [{ text: "hello", command: "step g0" }], "a script alone is one of the source that is there");
  assert.equal(opened("// exercise: x\n// goal: {broken\nstep g0\n").lesson, null, "a goal that cannot be read is none");
  assert.deepEqual(opened("// a remark\n\n  step g0  \n//\n").commands, ["step g0"], "remarks and blanks are no commands");
  const both = `${SOURCE}\n// commands of Rewind:\n// step g0\n\n// run 2\nrun 3\n`;
  assert.deepEqual(fromFiles([{ name: "a.go", text: both }]).commands, ["step g0", "run 2"], "behind a source commands are comments");
  assert.deepEqual(fromFiles([{ name: "a.script", text: both }]).source, SOURCE, "also in a file of another name");
});

test("the source of a script", async () => {
  const digest = "ba7816bf8f01cfea414140de5dae2223b00361a396177a9cb410ff61f20015ad";
  assert.deepEqual([await isOfSource(digest, "abc"), await isOfSource(digest, "abd"), await isOfSource("", "abd")], [true, false, true], "is told by its SHA-256");
});

test("what is recorded", () => {
  const told = [{ text: "a", command: "step g0" }, { text: "b", command: "run 3" }];
  assert.deepEqual(recorded(["step g0"], told), told, "after a trial, all that was recorded");
  assert.deepEqual(recorded(["step g0", "run 3", "undo"], told).map(({ text }) => text), ["a", "b", ""], "later, what came besides");
  assert.deepEqual(recorded(["run 3"], told), [{ text: "b", command: "run 3" }], "and in another session its commands alone");
  assert.deepEqual(withTexts(["a", "b", "a"], [{ text: "1", command: "b" }, { text: "2", command: "a" }]).map(({ text }) => text), ["", "1", "2"], "sentences keep their order");
});

test("goals of a state and of all schedules", () => {
  const log = new Log();
  /** @param {string} x */
  const scene = (x, items = ["1"]) => ({
    goroutines: [{ name: "g0", state: "ready", steps: 4, line: 3, frames: [{ name: "main", variables: [{ name: "x", value: x }] }] }],
    channels: [{ name: "g0/c1", capacity: 1, isClosed: false, items, senders: [], receivers: [] }],
    console: { isOk: true, count: 0, lines: [] }, hidden: 0, isPartial: false, isStuck: false, clauses: new Map(), missing: "",
  });
  const state = stateOf(scene("1"));
  /** @type {(it: any, searched?: any) => any} */
  const now = (it, searched = null) => ({ log, scene: it, commands: [], cycle: [], pinned: "", searched });
  assert.ok(isReached({ state }, now({ ...scene("1"), console: { isOk: true, count: 1, lines: ["x"] } })), "a state is that of goroutines and channels");
  assert.equal(missing({ state }, now(scene("2"))), "g0 is not as it is asked");
  assert.equal(missing({ state }, now(scene("2", []))), "g0, g0/c1 are not as it is asked", "what is missing is named, and not told");
  const searched = (/** @type {number} */ status) => ({ source: "", status, sentence: "" });
  assert.deepEqual([null, searched(4), searched(5), searched(0)].map((it) => missing({ safe: true }, now(scene("1"), it))), ["all schedules are not searched: press Search all schedules", "a schedule of this program ends badly", "the search of all schedules came to no answer", ""], "all schedules are searched by the page");
});
