// Numbers that stand for texts in a program that was carried over.

import assert from "node:assert/strict";
import { test } from "node:test";
import { Origin } from "../../src/session/origin.js";
import { Texts } from "../../src/session/texts.js";

const told = {
  carried: true, source: "package main\n", text: "", notes: [], places: [{ line: 3, source: 1, column: 1, function: "main", moves: "text" }],
  texts: ["", "bob", 'say "so"'], errors: ["<nil>", "none left"],
  forms: [
    { parts: [{ value: "text", most: 4000000 }, { text: "-" }, { value: "number", most: 4000000 }], most: 4000000 },
    { parts: [{ text: "is " }, { value: "truth", most: 4000 }, { text: ": " }, { value: "error", most: 4000 }], most: 4000 },
  ],
  variables: { main: { name: "text", out: "text", err: "error" } },
};

test("a text, an error, and what stands for itself", () => {
  const texts = new Texts(told);
  assert.deepEqual(["1", "2", "0", "7"].map((it) => texts.shown("text", it)), ['"bob"', '"say \\"so\\""', '""', "7"]);
  assert.deepEqual(["0", "1"].map((it) => texts.shown("error", it)), ["nil", '"none left"']);
  assert.deepEqual(["1", "g0/c1"].map((it) => texts.shown("", it)), ["1", "g0/c1"]);
});

test("a text that is made of values", () => {
  const texts = new Texts(told);
  const made = -((2n * 4000000n + 3n) * 1000n + 1n); // of the folded 1 and -2
  assert.equal(texts.shown("text", String(made)), '"bob--2"');
  assert.equal(texts.shown("text", String(-((2n * 4000n + 2n) * 1000n + 2n))), '"is true: none left"');
  assert.equal(texts.shown("text", "-1009"), "-1009", "there is no such form");
});

test("a scene and a note with their texts", () => {
  const origin = new Origin("package main\n", told);
  const frames = [{ name: "main", variables: [{ name: "name", value: "1" }, { name: "out", value: "g0/c1" }, { name: "n", value: "1" }] }];
  const scene = {
    goroutines: [{ name: "g0", state: "ready", steps: 1, line: 3, frames }], channels: [{ name: "g0/c1", capacity: 1, isClosed: false, items: ["1"], senders: ["g0.1@2=2"], receivers: ["g0.2"] }],
    console: { isOk: true, count: 0, lines: [] }, hidden: 0, isPartial: false, isStuck: false, clauses: new Map(), missing: "",
  };
  const { goroutines, channels } = origin.readable(scene);
  assert.deepEqual(goroutines[0].frames[0].variables.map(({ value }) => value), ['"bob"', "g0/c1", "1"]);
  assert.deepEqual([channels[0].items, channels[0].senders, channels[0].receivers], [['"bob"'], ['g0.1@2="say \\"so\\""'], ["g0.2"]]);
  const over = { text: "", isSend: true, channel: "g0/c1", sent: "1" };
  const note = { line: 3, statement: null, before: null, after: null, isValued: true, printed: [], woke: [], started: "", made: "", channels: [], over, received: "", part: "", turn: 0, taken: "", cases: [] };
  assert.equal(origin.readNote(note, scene)?.over.sent, '"bob"', "by its line");
  assert.equal(origin.readNote({ ...note, line: 9 }, scene)?.over.sent, '"bob"', "by its channel");
  assert.equal(new Origin("package main\n").readNote(note, scene), note, "a program that was not carried over is as it is");
});
