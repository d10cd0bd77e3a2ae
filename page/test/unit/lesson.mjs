// The words for states, exercises, links, files, comparisons and keys.

import assert from "node:assert/strict";
import { test } from "node:test";
import { fromFiles, toFile } from "../../src/control/filing.js";
import { checked, fromHash, toHash } from "../../src/control/linking.js";
import { isReached } from "../../src/lessons/exercises.js";
import { Log } from "../../src/session/log.js";
import { meantKey } from "../../src/control/keys.js";
import { paired } from "../../src/panes/compare.js";
import { differences } from "../../src/panes/preview.js";
import { endOfRun } from "../../src/panes/words.js";
import { sentValue } from "../../src/session/values.js";

/**
 * @param {string} name
 * @param {string} state
 * @param {number} line
 */
const one = (name, state, line, variables = {}) => ({
  name, state, line, steps: 1, frames: [{ name: "f", variables: Object.entries(variables).map(([key, value]) => ({ name: key, value })) }],
});
const CONSOLE = { isOk: true, count: 1, lines: ["20"] };

test("goals of exercises", () => {
  const log = new Log();
  log.append("g0", "pure");
  const scene = { goroutines: [one("g0", "waiting", 3)], channels: [], console: CONSOLE, hidden: 0, isPartial: false, isStuck: true, clauses: new Map(), missing: "" };
  /** @param {Goal} goal */
  const reached = (goal, commands = ["back g0#2"]) => isReached(goal, { log, scene, commands, cycle: [], pinned: "g0#1" });
  assert.deepEqual([{ printed: "20" }, { end: "deadlock" }, { kept: ["g0#1"] }, { without: ["g0#2"] }, { most: 1 }, { chosen: "g0#1" }].map((goal) => reached(goal)), Array(6).fill(true), "goals that are reached");
  assert.deepEqual([{ printed: "30" }, { end: "ended" }, { kept: ["g0#2"] }, { without: ["g0#1"] }, { most: 0 }, { only: "^step" }, { end: "cycle" }].map((goal) => reached(goal)), Array(7).fill(false), "goals that are not");
});

test("links and files", async () => {
  const shared = { source: "package main\n// é\n", commands: ["step g0", "run 20"], breaks: [4], chosen: "g0#1", theme: "dark", name: "deadlock" };
  assert.deepEqual(await fromHash(await toHash(shared)), shared, "a link holds the session");
  assert.equal(await fromHash("#repeat"), null, "another address holds none");
  let fault = "";
  await fromHash("#s=AAAA").catch((it) => (fault = String(it)));
  assert.ok(fault, "a damaged link is an error");
  assert.deepEqual(checked({ source: "x", commands: ["a", 7, "", "step g0\nstep g0"], breaks: [1, "2"], theme: 5 }), { source: "x", commands: ["a"], breaks: [1], chosen: "", theme: "", name: "" }, "what is read has the types that it must have");
  const file = { name: "a.go", text: toFile(shared, "1.2.0") };
  assert.deepEqual(fromFiles([file]), { source: shared.source, commands: shared.commands, name: "a", lesson: null, version: "1.2.0", digest: "" }, "one file holds source, commands and version");
  const script = { name: "a.script", text: "step g0\n".repeat(200000) };
  assert.equal(fromFiles([script]).commands.length, 200000, "a script may be very long");
  assert.deepEqual(fromFiles([{ name: "a.go", text: "package main\n" }, { name: "a.script", text: "step g0\n\nrun 3\n" }]), { source: "package main\n", commands: ["step g0", "run 3"], name: "a", lesson: null, version: "", digest: "" }, "so do two");
  const digest = "0123456789abcdef".repeat(4);
  const { commands, digest: read } = fromFiles([{ name: "a.script", text: `// commands for a.go, SHA-256 ${digest}\nrun 3\n` }]);
  assert.deepEqual([commands, read], [["run 3"], digest], "the line with which the shell names the source is no command");
});

test("two runs, and what goes with a step", () => {
  /** @param {string} id */
  const row = (id, kind = "pure") => ({ id, kind });
  const { same, rows } = paired([row("g0#1"), row("g0#2"), row("g0.1#1")], [row("g0#1"), row("g0.1#1"), row("g0#2"), row("g0#3")]);
  assert.equal(same, 1, "where two logs part");
  assert.deepEqual(rows.map(({ left, right }) => [left?.note, right?.note]), [["", ""], ["place 3 there", "place 3 there"], ["place 2 there", "place 2 there"], [undefined, "only here"]], "and how");
  /**
   * @param {string} x
   * @param {string[]} lines
   */
  const scene = (x, lines) => ({ goroutines: [one("g0", "ready", 3, { x })], channels: [], console: { isOk: true, count: lines.length, lines }, hidden: 0, isPartial: false, isStuck: false, clauses: new Map(), missing: "" });
  const found = differences(scene("2", ["a", "b", "a"]), scene("1", ["a"]));
  assert.deepEqual([found.lines, found.variables], [["b", "a"], [{ name: "g0 f x", was: "2", becomes: "1" }]], "what goes with a step");
});

test("keys of other alphabets", () => {
  /** @param {any} it */
  const key = (it) => meantKey({ shiftKey: false, ...it });
  assert.equal(key({ key: "a", code: "KeyQ" }), "a", "a letter of the Latin alphabet is itself");
  assert.deepEqual([key({ key: "ы", code: "KeyS" }), key({ key: "х", code: "BracketLeft" }), key({ key: "ς", code: "KeyW" })], ["s", "[", "w"], "one of another alphabet is its place");
  assert.equal(key({ key: "÷", code: "Slash", shiftKey: true }), "?", "and so is the question mark");
});

test("the value of a send", () => {
  const variables = [{ name: "balance", value: "7" }, { name: "c", value: "g0/c1" }, { name: "most", value: "9223372036854775807" }];
  /** @param {string} text */
  const value = (text) => sentValue(text, variables);
  assert.deepEqual(["out <- balance", "out <- 3", "out <- (balance + 3) * -2", "out <- true", "out <- c", "out <- most + 1"].map(value), ["7", "3", "-20", "true", "g0/c1", "-9223372036854775808"], "the value of a send, where its text tells it");
  assert.deepEqual(["out <- f(2)", "out <- balance / 2", "out <- other", "x := <-out", "out <- 07"].map(value), ["", "", "", "", ""], "and nothing else");
});

test("a run of an ended program says that it had ended before", () => {
  assert.equal(endOfRun(0, "ended"), "The program has ended before: there is no step to take.");
});
