// A run as a text for ShiViz, for Mermaid and as a table: letters that have a meaning there, clocks, arrows.

import assert from "node:assert/strict";
import { test } from "node:test";
import { toCsv, toMermaid, toShiviz } from "../../src/exports/formats.js";

const OVER = { text: "", isSend: false, channel: "", sent: "" };

/**
 * @param {string} id
 * @param {string} kind
 * @param {any} given
 * @returns {any}
 */
function fact(id, kind, { note = {}, ...rest } = {}) {
  const [goroutine, number] = id.split("#");
  const step = { id, goroutine, number: Number(number), kind, row: 0 };
  return { step, note: { line: 3, printed: [], woke: [], channels: [], received: "", taken: "", over: OVER, ...note }, says: "x", outcome: "", clock: [[goroutine, Number(number)]], edges: [], rests: [], ...rest };
}

/** @param {any[]} facts */
const runOf = (facts) => ({ facts, functions: new Map([["g0", "main"], ["g0.1", "f"]]), called: (/** @type {string} */ it) => `c (${it})` });

const SEND = fact("g0.1#1", "hand", { says: "c <- 1;", note: { over: { ...OVER, isSend: true, channel: "g0/c1", sent: "1" } }, clock: [["g0", 2], ["g0.1", 1]] });
const RECEIVE = fact("g0#3", "pure", { says: 'println("a, b")', clock: [["g0", 3], ["g0.1", 1]], edges: [{ from: "g0.1#1", to: "g0#3", kind: "message" }], rests: ["g0#2", "g0.1#1"], note: { printed: ["a, b"] } });

test("a log with vector clocks", () => {
  const [regex, blank, ...lines] = toShiviz(runOf([SEND, RECEIVE])).split("\n");
  assert.equal(blank, "", "the second line would part several runs");
  const read = [...lines.join("\n").matchAll(new RegExp(regex, "g"))].map(({ groups }) => groups);
  assert.deepEqual(read.map((it) => [it?.host, JSON.parse(it?.clock || "")]), [["g0.1", { g0: 2, "g0.1": 1 }], ["g0", { g0: 3, "g0.1": 1 }]], "its own first line reads it");
  assert.ok(read[1]?.event.includes('println("a, b")') && read[1]?.event.includes("“a, b”"), "with what each step did and printed");
});

test("a sequence diagram", () => {
  const [head, ...lines] = toMermaid(runOf([SEND, RECEIVE])).trimEnd().split("\n").map((line) => line.trim());
  assert.equal(head, "sequenceDiagram");
  assert.deepEqual(lines, ["participant g0 as g0 main", "participant g0_1 as g0.1 f", "g0_1->>g0: 1 over c (g0/c1)", "Note over g0: prints a, b"]);
});

test("arrows that give nothing are no messages", () => {
  const taken = fact("g0#2", "pick 1", { clock: [["g0", 2]] });
  const woken = fact("g0.1#2", "pure", { edges: [{ from: "g0#2", to: "g0.1#2", kind: "message" }] });
  assert.ok(toMermaid(runOf([taken, woken])).includes("g0-->>g0_1: comes before"), "of a step that sent nothing, only that it came before");
  const started = fact("g0.1#1", "pure", { edges: [{ from: "g0#1", to: "g0.1#1", kind: "start" }] });
  const text = toMermaid(runOf([fact("g0#1", "go", { says: "go f(<-c); #1" }), started]));
  assert.ok(text.includes("g0-)g0_1: go f(#lt;-c)#59; #35;1"), "letters that have a meaning in a diagram are written otherwise");
});

test("who waits at the end", () => {
  const wait = fact("g0#4", "recv-wait", { outcome: "waits for c" });
  assert.ok(toMermaid(runOf([wait])).includes("Note over g0: waits for c"));
  const met = fact("g0#4", "recv-wait", { outcome: "← 1", note: { received: "1" } });
  assert.ok(!toMermaid(runOf([met])).includes("Note"), "and not one that went on");
});

test("a table", () => {
  const [head, first, second] = toCsv(runOf([SEND, RECEIVE])).split("\r\n");
  assert.ok(head.startsWith("row,step,goroutine,kind,line,statement"), "its first row has names");
  assert.equal(first, '1,g0.1#1,g0.1,hand,3,c <- 1;,,,g0/c1,1,,,"{""g0"":2,""g0.1"":1}"');
  assert.equal(second, '1,g0#3,g0,pure,3,"println(""a, b"")",,"a, b",,,,g0#2 g0.1#1,"{""g0"":3,""g0.1"":1}"', "with quotes where a comma or a quote stands in a value");
  const lines = toCsv(runOf([fact("g0#1", "fault SendOnClosed", { note: { over: { ...OVER, isSend: true, sent: "7" } } })]));
  assert.ok(!lines.includes("7"), "a send that was a panic sent nothing");
});
