// The picture: rows and folds, edges that keep clear of the marks of others, and texts that XML can hold.

import assert from "node:assert/strict";
import { test } from "node:test";
import { Log } from "../../src/session/log.js";
import { Rows } from "../../src/picture/rows.js";
import { edgePath } from "../../src/picture/curves.js";
import { worksOn } from "../../src/session/operations.js";
import { escaped, shortened } from "../../src/picture/labels.js";
import { layOut } from "../../src/picture/layout.js";
import { lineOf } from "../../src/picture/outcomes.js";
import { drawLanes } from "../../src/picture/lanes.js";
import { drawLines } from "../../src/picture/lines.js";
import { NOTHING_POINTED, sideOf } from "../../src/picture/picture.js";

/** @type {any} */
const KNOWN = { functions: new Map(), notes: () => undefined, called: (/** @type {string} */ it) => it, does: (/** @type {string} */ it) => it };

/** @param {...[goroutine: string, kind: string]} steps */
function logOf(...steps) {
  const log = new Log();
  for (const [goroutine, kind] of steps) log.append(goroutine, kind);
  return log;
}

// Points of a path, a straight line, a quadratic curve or a way around, every so often.
/** @param {string} path */
function pointsOf(path) {
  const found = [];
  let here = null;
  for (const [, letter, rest] of path.matchAll(/([MLQ])([^MLQ]*)/g)) {
    const numbers = rest.trim().split(/[ ,]+/).map(Number);
    const end = numbers.slice(-2);
    const middle = letter === "Q" ? numbers.slice(0, 2) : null;
    for (let at = 0; here && at <= 1; at += 0.02) {
      /**
       * @param {number[]} one
       * @param {number[]} other
       */
      const mix = (one, other) => [one[0] + (other[0] - one[0]) * at, one[1] + (other[1] - one[1]) * at];
      found.push(middle ? mix(mix(here, middle), mix(middle, end)) : mix(here, end));
    }
    here = end;
  }
  return found;
}

test("edges keep clear of the marks of others", () => {
  /** @type {[number, number][]} */
  const marks = [[200, 60], [200, 82], [200, 104], [200, 126]];
  /** @param {number} y */
  const near = (y) => marks.filter((it) => Math.abs(it[1] - y) < 30);
  for (const to of /** @type {[number, number][]} */ ([[300, 82], [300, 126], [300, 71], [100, 104]])) {
    const clear = pointsOf(edgePath([100, 60], to, near, 22)).filter(([x, y]) => marks.every(([left, top]) => Math.hypot(left - x, top - y) >= 5));
    assert.deepEqual(clear.length, pointsOf(edgePath([100, 60], to, near, 22)).length, `an edge to ${to} keeps clear of the marks of others`);
  }
  assert.ok(!/Q/.test(edgePath([100, 60], [200, 200], () => [], 22)), "an edge with nothing in its way is straight");
});

test("folds and hidden goroutines", () => {
  const log = logOf(["g0", "pure"], ["g0", "pure"], ["g0", "call"], ["g0.1", "pure"], ["g0", "pure"], ["g0", "send-wait"]);
  const rows = new Rows(log, { isFolded: true });
  assert.deepEqual([rows.length, rows.count(0), rows.at(1), rows.place(2), rows.place(5)], [4, 3, 3, 0, 3], "own statements fold to one row");
  const filtered = new Rows(log, { hidden: new Set(["g0"]) });
  assert.deepEqual([filtered.length, filtered.at(0)], [1, 3], "a goroutine that is hidden has no rows");
});

test("rows stay as they are where a goroutine is hidden later", () => {
  const log = logOf(["g0", "go"], ["g0.1", "pure"]);
  /** @type {Set<string>} */
  const hidden = new Set();
  const rows = new Rows(log, { hidden });
  hidden.add("g0.1");
  const { lanes, names } = layOut({ ...KNOWN, log, rows }, { rowHeight: 22 });
  assert.deepEqual([Number.isFinite(lanes), names], [true, ["g0", "g0.1"]]);
});

test("the operations of a channel", () => {
  const log = logOf(["g0", "make"], ["g0", "make"], ["g0", "pure"], ["g0", "buffer"], ["g0", "take"], ["g0", "close"]);
  /** @type {Map<string, any>} */
  const notes = new Map([["g0#1", { channels: ["g0/c1"] }], ["g0#2", { channels: ["g0/c2"] }], ["g0#3", { channels: [] }], ["g0#4", { channels: ["g0/c1"] }], ["g0#5", { channels: ["g0/c2"] }]]);
  const rows = new Rows(log, { isShown: worksOn(log, (id) => notes.get(id), "g0/c2") });
  assert.deepEqual(rows.starts, [1, 4, 5], "a channel's operations, where it was made, and steps without a note");
  assert.deepEqual([0, 1, 2, 4].map((row) => rows.has(row)), [false, true, false, true], "steps that are in the picture");
  assert.equal(worksOn(log, () => undefined, "g0/c3"), null, "a channel that no step made");
});

test("what steps are to the chosen one", () => {
  const view = { ...NOTHING_POINTED, pointed: "g0#2", causes: new Map([["g0", [1, 2]], ["g0.1", [1, 1]]]), consequences: new Map([["g0.1", [3, 5]]]) };
  /**
   * @param {string} goroutine
   * @param {number} number
   */
  const side = (goroutine, number) => sideOf({ id: `${goroutine}#${number}`, goroutine, number, kind: "pure", row: 0 }, view);
  assert.deepEqual([side("g0", 1), side("g0", 2), side("g0", 3), side("g0.1", 1), side("g0.1", 2), side("g0.1", 3)], ["cause", "", "", "cause", "", "consequence"], "what steps are to the chosen one");
});

test("texts that XML can hold", () => {
  assert.equal(escaped("a\ufffe<b>\u0001&\ud800"), "a\ufffd&#60;b&#62;\ufffd&#38;\ufffd");
  assert.equal(shortened("total := first + second", 12), "total := fi…", "a long statement is cut");
});

test("a fault is drawn as one", () => {
  const log = logOf(["g0", "pure"], ["g0", "fault DivideByZero"]);
  const place = layOut({ ...KNOWN, log, rows: new Rows(log) }, { rowHeight: 22 });
  assert.ok(drawLanes(place, [], NOTHING_POINTED, 0, 1).includes('class="step fault"'));
  assert.ok(drawLines(place, NOTHING_POINTED, 0, 1, {}).includes('class="step fault"'));
});

// Lanes come closer together as they become more, and from twelve on they scroll beside a text that keeps its room.
test("lanes and columns of text", () => {
  const widths = [3, 8, 11, 12, 60].map((count) => {
    const log = logOf(...Array.from({ length: count - 1 }, () => /** @type {[string, string]} */ (["g0", "go"])));
    const { lanes, lanesInView, lineWidth, columns, names } = layOut({ ...KNOWN, log, rows: new Rows(log) }, { rowHeight: 22, room: 750 });
    assert.equal(names.length, count);
    assert.ok(lanesInView + lineWidth === 750 && columns.number < columns.statement && columns.statement < columns.outcome && !columns.isStacked, `${count} goroutines leave columns of text beside each other`);
    return [lanes, lanesInView];
  });
  assert.ok(widths.slice(0, 3).every(([lanes, inView]) => lanes === inView), "up to eleven lanes are in view at once");
  assert.ok(widths.slice(3).every(([lanes, inView]) => lanes > inView && inView === widths[3][1]), "more of them scroll in the same room");
  const narrow = logOf(["g0", "go"]);
  assert.ok(layOut({ ...KNOWN, log: narrow, rows: new Rows(narrow) }, { rowHeight: 22, room: 372 }).columns.isStacked, "on a phone the outcome stands below its statement");
});

// What came of a step: a value that it gave, a message, a wait, a print.
test("what came of a step", () => {
  const log = logOf(["g0", "take"], ["g0", "pure"], ["g0", "recv-wait"], ["g0", "pure"]);
  const frame = (/** @type {string[]} */ ...values) => ({ depth: 1, variables: values.map((value, at) => ({ name: `x${at}`, value })) });
  const note = { statement: { text: "x0 := <-c" }, printed: [], part: "", received: "", taken: "", over: { channel: "g0/c1", sent: "", isSend: false }, before: null, after: null };
  /** @type {Map<string, any>} */
  const notes = new Map([["g0#1", { ...note, received: "7" }], ["g0#2", { ...note, before: frame(), after: frame("7") }], ["g0#3", note], ["g0#4", { ...note, printed: ["7"], before: frame("7"), after: frame("8") }]]);
  const known = { ...KNOWN, notes: (/** @type {string} */ id) => notes.get(id), called: () => "c (g0/c1)" };
  const place = layOut({ ...known, log, rows: new Rows(log) }, { rowHeight: 22 });
  const told = log.steps(0, 4).map((step) => lineOf(step, notes.get(step.id), place).outcome.map(({ name, text }) => `${name}: ${text}`));
  assert.deepEqual(told, [["received: ← 7", "muted: from c (g0/c1)"], ["given: x0 = 7"], ["waits: waits for c (g0/c1)"], ["given: x0 = 8", "printed: “7”"]]);
});

test("where a column is short, a channel goes by its variable", () => {
  const log = logOf(["g0", "recv-wait"]);
  const note = /** @type {any} */ ({ over: { channel: "g0/c1" }, printed: [], cases: [], woke: [] });
  const called = () => "numbers (g0/c1)";
  const place = layOut({ ...KNOWN, called, log, rows: new Rows(log) }, { rowHeight: 22 });
  const told = [25, 20, 14].map((mostOutcome) => lineOf(log.step(0), note, { ...place, columns: { ...place.columns, mostOutcome } }).outcome[0].text);
  assert.deepEqual(told, ["waits for numbers (g0/c1)", "waits for numbers", "waits for num…"]);
});
