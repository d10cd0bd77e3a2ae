// Two schedules beside each other.

import assert from "node:assert/strict";
import { test } from "node:test";
import { aligned, pairsOf } from "../../src/schedules/aligning.js";
import { outcomesOf } from "../../src/schedules/drawing.js";

/** @param {string} texts */
const steps = (texts) => texts.split(" ").map((text) => ({ id: text, kind: "pure", clock: "" }));

test("steps that both have stand on one line", () => {
  const { left, right, shared, parting } = aligned(steps("a b c x d"), steps("a b y z c d"));
  assert.deepEqual([left, right], [[0, 1, 4, 5, 6], [0, 1, 2, 3, 4, 6]]);
  assert.deepEqual([shared, parting], [4, 2]);
});

test("a step with other causes is another one", () => {
  const [one] = steps("a");
  assert.deepEqual(pairsOf([one], [{ ...one, clock: "[]" }]), []);
  assert.equal(aligned([one], [{ ...one, clock: "[]" }]).parting, 0);
});

test("as many as can stand in the order of both", () => {
  assert.deepEqual(pairsOf(steps("a b c"), steps("c a b")), [[0, 1], [1, 2]]);
});

test("the same schedules do not part", () => {
  assert.deepEqual(aligned(steps("a b"), steps("a b")), { left: [0, 1], right: [0, 1], shared: 2, parting: -1 });
});

test("outcomes are counted by end and print", () => {
  const one = (/** @type {any} */ end, /** @type {string[]} */ printed, length = 1) => ({ end, fault: "", printed, commands: [], steps: Array(length).fill({}) });
  const found = outcomesOf([one("ended", ["1"], 3), one("ended", ["2"]), one("ended", ["1"], 2), one("deadlock", ["1"]), one("deadlock", [])]);
  assert.deepEqual(found.map(({ count, shown }) => [count, shown.end, shown.steps.length]), [[2, "ended", 2], [1, "ended", 1], [2, "deadlock", 1]]);
});
