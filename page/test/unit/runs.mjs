// Long runs go in portions: none passes a breakpoint, and each can be stopped.

import assert from "node:assert/strict";
import { test } from "node:test";
import { runInPortions } from "../../src/session/runs.js";

// A session whose step number `at` is the only one that begins at a breakpoint.
/** @param {number} at */
function session(at, length = Infinity) {
  const it = {
    taken: 0,
    asked: /** @type {number[]} */ ([]),
    hasBreaks: () => at < Infinity,
    async undo() {
      it.taken--;
      return { isOk: true, words: ["ok"], lines: [], last: "" };
    },
    /** @param {number} steps */
    async run(steps) {
      it.asked.push(steps);
      let count = 0;
      while (count < steps && it.taken < length && !(count > 0 && it.taken === at)) {
        it.taken++;
        count++;
      }
      const reason = it.taken >= length ? "ended" : count < steps ? "break 8" : "count";
      return { isOk: true, words: ["ok", String(count), ...reason.split(" ")], lines: [], last: "" };
    },
  };
  return it;
}

for (const at of [1999, 2000, 2001, 7000]) {
  test(`a breakpoint after ${at} steps is met`, async () => {
    const it = session(at);
    assert.deepEqual([(await runInPortions(it, 100000, () => true)).taken, it.taken], [at, at]);
  });
}

test("without breakpoints a run takes as many as asked, in few portions", async () => {
  const plain = session(Infinity);
  const end = await runInPortions(plain, 100000, () => true);
  assert.deepEqual([end.taken, end.reason, plain.taken], [100000, "count", 100000]);
  assert.ok(plain.asked.length < 20);
});

test("a run that is stopped says so, and one that ends", async () => {
  assert.equal((await runInPortions(session(Infinity), 100000, (taken) => taken < 10000)).reason, "stopped");
  assert.deepEqual(await runInPortions(session(Infinity, 5000), 100000, () => true), { taken: 5000, reason: "ended" });
});
