// What is told of steps: asked in portions, once, as far as somebody looks, and anew where the log has changed.

import assert from "node:assert/strict";
import { test } from "node:test";
import { channelsOf, Facts, slotOf, startedBy, wokenBy } from "../../src/session/facts.js";
import { Log } from "../../src/session/log.js";

function made(length = 1200) {
  const log = new Log();
  for (let step = 0; step < length; step++) log.append("g0", "pure");
  /** @type {[number, number][]} */
  const asked = [];
  const facts = new Facts(log, async (from, to) => {
    asked.push([from, to]);
    return log.steps(from, to).map(({ id, kind }) => /** @type {any} */ ({ id, kind }));
  });
  return { log, asked, facts };
}

test("rows are asked once, in portions, where somebody looks", async () => {
  const { log, asked, facts } = made();
  await facts.need(700, 800);
  await facts.need(600, 1000);
  assert.deepEqual([asked.splice(0), facts.at(600)?.id, facts.of("g0#1000")?.id, facts.at(0)], [[[500, 1000]], "g0#601", "g0#1000", undefined]);
  await facts.need(900, 5000);
  log.append("g0", "pure");
  await facts.need(900, 5000);
  assert.deepEqual(asked, [[1000, 1200], [1200, 1201]], "of what came since the new rows are asked alone");
});

test("what changed is told anew", async () => {
  const { log, asked, facts } = made(10);
  await facts.need(0, 10);
  log.pop();
  log.pop();
  assert.deepEqual([facts.at(7)?.id, facts.at(8)], ["g0#8", undefined]);
  log.append("g0", "make");
  await facts.need(0, 9);
  assert.deepEqual([asked.pop(), facts.at(8)?.kind], [[8, 9], "make"]);
});

test("an answer about a log that changed meanwhile is none", async () => {
  const { log, facts } = made(10);
  const needed = facts.need(0, 10);
  log.pop();
  await needed;
  assert.equal(facts.at(0), undefined);
});

const wait = (/** @type {string} */ goroutine, /** @type {string} */ step) => ({ object: "goroutine", of: goroutine, slot: null, step, wrote: true });
const gate = (/** @type {string} */ of) => ({ object: "gate", of, slot: null, step: null, wrote: false });

test("what a step ended, and where its value lay", () => {
  const slot = { object: "slot", of: "g0/c1", slot: 1, step: "g0#4", wrote: true };
  const take = /** @type {any} */ ({ kind: "take", channel: { name: "g0/c1", operation: "receive" }, reached: ["g0.1"], sources: [wait("g0", "g0#9"), wait("g0.1", "g0.1#3"), slot] });
  assert.deepEqual([wokenBy(take), slotOf(take), channelsOf(take)], [["g0.1#3"], slot, ["g0/c1"]]);
  assert.deepEqual(wokenBy(/** @type {any} */ ({ kind: "go", reached: ["g0.2"], sources: [] })), [], "a start ends no wait");
  const select = /** @type {any} */ ({ kind: "select-wait", channel: null, sources: [gate("g0/c1"), gate("g0/c2"), gate("g0/c1")] });
  assert.deepEqual(channelsOf(select), ["g0/c1", "g0/c2"], "a select looked at all of its channels");
  assert.deepEqual(channelsOf(/** @type {any} */ ({ kind: "pure", channel: null, sources: [] })), []);
  assert.deepEqual(channelsOf(/** @type {any} */ ({ kind: "make", channel: null, made: "g0/c1", sources: [] })), ["g0/c1"]);
  assert.deepEqual([startedBy(/** @type {any} */ ({ kind: "go", reached: ["g0.2"] })), startedBy(/** @type {any} */ ({ kind: "hand", reached: ["g0.2"] }))], ["g0.2", ""]);
});
