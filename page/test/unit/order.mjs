// The order of steps by what each touched: direct dependences with their kinds, and all causes.

import assert from "node:assert/strict";
import { test } from "node:test";
import { Facts } from "../../src/session/facts.js";
import { Log } from "../../src/session/log.js";
import { Order, WHOLE } from "../../src/session/order.js";

/** @typedef {[object: string, of: string, step: string | null, mark: "read" | "wrote"]} Touch */
/** @typedef {{id: string, kind: string, operation?: string, reached?: string[], touches: Touch[]}} Row */

/** @param {Row} row */
const told = ({ id, kind, operation, reached = [], touches }) => /** @type {any} */ ({
  id, kind, reached, channel: operation ? { name: "g0/c1", operation } : null,
  sources: touches.map(([object, of, step, mark]) => ({ object, of, step, slot: object === "slot" ? 0 : null, wrote: mark === "wrote" })),
});

/** @param {Row[]} rows */
function orderOf(rows) {
  const log = new Log();
  for (const { id, kind } of rows) log.append(id.split("#")[0], kind);
  const all = rows.map(told);
  return { log, order: new Order(log, new Facts(log, async (from, to) => all.slice(from, to))) };
}

// A channel with one place: g0 starts g0.1 and sends, g0.1 looks whether it can send, and takes; g0 closes, and g0.1 closes too.
/** @type {Row[]} */
const ROWS = [
  { id: "g0#1", kind: "make", touches: [["goroutine", "g0", null, "wrote"], ["gate", "g0/c1", null, "wrote"]] },
  { id: "g0#2", kind: "go", reached: ["g0.1"], touches: [["goroutine", "g0", "g0#1", "wrote"], ["goroutine", "g0.1", null, "wrote"]] },
  { id: "g0#3", kind: "buffer", operation: "send", touches: [["goroutine", "g0", "g0#2", "wrote"], ["gate", "g0/c1", "g0#1", "read"], ["slot", "g0/c1", null, "wrote"]] },
  { id: "g0.1#1", kind: "default", touches: [["goroutine", "g0.1", "g0#2", "wrote"], ["gate", "g0/c1", "g0#1", "read"]] },
  { id: "g0.1#2", kind: "take", operation: "receive", touches: [["goroutine", "g0.1", "g0.1#1", "wrote"], ["gate", "g0/c1", "g0#1", "read"], ["slot", "g0/c1", "g0#3", "wrote"]] },
  { id: "g0#4", kind: "close", operation: "close", touches: [["goroutine", "g0", "g0#3", "wrote"], ["gate", "g0/c1", "g0#1", "wrote"]] },
  { id: "g0.1#3", kind: "fault CloseOfClosed", operation: "close", touches: [["goroutine", "g0.1", "g0.1#2", "wrote"], ["gate", "g0/c1", "g0#4", "read"]] },
];

test("direct dependences, with their kinds", async () => {
  const { log, order } = orderOf(ROWS);
  await order.find(0, log.length);
  const found = log.steps(0, log.length).map(({ id }) => [id, (order.edges.get(id) || []).map(({ from, kind }) => `${kind} ${from}`)]);
  assert.deepEqual(Object.fromEntries(found), {
    "g0#1": [], "g0#2": [], "g0#3": [], "g0.1#1": ["start g0#2"], "g0.1#2": ["message g0#3"], "g0#4": ["order g0.1#2"], "g0.1#3": ["close g0#4"],
  }, "who has read before a write comes first, and a step on which another source rests has no arrow");
});

test("a value that was handed over, and who ended a wait", async () => {
  /** @type {Row[]} */
  const rows = [
    { id: "g0#1", kind: "go", reached: ["g0.1"], touches: [["goroutine", "g0", null, "wrote"], ["goroutine", "g0.1", null, "wrote"]] },
    { id: "g0.1#1", kind: "recv-wait", operation: "receive", touches: [["goroutine", "g0.1", "g0#1", "wrote"], ["gate", "g0/c1", null, "wrote"]] },
    { id: "g0#2", kind: "pick 1", operation: "send", reached: ["g0.1"], touches: [["goroutine", "g0", "g0#1", "wrote"], ["gate", "g0/c1", "g0.1#1", "wrote"], ["goroutine", "g0.1", "g0.1#1", "wrote"]] },
    { id: "g0.1#2", kind: "pure", touches: [["goroutine", "g0.1", "g0#2", "wrote"]] },
    { id: "g0#3", kind: "send-wait", operation: "send", touches: [["goroutine", "g0", "g0#2", "wrote"], ["gate", "g0/c1", "g0#2", "wrote"]] },
    { id: "g0.1#3", kind: "meet", operation: "receive", reached: ["g0"], touches: [["goroutine", "g0.1", "g0.1#2", "wrote"], ["gate", "g0/c1", "g0#3", "wrote"], ["goroutine", "g0", "g0#3", "wrote"]] },
    { id: "g0#4", kind: "pure", touches: [["goroutine", "g0", "g0.1#3", "wrote"]] },
  ];
  const { log, order } = orderOf(rows);
  await order.find(0, log.length);
  const found = [...order.edges.values()].flat().map(({ from, to, kind }) => `${from} ${kind} ${to}`);
  assert.deepEqual(found, ["g0#1 start g0.1#1", "g0.1#1 order g0#2", "g0#2 message g0.1#2", "g0#3 message g0.1#3", "g0.1#3 order g0#4"]);
});

test("all that a step depends on", async () => {
  const { log, order } = orderOf(ROWS);
  await order.find(0, log.length);
  const causes = (/** @type {string} */ id) => Object.fromEntries(order.causes(id) || []);
  assert.deepEqual([causes("g0.1#1"), causes("g0#4"), causes("g0.1#3")], [{ g0: 2, "g0.1": 1 }, { g0: 4, "g0.1": 2 }, { g0: 4, "g0.1": 3 }]);
  log.pop();
  log.pop();
  assert.deepEqual([order.next, order.causes("g0#4"), causes("g0.1#1")], [5, undefined, { g0: 2, "g0.1": 1 }], "what went is forgotten");
  log.append("g0", "close");
  await order.find(0, log.length);
  assert.deepEqual(order.edges.get("g0#4")?.map(({ from }) => from), ["g0.1#2"], "who had read before is known again");
});

test("all that depends on a step", async () => {
  const { log, order } = orderOf(ROWS);
  assert.equal(order.consequences("g0#1"), undefined, "is known of a log that was gone through alone");
  await order.find(0, log.length);
  const steps = log.steps(0, log.length);
  for (const { id, goroutine, number } of steps) {
    /** @type {{[name: string]: number}} */
    const wanted = {};
    for (const it of steps) if ((order.causes(it.id)?.get(goroutine) || 0) >= number) wanted[it.goroutine] ??= it.number;
    assert.deepEqual(Object.fromEntries(order.consequences(id) || []), wanted, id);
  }
});

test("of a long log the rows above the view alone are gone through", async () => {
  /** @type {Row[]} */
  const rows = Array.from({ length: WHOLE + 1000 }, (_, at) => ({ id: `g0#${at + 1}`, kind: "pure", touches: [["goroutine", "g0", at ? `g0#${at}` : null, "wrote"]] }));
  rows.push({ id: "g0.1#1", kind: "closed", operation: "receive", touches: [["goroutine", "g0.1", "g0#2", "wrote"], ["gate", "g0/c1", "g0#3", "read"]] });
  const { log, order } = orderOf(rows);
  await order.find(log.length - 10, log.length);
  assert.deepEqual([order.first > 18000, order.edges.get("g0.1#1")?.map(({ from }) => from), order.causes("g0.1#1")], [true, ["g0#2"], undefined], "an arrow from above the rows is drawn where the step gave something");
});
