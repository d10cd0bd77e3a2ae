// Causes and consequences: each list is asked once, and none that the order of the steps tells.

import assert from "node:assert/strict";
import { test } from "node:test";
import { Known } from "../../src/session/known.js";
import { Log } from "../../src/session/log.js";
import { parseReplies } from "../../src/engine/protocol.js";
import { shapedText } from "../../src/engine/shapes.js";

/** @type {{[command: string]: string}} */
const ANSWERS = {
  "causes g0#2": "ok 2 g0#1 g0#2\n", "deps g0#2": "ok 3 g0#2 g0.1#1 g0#3\n", "causes g0.1#1": "ok 3 g0#1 g0#2 g0.1#1\n", "deps g0.1#1": "ok 1 g0.1#1\n",
};

function made() {
  const log = new Log();
  for (const step of ["g0#1 make", "g0#2 go", "g0.1#1 pure", "g0#3 pure"]) log.apply(`step ${step.split("#")[0]}`, parseReplies(`ok ${step}\n`)[0]);
  /** @type {string[]} */
  const asked = [];
  const [clocks, firsts] = [new Map(), new Map()];
  const order = { causes: (/** @type {string} */ id) => clocks.get(id), consequences: (/** @type {string} */ id) => firsts.get(id), find: async () => {} };
  const reader = {
    log, order,
    /** @param {string[]} commands */
    async lists(commands) {
      asked.push(...commands);
      return commands.flatMap((command) => shapedText(ANSWERS[command], "listed"));
    },
  };
  return { log, asked, clocks, firsts, known: new Known(/** @type {any} */ (reader)) };
}

/** @param {{count: number, spans: Map<string, number[]>}[]} some */
const told = (some) => some.map(({ count, spans }) => [count, [...spans].sort()]);

test("causes and consequences of a step are asked once, and none that the order tells", async () => {
  const { log, asked, clocks, firsts, known } = made();
  const first = await known.of("g0#2");
  assert.deepEqual(told(first), [[2, [["g0", [1, 2]]]], [3, [["g0", [2, 3]], ["g0.1", [1, 1]]]]], "the causes and the consequences of a step");
  assert.deepEqual([told(await known.of("g0#2")), asked.splice(0)], [told(first), ["causes g0#2", "deps g0#2"]], "a step that is pointed at again is not asked for");
  assert.deepEqual([known.has("g0#2"), known.has("g0.1#1")], [true, false], "what is known is told so");
  clocks.set("g0.1#1", new Map([["g0", 2], ["g0.1", 1]]));
  assert.deepEqual(told(await known.of("g0.1#1")), [[3, [["g0", [1, 2]], ["g0.1", [1, 1]]]], [1, [["g0.1", [1, 1]]]]], "causes that the order tells are those of a reply");
  assert.deepEqual(asked.splice(0), ["deps g0.1#1"], "and are not asked for");
  firsts.set("g0#2", new Map([["g0", 2], ["g0.1", 1]]));
  assert.deepEqual(told(await known.of("g0#2"))[1], told(first)[1], "so are consequences that the order tells");
  log.apply("undo", parseReplies("ok g0#3\n")[0]);
  assert.equal(known.has("g0#2"), false, "of a log that has changed nothing of before is kept");
});

// Most steps of such a list need not be read.
test("lists as long as those of 100,000 steps", () => {
  const steps = [];
  for (let row = 0; row < 9000; row++) steps.push(row % 3 ? `g0#${steps.length - Math.floor(row / 3)}` : `g0.1#${row / 3 + 1}`);
  const names = [...steps.slice(0, 4000), "g0.2#1", "g0.2#2", ...steps.slice(4000)];
  const [list] = shapedText(`ok ${names.length} ${names.join(" ")}\n`, "listed");
  assert.deepEqual([...list.spans].sort(), [["g0", [1, 6000]], ["g0.1", [1, 3000]], ["g0.2", [1, 2]]], "a goroutine in the midst of a long list is found");
  assert.deepEqual(shapedText("ok 0\nno N1\n", "listed").map(({ isOk, count, last }) => [isOk, count, last]), [[true, 0, "ok"], [false, 0, "no N1"]], "an empty list, and a refusal");
});
