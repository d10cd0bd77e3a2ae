// The log follows replies, step by step, as the session's own log would say.

import assert from "node:assert/strict";
import { test } from "node:test";
import { Log } from "../../src/session/log.js";
import { parseReplies } from "../../src/engine/protocol.js";

/** @param {string} text */
const reply = (text) => parseReplies(text)[0];
/** @param {Log} log */
const ids = (log) => log.steps(0, log.length).map(({ id }) => id);

function filled() {
  const log = new Log();
  for (const step of ["g0#1 make", "g0#2 go", "g0.1#1 recv-wait", "g0#3 hand", "g0.1#2 pure"]) log.apply("step g", reply(`ok ${step}`));
  return log;
}

const MANY = 200000; // steps: more than a call takes arguments

test("very many steps go back, and are taken again", () => {
  const log = new Log();
  for (let step = 0; step < MANY; step++) log.append(step % 2 ? "g0.1" : "g0", "pure");
  const listed = `ok ${MANY - 1} ${ids(log).slice(1).join(" ")}`;
  log.apply("back g0.1#1", reply(listed));
  assert.deepEqual([ids(log), log.gone.size], [["g0#1"], MANY - 1], "a back of very many steps takes them");
  log.apply("redo", reply(listed));
  assert.deepEqual([log.length, new Set(ids(log)).size, log.gone.size], [MANY, MANY, 0], "and redo gives them back, each once");
});

test("the log follows replies", () => {
  const log = filled();
  assert.deepEqual(ids(log), ["g0#1", "g0#2", "g0.1#1", "g0#3", "g0.1#2"], "steps join the log");
  assert.deepEqual([log.names, log.channels], [["g0", "g0.1"], ["g0/c1"]], "names of goroutines and channels");
  assert.deepEqual([log.row("g0#3"), log.kindOf("g0.1#1"), log.row("g0.1#9"), log.before("g0#3")], [3, "recv-wait", -1, "g0#2"], "a step has its row and kind");
  assert.deepEqual(log.apply("undo", reply("ok g0.1#2")), ["g0.1#2"], "undo takes the last step");
  assert.deepEqual([log.apply("redo", reply("ok 1 g0.1#2")), ids(log).at(-1), log.kindOf("g0.1#2")], [[], "g0.1#2", "pure"], "and redo gives it back");
  log.apply("back g0#3", reply("ok 2 g0#3 g0.1#2"));
  assert.deepEqual(ids(log), ["g0#1", "g0#2", "g0.1#1"], "back takes the listed steps");
  assert.deepEqual([log.apply("redo", reply("ok 2 g0#3 g0.1#2")), log.kinds], [[], ["make", "go", "recv-wait", "hand", "pure"]], "and redo takes them again, with their kinds");
  log.apply("order g0#1 g0#2 g0#3 g0.1#1 g0.1#2", reply("ok"));
  assert.deepEqual(ids(log), ["g0#1", "g0#2", "g0#3", "g0.1#1", "g0.1#2"], "an order is that of its command");
  assert.equal(log.orderWith("g0.1#1", 2), "order g0#1 g0#2 g0.1#1 g0#3 g0.1#2", "the command that moves a step");
  log.apply("back g0#2", reply("no B6 1 g0.1#2"));
  assert.deepEqual([ids(log).length, log.gone.size], [4, 0], "of a back that memory stopped, what went is gone, and nothing can be done again");
  log.apply("back g0#9", reply("no B2"));
  assert.equal(ids(log).length, 4, "a refusal changes nothing");
});

test("a log that was read replaces what differs", () => {
  const log = filled();
  const of = Int32Array.from([0, 0, 1]);
  log.load({ isOk: true, names: ["g0", "g0.1"], kinds: ["make", "go", "pure"], of, kindOf: Int32Array.from([0, 1, 2]) });
  assert.deepEqual([ids(log), log.kinds, log.names], [["g0#1", "g0#2", "g0.1#1"], ["make", "go", "pure"], ["g0", "g0.1"]]);
});
