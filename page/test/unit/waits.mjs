// Who waits for whom: what goroutines wait for by their own names, what they may still do, and the cycle among them.

import assert from "node:assert/strict";
import { test } from "node:test";
import { Program } from "../../src/waiting/flows.js";
import { Roles } from "../../src/waiting/roles.js";
import { Sentences, wishesText } from "../../src/waiting/sentences.js";
import { Wishes, cycleAmong, waitsFor } from "../../src/waiting/waits.js";

const SOURCE = `package main
func use(lock chan int, done chan bool) {
	lock <- 1
	<-lock
	done <- true
}
func late(boxes chan chan int) {
	box := <-boxes
	for i := 0; i < 2; i++ { box <- i }
}
func main() {
	lock, done, boxes := make(chan int, 1), make(chan bool), make(chan chan int, 1)
	go use(lock, done)
	go late(boxes)
	for range lock {
	}
	select {}
}
`;
/**
 * @param {string} name
 * @param {string} func
 * @param {string} state
 * @param {number} line
 * @param {{[name: string]: string}} variables
 */
const goroutine = (name, func, state, line, variables) => ({
  name, state, line, steps: 1, frames: [{ name: func, variables: Object.entries(variables).map(([key, value]) => ({ name: key, value })) }],
});
/**
 * @param {string} name
 * @param {number} capacity
 * @param {string[]} [items]
 * @param {string[]} [senders]
 * @param {string[]} [receivers]
 */
const channel = (name, capacity, items = [], senders = [], receivers = []) => ({ name, capacity, isClosed: false, items, senders, receivers });

/** @typedef {import("../../src/waiting/waits.js").Hold} Hold */
/** @typedef {import("../../src/waiting/waits.js").Wish} Wish */
/** @type {Hold} */
const HOLD = { step: "g0.2#1", line: 3, callers: [], stand: "done", value: "1" };
/** @type {Wish} */
const WISH = { verb: "send", channel: "g0/c1", number: 0, value: "1", variable: "lock", capacity: 1, isRange: false, servers: [], behind: [], items: [], taken: null, last: null };
const program = new Program(SOURCE);

/**
 * @param {ReturnType<typeof goroutine>[]} goroutines
 * @param {Channel[]} channels
 */
function rolesOf(goroutines, channels) {
  const places = new Map(goroutines.map(({ name, line, frames }) => [name, [{ name: frames[0].name, line }]]));
  return new Roles(program, goroutines, places, channels);
}

test("what goroutines may still do", () => {
  const first = goroutine("g0.1", "use", "ready", 4, { lock: "g0/c1", done: "g0/c2" });
  const second = goroutine("g0.2", "late", "waiting", 8, { boxes: "g0/c3" });
  const empty = rolesOf([first, second], [channel("g0/c3", 1, [], [], ["g0.2"])]);
  assert.deepEqual([empty.verbs("g0.1", "g0/c1"), empty.verbs("g0.1", "g0/c2")], [["receive"], ["send"]], "what is ahead of a frame");
  assert.deepEqual(empty.verbs("g0.2", "g0/c1"), [], "what nobody sends comes to nobody");
  const full = rolesOf([second], [channel("g0/c3", 1, ["g0/c1"])]);
  assert.deepEqual(full.verbs("g0.2", "g0/c1"), ["send"], "a channel that is on its way may come");
  const given = rolesOf([goroutine("g0.2", "late", "ready", 8, { boxes: "g0/c3" })], [channel("g0/c3", 1)]);
  assert.deepEqual(given.verbs("g0.2", "g0/c9"), ["send"], "what was received and stands in no variable yet may be any channel");
});

test("what goroutines wait for", () => {
  /** @param {number} line */
  const waiting = (line) => goroutine("g0", "main", "waiting", line, { lock: "g0/c1", done: "g0/c2", boxes: "g0/c3" });
  /**
   * @param {Goroutine} one
   * @param {Channel[]} channels
   */
  const wishOf = (one, channels) => new Wishes(program, [one], channels).wishesOf(one);
  const [ranged] = wishOf(waiting(15), [channel("g0/c1", 1, [], [], ["g0"])]);
  assert.deepEqual([ranged.variable, ranged.isRange, ranged.verb], ["lock", true, "receive"], "a range by the variable of its statement");
  assert.deepEqual(wishOf(waiting(17), []), [], "a select without cases wishes nothing");
  const sender = goroutine("g0.1", "use", "waiting", 3, { lock: "g0/c1" });
  const wishes = wishOf(sender, [channel("g0/c1", 1, ["1"], ["g0.1=1"])]);
  assert.equal(wishesText({ wishes }), "send 1 to lock (g0/c1)", "a send with its value");
});

test("cycles", () => {
  /** @param {...string} names */
  const servers = (...names) => names.map((name) => ({ goroutine: name, verbs: [] }));
  /**
   * @param {string} name
   * @param {...string} names
   */
  const wait = (name, ...names) => ({ goroutine: name, places: [], since: "", wishes: [{ ...WISH, servers: servers(...names), capacity: 0 }] });
  assert.deepEqual(cycleAmong([wait("g0", "g0.1"), wait("g0.1", "g0.2"), wait("g0.2", "g0.1")]), ["g0.1", "g0.2"], "a cycle");
  assert.deepEqual(cycleAmong([wait("g0.1", "g0.2"), wait("g0.2", "g0.1", "g0.3")]), [], "none that may come loose");
  /** @param {Hold["stand"]} stand */
  const held = (stand) => [{ ...HOLD, stand }];
  const ofWish = (/** @type {Wish} */ wish) => waitsFor({ ...wait("g0.1"), wishes: [wish] });
  assert.deepEqual(ofWish({ ...WISH, servers: servers("g0.3"), items: held("may") }), ["g0.2"], "who holds a lock is waited for");
  assert.deepEqual(ofWish({ ...WISH, items: held("done") }), [], "and not who is done");
});

test("sentences", () => {
  const sentences = new Sentences(program, { go: {}, faults: {} });
  const wish = { ...WISH, behind: ["g0.3"], items: [HOLD] };
  assert.deepEqual(sentences.wait({ goroutine: "g0.1", places: [{ name: "use", line: 3 }], since: "", wishes: [wish] }), [
    "g0.1 waits to send 1 to lock (g0/c1) at line 3: lock <- 1",
    "    g0.2, which is done, put 1 into lock at line 3: lock <- 1 ('back g0.2#1' takes that back)",
    "    only g0.3 would receive from lock, after a send of its own that waits too",
  ], "a lock by sending that is not given back");
  assert.equal(sentences.fate({ goroutine: "g0.1", ending: "fault", line: 3, fault: "NameDepth" }), "g0.1 would stop the program at line 3: lock <- 1 (a limit of Rewind: NameDepth)", "a goroutine that would stop the program");
  assert.ok(sentences.wait({ goroutine: "g0", places: [{ name: "main", line: 17 }], since: "", wishes: [] })[0] === "g0 waits for ever at line 17: select {}", "a select without cases");
});
