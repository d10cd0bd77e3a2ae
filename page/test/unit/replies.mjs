// Replies, and what a worker hands on of them.

import assert from "node:assert/strict";
import { test } from "node:test";
import { compareNames, encoder, parseChannel, parseFault, parseGoroutine, parseReplies, parseWaiter, textOf } from "../../src/engine/protocol.js";
import { columnsIn } from "../../src/engine/columns.js";
import { shapedAnswers, shapedText } from "../../src/engine/shapes.js";

test("a goroutine, and a refusal", () => {
  const [first, second] = parseReplies("| g0.2 waiting 3 line 5\n| transfer from=g0/c2 x=100\n| main\nok\nno N2\n");
  assert.deepEqual(parseGoroutine(first), {
    name: "g0.2", state: "waiting", steps: 3, line: 5,
    frames: [{ name: "transfer", variables: [{ name: "from", value: "g0/c2" }, { name: "x", value: "100" }] }, { name: "main", variables: [] }],
  });
  assert.deepEqual([second.isOk, second.words], [false, ["no", "N2"]]);
});

test("a channel, and those that wait at it", () => {
  const [channel] = parseReplies("| cap 2 open\n| items 3 4\n| senders g0=5 g0.1@2=6\n| receivers\nok\n");
  assert.deepEqual(parseChannel("g0/c1", channel), { name: "g0/c1", capacity: 2, isClosed: false, items: ["3", "4"], senders: ["g0=5", "g0.1@2=6"], receivers: [] });
  assert.deepEqual(["g0.1@2=6", "g0.1", "g0=-5"].map(parseWaiter), [
    { goroutine: "g0.1", clause: 2, value: "6" }, { goroutine: "g0.1", clause: 0, value: "" }, { goroutine: "g0", clause: 0, value: "-5" },
  ]);
});

test("the order of names", () => {
  assert.deepEqual(["g0.10", "g0.2", "g0", "g0.2.1"].sort(compareNames), ["g0", "g0.2", "g0.2.1", "g0.10"]);
});

test("a fault, and none", () => {
  assert.deepEqual(parseFault("rewind: C7 at 2:15\n"), { code: "C7", line: 2, column: 15, text: "rewind: C7 at 2:15" });
  assert.equal(parseFault("hello"), null);
});

test("a list of steps as the first and last of each goroutine", () => {
  const [list] = shapedText("ok 4 g0#1 g0.1#1 g0#2 g0#3\n", "listed");
  assert.deepEqual([list.count, [...list.spans].sort()], [4, [["g0", [1, 3]], ["g0.1", [1, 1]]]]);
});

test("a log as columns", () => {
  const log = columnsIn(encoder.encode("| g0#1 make\n| g0.1#1 pick 2\n| g0#2 make\nok 3\n"));
  assert.deepEqual([log.names, log.kinds, [...log.of], [...log.kindOf]], [["g0", "g0.1"], ["make", "pick 2"], [0, 1, 0], [0, 1, 0]]);
  const refused = columnsIn(encoder.encode("no Q1\n"));
  assert.equal(refused.isOk, false, "a refused question is told from an empty answer");
});

test("the answers to a client", () => {
  const stepped = '{"reply":{"answer":"stepped","id":"g0#1","kind":"make"},"text":"ok g0#1 make\\n"}';
  const printed = '{"reply":{"answer":"lines","lines":["\\"text\\":"]},"text":"| \\"text\\":\\nok\\n"}';
  const [first, second] = shapedAnswers(encoder.encode(`${stepped}\n${printed}\n`), "replies");
  assert.deepEqual([first.words, second.lines], [["ok", "g0#1", "make"], ['"text":']]);
  assert.equal(textOf('{"error":"bad request","expected":"a command","text":"? bad command\\n"}'), "? bad command\n");
  assert.deepEqual(shapedAnswers(encoder.encode('{"about":[],"next":null}\n'), "told"), [{ about: [], next: null }]);
});
